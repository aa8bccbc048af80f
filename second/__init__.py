"""The second program: the rules of documents 01 and 02 written down in plain Python.

Slow and plain on purpose: every function restates one sentence or row of a document, so that the two can be read side by side. It shares nothing with the
proved programs that it checks.

    model    what the documents say, what each call answers and each program prints
    checks   the model against the documents, their sources and itself by other ways: python3 -m second.checks
    cases    case files for the proved programs, and their answers: python3 -m second.cases NAME STDIN STDOUT
    samples  the lists, rules, files and texts that these and the tests draw from, and the figures that the papers print
"""
