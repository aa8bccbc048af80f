"""The tests that are not proofs: python3 -m tests.NAME runs one of them, python3 -m tests.others LOG all."""
