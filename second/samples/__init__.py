"""Lists, rules, files and texts that checks, cases and tests draw from, and the figures that the papers print."""
