"""Runs every group of checks. Each group yields pairs: what was found, and what it must equal."""

import sys

from second.checks import boards, doubles, mending, rules, season, spares, states, typed

PARTS = (rules, doubles, boards, mending, season, states, typed, spares)


def run_group(group):
    """Number of checks and of failures in the group; the first failures are shown."""
    checks = failures = 0
    for found, wanted in group():
        checks += 1
        if found != wanted:
            failures += 1
            if failures <= 3:
                print(f"  {group.__name__}: check {checks} gives {found}, not {wanted}")
    print(f"{group.__name__.replace('_', ' ')}: {checks} checks")
    # A group that checked nothing has failed.
    return checks, failures if checks else 1


def main():
    results = [run_group(group) for part in PARTS for group in part.GROUPS]
    checks, failures = (sum(column) for column in zip(*results))
    print(f"second program: {checks} checks, {failures} failed")
    return 1 if failures else 0


if __name__ == "__main__":
    sys.exit(main())
