"""Which cases each case-running program gets: crates/NAME_cases by these modules, one after the other."""

from second.cases import counts, figures, verdict, worth

MODULES = {"verdict": (verdict,), "figures": (figures, worth), "counts": (counts,)}
