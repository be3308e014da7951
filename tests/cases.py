"""Common to the scripts of tests/ in Python that try cases: functions that print and count the cases, as cases.sh has them."""
import pathlib
import sys

counts = {"passed": 0, "failed": 0}


def passes(case):
    counts["passed"] += 1
    print(f"ok      {case}", flush=True)


def fails(case, came):
    counts["failed"] += 1
    print(f"FAILED  {case}: {came}", flush=True)


def holds(case, wrong):
    """A case that passes if nothing is wrong."""
    if wrong:
        fails(case, "\n        ".join(wrong))
    else:
        passes(case)


def tell():
    """Prints the last line of a script; its status."""
    print("{}: {passed} passed, {failed} failed".format(pathlib.Path(sys.argv[0]).stem, **counts))
    return 0 if counts["passed"] and not counts["failed"] else 1
