"""Marked case A of document 01: periods 4, 6 and 8, then 2, which is refused with 5, then 12. The 6 and the 12 are
tried first, and after the refusal each class of each node is asked for its reason. Prints what the library answers;
exits with 1 where that differs from documents 01 and 02."""

import pathlib
import sys

sys.path.insert(0, str(pathlib.Path(__file__).resolve().parents[1] / "bindings/python"))

import gaplinte  # noqa: E402


def book(plan, line, period):
    """Opens a line; gives its start, or what it is refused with."""
    try:
        start = plan.open(line, period)
    except gaplinte.Refused as refused:
        print(f"line {line}, period {period}: {refused}")
        return f"refused with {refused.number}"
    print(f"line {line}, period {period}: starts at {start}")
    return start


def tell(plan, line, period):
    """Gives what the open of a line would do. The plan is only read."""
    told = plan.trial(line, period)
    split = "yes" if told.split else "no"
    print(f"line {line}, period {period}: would start at {told.start}, nodes added {told.added}, split {split}")
    return told


def explain(plan, period, level, offset, edge_class):
    """Gives the line that keeps a period from a class of a node, or None where the node's step does not divide it."""
    reason = plan.reason(period, level, offset, edge_class)
    print(f"period {period}, level {level}, offset {offset}, class {edge_class}: {reason}")
    return reason.line


def ask(plan, round):
    """Gives the owner of a round."""
    owner = plan.owner(round)
    if owner.line is None:
        print(f"round {round}: idle, the next owned round is {owner.rest} later")
    else:
        print(f"round {round}: line {owner.line}")
    return owner


def main():
    plan = gaplinte.Plan()
    answers = [
        book(plan, 1, 4),
        tell(plan, 2, 6),
        book(plan, 2, 6),
        book(plan, 3, 8),
        book(plan, 4, 2),
    ]
    classes = [(0, 0, 0), (0, 0, 1), (1, 0, 0), (1, 1, 0), (2, 2, 0)]
    reasons = [explain(plan, 2, *asked) for asked in classes]
    answers += [tell(plan, 4, 12), book(plan, 4, 12)]
    owners = [ask(plan, round) for round in (7, 9, 10)]
    expected = [0, (1, 2, True), 1, 2, "refused with 5", (3, 1, False), 3]
    as_expected = answers == expected and reasons == [1, 2, 1, 2, None]
    return 0 if as_expected and owners == [(2, None), (None, 1), (3, None)] else 1


if __name__ == "__main__":
    sys.exit(main())
