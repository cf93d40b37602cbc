#!/usr/bin/env python3
"""Guests at tables: who sits with whom, found by wmax within a time, and checked where that suffices.

    examples/seating.py              prints the tables, and what is given up
    examples/seating.py --wcnf       prints the instance alone, with the names of its variables
    examples/seating.py SECONDS      searches for so long at most (60)

Change the tables below to plan something else. It stands on python/wmax.py, which runs ./wmax, or
WMAX in the environment. Where the time did not suffice, the best seating so far is printed, and the
line with its cost says so.
"""
import pathlib
import sys

GUESTS = ["Ann", "Ben", "Cem", "Dora", "Emil", "Fay", "Gita", "Hugo", "Ida", "Jan"]
TABLES = [1, 2, 3]

# How many sit at a table.
FEWEST, MOST = 3, 4

# These have to sit at one table.
PAIRS = [("Ann", "Ben"), ("Gita", "Hugo")]

# These must not.
RIVALS = [("Ann", "Gita"), ("Cem", "Emil")]

# What it costs if these sit at different tables.
FRIENDS = [
    ("Ann", "Cem", 5), ("Ben", "Dora", 3), ("Cem", "Dora", 2), ("Emil", "Fay", 6), ("Fay", "Gita", 4),
    ("Hugo", "Ida", 4), ("Ida", "Jan", 5), ("Jan", "Dora", 2), ("Emil", "Ida", 3), ("Fay", "Jan", 2),
]

# Who speaks a language that the speaker at table 1 does; each but two of them who sits elsewhere
# costs this.
SPEAK = ["Ben", "Dora", "Fay", "Ida", "Jan"]
ELSEWHERE = 3

HERE = pathlib.Path(__file__).resolve().parent
sys.path.insert(0, str(HERE.parent / "python"))
import wmax  # noqa: E402 (python/wmax.py)


def make_instance():
    """The instance, and the variable of 'this one sits at this table'."""
    instance = wmax.Instance()
    sits = {(who, table): instance.variable(f"{who} at table {table}") for who in GUESTS for table in TABLES}
    for who in GUESTS:
        instance.exactly(1, [sits[who, table] for table in TABLES], about=f"{who} sits at one table")
    for table in TABLES:
        at_it = [sits[who, table] for who in GUESTS]
        instance.at_most(MOST, at_it, about=f"at most {MOST} at table {table}")
        instance.at_least(FEWEST, at_it, about=f"at least {FEWEST} at table {table}")
    for one, other in PAIRS:
        for table in TABLES:
            instance.hard(-sits[one, table], sits[other, table], about=f"{other} sits with {one}")
    for one, other in RIVALS:
        for table in TABLES:
            instance.hard(-sits[one, table], -sits[other, table], about=f"{one} and {other} sit apart")
    for one, other, cost in FRIENDS:
        together = instance.variable(f"{one} with {other}")
        for table in TABLES:
            instance.hard(-together, -sits[one, table], sits[other, table])
        instance.soft(cost, together, about=f"{one} sits apart from {other}")
    # The third of them who sits elsewhere costs something, and so does each further one.
    for more in instance.count([-sits[who, 1] for who in SPEAK])[2:]:
        instance.soft(ELSEWHERE, -more, about="one more who sits away from table 1")
    return instance, sits


def stop(message):
    print(f"seating.py: {message}", file=sys.stderr)
    sys.exit(1)


def main():
    instance, sits = make_instance()
    words = sys.argv[1:]
    if words == ["--wcnf"]:
        print(instance.text(), end="")
        return
    if len(words) > 1 or not all(it.isdecimal() for it in words):
        stop("usage: seating.py [--wcnf | SECONDS]")
    try:
        found = instance.solve(time_limit=int(words[0]) if words else 60)
    except wmax.Unsatisfiable as error:
        stop("\n  ".join(["the guests cannot be seated so:", *dict.fromkeys(it.about for it in error.because)]))
    except wmax.WmaxError as error:
        stop(error)
    for table in TABLES:
        print(f"table {table}: " + ", ".join(who for who in GUESTS if found[sits[who, table]]))
    print(f"It costs {found.cost}, " + ("and no seating costs less:" if found.is_optimum else "and a cheaper one may be there:"))
    for part in sorted(found.given_up, key=lambda it: -it.weight):
        print(f"{part.weight:3}  {part.about}")


if __name__ == "__main__":
    main()
