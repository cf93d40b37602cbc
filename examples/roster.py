#!/usr/bin/env python3
"""A week's roster: from a table to the cheapest week, found and checked by wmax.

    examples/roster.py           prints the week, and what it costs
    examples/roster.py --wcnf    prints the instance alone, with the names of its variables

Change the table below to plan something else. It stands on python/wmax.py, which runs ./wmax, or
WMAX in the environment. The week is printed only where `wmax check` says YES: else the script stops
with a message.
"""
import pathlib
import sys

PEOPLE = ["Ann", "Ben", "Cem"]
DAYS = ["Mon", "Tue", "Wed", "Thu", "Fri"]

# Ann is away on Monday; Ben has no key before Wednesday.
AWAY = [("Ann", "Mon"), ("Ben", "Mon"), ("Ben", "Tue")]

# What it costs if this one works on this day.
RATHER_NOT = [
    ("Ann", "Fri", 4), ("Ann", "Tue", 1),
    ("Ben", "Thu", 3), ("Ben", "Fri", 3),
    ("Cem", "Tue", 2), ("Cem", "Wed", 5), ("Cem", "Thu", 2),
]

# What it costs if this one works on both days.
NOT_BOTH = [("Cem", "Mon", "Fri", 6)]

# What it costs if somebody works on no day; and nobody works more days in a row than this.
NO_DAY = 5
MOST_IN_A_ROW = 2

HERE = pathlib.Path(__file__).resolve().parent
sys.path.insert(0, str(HERE.parent / "python"))
import wmax  # noqa: E402 (python/wmax.py)


def make_instance():
    """The instance, and the variable of 'this one works on this day'."""
    instance = wmax.Instance()
    works = {(who, day): instance.variable(f"{who} {day}") for who in PEOPLE for day in DAYS}
    for day in DAYS:
        instance.at_least(1, [works[who, day] for who in PEOPLE])
    for day in DAYS:
        instance.at_most(1, [works[who, day] for who in PEOPLE])
    for who, day in AWAY:
        instance.hard(-works[who, day])
    for who in PEOPLE:
        for first in range(len(DAYS) - MOST_IN_A_ROW):
            row = DAYS[first:first + MOST_IN_A_ROW + 1]
            instance.at_most(MOST_IN_A_ROW, [works[who, day] for day in row])
    for who, day, cost in RATHER_NOT:
        instance.soft(cost, -works[who, day], about=f"{who} works on {day}")
    for who, day, other, cost in NOT_BOTH:
        about = f"{who} works on {day} and {other}"
        instance.soft(cost, -works[who, day], -works[who, other], about=about)
    for who in PEOPLE:
        instance.soft(NO_DAY, *(works[who, day] for day in DAYS), about=f"{who} works on no day")
    return instance, works


def stop(message):
    print(f"roster.py: {message}", file=sys.stderr)
    sys.exit(1)


def main():
    instance, works = make_instance()
    if sys.argv[1:] == ["--wcnf"]:
        print(instance.text(), end="")
        return
    if sys.argv[1:]:
        stop("usage: roster.py [--wcnf]")
    try:
        week = instance.solve()
    except wmax.Unsatisfiable as error:
        stop("\n  ".join(["no week satisfies these rules together:", *dict.fromkeys(it.about for it in error.because)]))
    except wmax.WmaxError as error:
        stop(error)
    if not week.is_optimum:
        stop(f"wmax solve ended with status {week.status}: no optimum was shown")
    print("     " + " ".join(DAYS))
    for who in PEOPLE:
        row = ["x" if week[works[who, day]] else "." for day in DAYS]
        print(f"{who:5}" + " ".join(f"{mark:3}" for mark in row).rstrip())
    print(f"It costs {week.cost}, and no week costs less:")
    for part in week.given_up:
        print(f"{part.weight:3}  {part.about}")


if __name__ == "__main__":
    main()
