#!/usr/bin/env python3
"""A package upgrade of least change: what to install, upgrade and remove, found and checked by wmax.

    examples/upgrade.py           prints what changes, and what that costs
    examples/upgrade.py --wcnf    prints the instance alone, with the names of its variables

Change the tables below to plan something else. It stands on python/wmax.py, which runs ./wmax, or
WMAX in the environment. A plan is printed only where `wmax check` says YES to its certificate.
"""
import pathlib
import re
import sys

# What there is: package, version (a later one is a greater number), and what that version needs.
# Each need is one word, 'a>=2', or several of which one suffices: 'a>=2 | b'.
PACKAGES = {
    "shop": {3: ["db", "web"], 4: ["db>=12", "web", "mail"], 5: ["db>=13", "web>=2", "mail"]},
    "wiki": {7: ["web", "php"], 8: ["web", "php>=8"]},
    "db": {11: ["ssl"], 12: ["ssl>=2"], 13: ["ssl>=3", "disk"]},
    "web": {1: ["ssl"], 2: ["ssl>=2"]},
    "php": {7: ["ssl<3"], 8: ["ssl"]},
    "mail": {1: ["ssl", "queue | cron"]},
    "queue": {1: [], 2: ["db>=12"]},
    "cron": {1: []},
    "ssl": {1: [], 2: [], 3: []},
    "disk": {1: []},
}

# What cannot stand together.
CONFLICTS = [("queue", "cron"), ("wiki<8", "db>=13")]

INSTALLED = {"shop": 3, "wiki": 7, "db": 11, "web": 1, "php": 7, "cron": 1, "ssl": 1}

# What is asked for.
WANTED = ["shop>=4"]

# What it costs to remove a package, to install one that was not there, to change a version, and to
# have one that is older than the newest, for each version between.
REMOVED, ADDED, CHANGED, BEHIND = 50, 10, 4, 1

HERE = pathlib.Path(__file__).resolve().parent
sys.path.insert(0, str(HERE.parent / "python"))
import wmax  # noqa: E402 (python/wmax.py)


def matching(word):
    """The package and version of all that 'a', 'a>=2' or 'a<3' names."""
    name, relation, number = re.fullmatch(r"(\w+)(>=|<)?(\d+)?", word).groups()
    for version in PACKAGES[name]:
        if not relation or (version >= int(number)) == (relation == ">="):
            yield name, version


def make_instance():
    """The instance, and the variable of 'this version of this package is there'."""
    instance = wmax.Instance()
    has = {(name, version): instance.variable(f"{name} {version}")
           for name, versions in PACKAGES.items() for version in versions}

    def some(words):
        return [has[it] for word in words.split("|") for it in matching(word.strip())]

    for name, versions in PACKAGES.items():
        instance.at_most(1, [has[name, version] for version in versions], about=f"one version of {name}")
        for version, needs in versions.items():
            for words in needs:
                instance.hard(-has[name, version], *some(words), about=f"{name} {version} needs {words}")
    for one, other in CONFLICTS:
        for first in some(one):
            for second in some(other):
                instance.hard(-first, -second, about=f"{one} and {other} cannot stand together")
    for word in WANTED:
        instance.hard(*some(word), about=f"{word} is wanted")
    for name, versions in PACKAGES.items():
        newest = sorted(versions, reverse=True)
        if name in INSTALLED:
            instance.soft(REMOVED, *some(name), about=f"{name} is removed")
            instance.soft(CHANGED, has[name, INSTALLED[name]], about=f"{name} {INSTALLED[name]} goes")
        for behind, version in enumerate(newest):
            if name not in INSTALLED:
                instance.soft(ADDED, -has[name, version], about=f"{name} is new")
            if behind > 0:
                instance.soft(BEHIND * behind, -has[name, version], about=f"{name} {version} is not the newest")
    return instance, has


def stop(message):
    print(f"upgrade.py: {message}", file=sys.stderr)
    sys.exit(1)


def main():
    instance, has = make_instance()
    if sys.argv[1:] == ["--wcnf"]:
        print(instance.text(), end="")
        return
    if sys.argv[1:]:
        stop("usage: upgrade.py [--wcnf]")
    try:
        plan = instance.solve()
    except wmax.Unsatisfiable as error:
        stop("\n  ".join(["what is wanted cannot be installed:", *dict.fromkeys(it.about for it in error.because)]))
    except wmax.WmaxError as error:
        stop(error)
    if not plan.is_optimum:
        stop("no optimum was shown")
    for name, versions in PACKAGES.items():
        was = INSTALLED.get(name)
        now = next((version for version in versions if plan[has[name, version]]), None)
        if was != now:
            words = "install" if was is None else "remove" if now is None else "upgrade" if now > was else "downgrade"
            print(f"{words:9} {name:6} {'' if was is None else was} {'' if None in (was, now) else '->'} {'' if now is None else now}".rstrip())
    print(f"It costs {plan.cost}, and no other way costs less:")
    for part in plan.given_up:
        print(f"{part.weight:3}  {part.about}")


if __name__ == "__main__":
    main()
