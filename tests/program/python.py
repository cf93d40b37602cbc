"""What tests/program/python.sh tries of python/wmax.py. A line for each test that failed; the last one is 'N passed, M failed'.

    python.py counts               the clauses of counts, against counting, without the program
    python.py sums                 the clauses of weighted sums, likewise, in each encoding
    python.py refusals             what may not be written
    python.py texts PROGRAM        what is written as a text, read from files, and explained
    python.py optima PROGRAM N     N random instances, against all assignments
    python.py lies PROGRAM         programs that lie, fail or do not end
    python.py stops PROGRAM        what is left by Ctrl-C, signals and exceptions; locks
    python.py again PROGRAM        solving again, further optima, progress and pictures
    python.py reasons PROGRAM      why there is no solution
    python.py examples PROGRAM     examples/upgrade.py and examples/seating.py, against all their plans
"""
import contextlib
import gzip
import io
import itertools
import lzma
import operator
import os
import pathlib
import random
import re
import signal
import subprocess
import sys
import tempfile
import threading
import time
import warnings
import xml.dom.minidom

TOP = pathlib.Path(__file__).resolve().parent.parent.parent
sys.dont_write_bytecode = True
sys.path[:0] = [str(TOP / "python"), str(TOP / "examples")]
import wmax

passed = failed = 0


def expect(name, found, wanted):
    global passed, failed
    if found == wanted:
        passed += 1
    else:
        failed += 1
        print(f"FAILED {name}\n  wanted {wanted!r}\n  got    {found!r}")


def is_satisfiable(clauses, values):
    """Whether these values can be continued so that every clause holds."""
    values = dict(values)
    while True:
        unit = None
        for clause in clauses:
            if any(values.get(abs(it)) == (it > 0) for it in clause):
                continue
            open_ones = [it for it in clause if abs(it) not in values]
            if not open_ones:
                return False
            if len(open_ones) == 1:
                unit = open_ones[0]
                break
        if unit is None:
            break
        values[abs(unit)] = unit > 0
    rest = {abs(it) for clause in clauses for it in clause} - set(values)
    if not rest:
        return True
    first = min(rest)
    return any(is_satisfiable(clauses, {**values, first: value}) for value in (False, True))


def hard_clauses(instance):
    lines = [line.split() for line in instance.text().splitlines()]
    return [tuple(map(int, words[1:-1])) for words in lines if words[0] == "h"]


KINDS = {
    "at_most": lambda true, number: true <= number,
    "at_least": lambda true, number: true >= number,
    "exactly": lambda true, number: true == number,
}


def counts():
    rows = [(kind, size, number) for kind in KINDS for size in range(8) for number in range(size + 2)]
    for kind, size, number in rows:
        instance = wmax.Instance()
        chosen = instance.variables(*(f"x{k}" for k in range(size)))
        when = instance.variable("when")
        getattr(instance, kind)(number, [it if k % 3 else -it for k, it in enumerate(chosen)], when=when)
        clauses = hard_clauses(instance)
        wrong = []
        for values in itertools.product((False, True), repeat=size + 1):
            true = sum(value == (k % 3 != 0) for k, value in enumerate(values[:-1]))
            wanted = not values[-1] or KINDS[kind](true, number)
            if is_satisfiable(clauses, {k + 1: value for k, value in enumerate(values)}) != wanted:
                wrong.append(values)
        expect(f"{kind} {number} of {size}", wrong, [])
    for size, most in itertools.product(range(8), (None, 0, 1, 3)):
        instance = wmax.Instance()
        chosen = instance.variables(*(f"x{k}" for k in range(size)))
        more = instance.count(chosen, most)
        clauses = hard_clauses(instance)
        expect(f"how many counts of {size}", len(more), size if most is None else min(size, most))
        wrong = []
        for values in itertools.product((False, True), repeat=size):
            for k, literal in enumerate(more):
                given = {place + 1: value for place, value in enumerate(values)}
                true = [is_satisfiable(clauses, {**given, literal.number: value}) for value in (False, True)]
                # (a single literal is its own count)
                if literal.number > size and true != [sum(values) <= k, sum(values) > k] or literal.number <= size and size > 1:
                    wrong.append(values)
        expect(f"a count of {size}, {most}", wrong, [])
    instance = wmax.Instance()
    one, other = instance.variables("one", "other")
    instance.at_most(1, [one, one, other])
    expect("a literal that stands twice", [is_satisfiable(hard_clauses(instance), {1: a, 2: b}) for a in (0, 1) for b in (0, 1)],
           [True, True, False, False])
    large = wmax.Instance()
    large.at_most(10, large.variables(*map(str, range(1000))))
    expect("a large count has few clauses", len(large.text().splitlines()) < 100_000, True)


SUMS = {**KINDS, "equal": KINDS["exactly"]}


def sums():
    rooms = {"totalizers": (2_000, 10), "adders": (0, 0)}
    for name, seed in itertools.product(rooms, range(120)):
        wmax.TOTALIZER_ROOM, wmax.TOTALIZER_FACTOR = rooms[name]
        pick = random.Random(seed)
        instance = wmax.Instance()
        chosen = instance.variables(f"x{k}" for k in range(pick.randint(0, 6)))
        when = instance.variable("when")
        given = {pick.choice([it, -it]): pick.choice([1, 2, 3, 4, 4, 4, 5, 7, 12, 100, 0, -1, -3])
                 for it in pick.choices(chosen, k=pick.randint(0, 7)) if chosen} if chosen else {}
        limit = pick.randint(-5, sum(map(abs, given.values())) + 2) if pick.random() < 0.7 else pick.randint(-3, 8)
        kind = pick.choice(list(SUMS))
        getattr(instance, kind)(limit, given, when=when)
        clauses, wrong = hard_clauses(instance), []
        for values in itertools.product((False, True), repeat=len(chosen) + 1):
            true = sum(weight for it, weight in given.items() if values[abs(it.number) - 1] == (it.number > 0))
            wanted = not values[-1] or SUMS[kind](true, limit)
            if is_satisfiable(clauses, {k + 1: value for k, value in enumerate(values)}) != wanted:
                wrong.append(values)
        expect(f"{name}, {kind} {limit}: {({str(it): weight for it, weight in given.items()})}", wrong, [])
    wmax.TOTALIZER_ROOM, wmax.TOTALIZER_FACTOR = rooms["totalizers"]
    pick = random.Random(1)
    for name, size, limit, weights, most in (
            ("prices", 12, 3000, range(100, 1000), 1_000), ("hours", 84, 160, (8, 10, 12), 10_000),
            ("weights", 100, 25_000, range(1, 1001), 20_000), ("one weight", 2000, 7000, (7,), 40_000)):
        instance = wmax.Instance()
        instance.at_most(limit, {it: pick.choice(weights) for it in instance.variables(range(size))})
        size = len(instance.text().splitlines()) - size
        expect(f"{name}: few clauses", 10 < size < most or size, True)
    instance = wmax.Instance()
    with warnings.catch_warnings(record=True) as said:
        warnings.simplefilter("always")
        instance.at_most(9, instance.variables(range(1000)))
        expect("no warning", [str(it.message) for it in said], [])
        instance.count(instance.variables(f"x{k}" for k in range(500)))
        expect("a warning", [str(it.message) for it in said], ["258,484 clauses for one constraint: the count: x0, x1, x2, x3, x4, x5, x6, x7, .."])
        expect("where the warning is from", said[0].filename, __file__)


def random_instance(seed):
    """An instance over at most seven variables, and its rules as calls on the values."""
    pick = random.Random(seed)
    instance = wmax.Instance()
    chosen = instance.variables(*(f"v{k}" for k in range(pick.randint(1, 7))))
    rules, prices = [], []

    def some(most):
        return [it if pick.random() < 0.5 else -it for it in pick.choices(chosen, k=pick.randint(1, most))]

    def true_of(literals):
        return lambda values: sum(values[abs(it.number) - 1] == (it.number > 0) for it in literals)

    for _ in range(pick.randint(0, 6)):
        literals = some(3)
        instance.hard(*literals)
        rules.append(lambda values, true=true_of(literals): true(values) > 0)
    for _ in range(pick.randint(0, 3)):
        kind, literals = pick.choice(list(KINDS)), some(7)
        number = pick.randint(0, len(literals))
        when = some(1)[0] if pick.random() < 0.4 else None
        getattr(instance, kind)(number, literals, when=when)
        rules.append(lambda values, true=true_of(literals), number=number, holds=KINDS[kind], when=when:
                     when is not None and not true_of([when])(values) or holds(true(values), number))
    for _ in range(pick.randint(0, 8)):
        literals, weight = some(3), pick.randint(1, 9)
        instance.soft(weight, *literals)
        prices.append(lambda values, true=true_of(literals), weight=weight: 0 if true(values) else weight)
    if pick.random() < 0.4:
        literals, each, free = some(6), pick.randint(1, 5), pick.randint(0, 3)
        for more in instance.count(literals)[free:]:
            instance.soft(each, -more)
        prices.append(lambda values, true=true_of(literals), each=each, free=free: each * max(0, true(values) - free))
    if pick.random() < 0.4:
        kind, weights = pick.choice(list(SUMS)), {it: pick.randint(1, 20) for it in some(6)}
        limit = pick.randint(0, sum(weights.values()))
        getattr(instance, kind)(limit, weights)
        rules.append(lambda values, weights=weights, kind=kind, limit=limit:
                     SUMS[kind](sum(weight for it, weight in weights.items() if true_of([it])(values)), limit))
    return instance, chosen, rules, prices


def least(chosen, rules, prices):
    costs = [sum(price(values) for price in prices)
             for values in itertools.product((False, True), repeat=len(chosen)) if all(rule(values) for rule in rules)]
    return min(costs, default=None)


def optima(program, count):
    met = set()
    for seed in range(count):
        instance, chosen, rules, prices = random_instance(seed)
        wanted = least(chosen, rules, prices)
        profile = (None, 1, 2, 3)[seed % 4]
        try:
            found = instance.solve(program=program, profile=profile)
        except wmax.Unsatisfiable:
            expect(f"instance {seed}", None, wanted)
            met.add("unsatisfiable")
            continue
        values = [found[it] for it in chosen]
        expect(f"instance {seed}", (found.cost, found.is_optimum, found.status), (wanted, True, 30))
        expect(f"instance {seed}, the rules", all(rule(values) for rule in rules), True)
        expect(f"instance {seed}, the price", sum(price(values) for price in prices), wanted)
        expect(f"instance {seed}, what is given up", sum(part.weight for part in found.given_up), wanted)
        expect(f"instance {seed}, the names", found.true_names, [it.name for it, value in zip(chosen, values) if value])
        met.add("optimum")
    expect("both answers", met, {"optimum", "unsatisfiable"})


def raised(call):
    """The exception of a call as its type's name and its words, or what the call gave."""
    try:
        return call()
    except wmax.WmaxError as error:
        return type(error).__name__, str(error)


def refusals():
    one, other = wmax.Instance(), wmax.Instance()
    a, b = one.variable("a"), other.variable("b")
    rows = [
        ("a name twice", lambda: one.variable("a"), "WrongValue: name: there is a variable"),
        ("no name", lambda: one.variable(""), "WrongValue: name: "),
        ("blanks before a name", lambda: one.variable(" c"), "WrongValue: name: "),
        ("blanks behind a name", lambda: one.variable("c "), "WrongValue: name: "),
        ("two blanks in a name", lambda: one.variable("c  d"), "WrongValue: name: "),
        ("a name of two lines", lambda: one.variable("c\nh 1 0"), "WrongValue: name: "),
        ("a lone surrogate in a name", lambda: one.variable("c\udc80"), "WrongValue: name: "),
        ("a name of nothing", lambda: one.variable(()), "WrongType: name: "),
        ("half a number as name", lambda: one.variable(("c", 0.5)), "WrongType: name: 0.5"),
        ("a name that was given as a tuple", lambda: one.variables("c 1", ("c", 1)), "WrongValue: name: there is a variable"),
        ("names that are none", lambda: one.variables(0.5), "WrongType: name: "),
        ("words of two lines", lambda: one.hard(a, about="c\rh 1 0"), "WrongValue: about: "),
        ("words that are none", lambda: one.soft(1, a, about=7), "WrongType: about: "),
        ("no such name", lambda: one["b"], "NoSuchName: no variable has this name: b"),
        ("no such number", lambda: one.literal(-9), "WrongValue: number: "),
        ("a stranger", lambda: one.hard(a, -b), "WrongValue: literals: "),
        ("a stranger in a count", lambda: one.at_most(1, [a, b]), "WrongValue: literals: "),
        ("a stranger as condition", lambda: one.at_most(0, [a], when=b), "WrongValue: when: "),
        ("a name as condition", lambda: one.at_most(0, [a], when="a"), "WrongType: when: "),
        ("a name in place of a literal", lambda: one.hard("a"), "WrongType: literals: "),
        ("a list in place of literals", lambda: one.soft(1, [a]), "WrongType: literals: "),
        ("a literal in place of a list", lambda: one.at_most(1, a), "WrongType: literals: "),
        ("a number in place of a literal", lambda: one.hard(1), "WrongType: literals: "),
        ("a comparison in place of a literal", lambda: one.hard(a == a), "WrongType: literals: "),
        ("a weight of 0", lambda: one.soft(0, a), "WrongValue: weight: "),
        ("a weight below 0", lambda: one.soft(-1, a), "WrongValue: weight: "),
        ("half a weight", lambda: one.soft(0.5, a), "WrongType: weight: "),
        ("half a weight in a sum", lambda: one.at_most(1, {a: 0.5}), "WrongType: weight: "),
        ("a truth as weight", lambda: one.soft(True, a), "WrongType: weight: "),
        ("too great a weight", lambda: one.soft(2 ** 62, a), "WrongValue: weight: "),
        ("fewer than none", lambda: one.at_most(-1, [a]), "WrongValue: most: "),
        ("half of them", lambda: one.exactly(0.5, [a]), "WrongType: number: "),
        ("a list and a number the wrong way", lambda: one.at_least([a], 1), "WrongType: least: "),
        ("how many of a count", lambda: one.count([a], -1), "WrongValue: most: "),
        ("time below 0", lambda: one.solve(time_limit=-1), "WrongValue: time_limit: "),
        ("time that is none", lambda: one.solve(time_limit="1"), "WrongType: time_limit: "),
        ("time that is no number", lambda: one.solve(time_limit=float("nan")), "WrongValue: time_limit: "),
        ("effort below 0", lambda: one.solve(conflicts=-3), "WrongValue: conflicts: "),
        ("half an effort", lambda: one.solve(conflicts=0.5), "WrongType: conflicts: "),
        ("a profile that is none", lambda: one.solve(profile="any"), "WrongType: profile: "),
        ("a program that is none", lambda: one.solve(program=7), "WrongType: program: "),
        ("a folder that is none", lambda: one.solve(program="x", folder=7), "WrongType: folder: "),
        ("nowhere to go on from", lambda: one.solve(program="x", resume=True), "WrongValue: resume: "),
        ("progress for nobody", lambda: one.solve(progress="x"), "WrongType: progress: "),
        ("no optima", lambda: one.optima(0), "WrongValue: most: "),
        ("a file that is none", lambda: wmax.Instance.read(7), "WrongType: path: "),
        ("no file", lambda: wmax.Instance.read("/missing"), "FileFailed: /missing: No such file"),
        ("a folder as file", lambda: wmax.Instance.read("/"), "FileFailed: /: Is a directory"),
    ]
    for name, call, wanted in rows:
        found = raised(call)
        expect(name, (": ".join(found) if isinstance(found, tuple) else repr(found))[:len(wanted)], wanted)
    expect("types of Python", [issubclass(wmax.WrongType, TypeError), issubclass(wmax.WrongValue, ValueError),
                               issubclass(wmax.NoSuchName, KeyError)], [True] * 3)
    expect("nothing of it is left", one.text(), "c 1 = a\nc 2 = c 1\n")
    one, numpy = wmax.Instance(), Whole(5)
    a, c = one.variable("a"), one.variable("c")
    signs = [operator.or_, operator.and_, operator.xor, operator.rshift, operator.lt, operator.le, operator.gt, operator.ge,
             operator.add, operator.sub, operator.mul]
    for sign in signs:
        expect(f"no {sign.__name__}", raised(lambda: sign(a, c))[0], "WrongType")
        if sign not in (operator.lt, operator.le, operator.gt, operator.ge):
            expect(f"no {sign.__name__} with a number", raised(lambda: sign(3, c))[0], "WrongType")
    for name, call in (("or", lambda: a or c), ("and", lambda: a and c), ("not", lambda: not a), ("any", lambda: any([a])),
                       ("if", lambda: 1 if a else 2), ("sum", lambda: sum([a, c]))):
        expect(f"no {name}", raised(call)[0], "WrongType")
    expect("negation", [~a == -a, --a == a, -a == a, a == c, a != c], [True, True, False, False, True])
    expect("keys", ({a: 1, -a: 2, c: 3}[-a], len({a, one["a"], -a, ~a, c})), (2, 3))
    one.soft(numpy, a)
    one.at_most(Whole(1), [a, c])
    one.soft(2 ** 62 - 7, a)
    expect("weights that are too great together", raised(lambda: one.soft(2, a))[0], "WrongValue")
    one.soft(1, -a, about="the last one")
    one.hard(about="nothing")
    one.at_least(3, [a, a])
    expect("the text", one.text(), "c 1 = a\nc 2 = c\nc a\n5 1 0\nc\nh -1 -2 0\nc a\n4611686018427387897 1 0\nc the last one\n1 -1 0\n"
           "c nothing\nh 0\nc\nh 0\n")
    expect("a literal in words", [str(a), str(-a), str(--a)], ["a", "not a", "a"])
    expect("by name", (one["a"], "a" in one, "b" in one, list(one)), (a, True, False, ["a", "c"]))
    expect("names of parts", [it.name for it in one.variables(("Ann", 1), ["Ann", Whole(2)], ("Ann", ("x", 3)))], ["Ann 1", "Ann 2", "Ann x 3"])
    expect("by parts", (one["Ann", 1].number, ("Ann", 2) in one, one.literal(-3)), (3, True, -one["Ann 1"]))
    expect("names in a list", [it.name for it in one.variables(["u", "v"]) + one.variables(f"w{k}" for k in range(2))], ["u", "v", "w0", "w1"])


class Whole:
    """A whole number of another library."""

    def __init__(self, number):
        self.number = number

    def __index__(self):
        return self.number


def texts(program):
    folder = stack_folder()
    forged = wmax.Instance()
    bang, seven = forged.variables("bang", "7 = x")
    for k, about in enumerate(("1 = boom", "  2 = boom = c", "1 =  boom", ": 1 = boom", "12 months", ":", "1 =boom", "= 1")):
        forged.soft(k + 1, -bang, about=about)
    forged.hard(bang, about="1 = a hard boom")
    forged.hard(seven, about="  ")
    found = forged.solve(program=program, folder=folder)
    said = subprocess.run([program, "explain", folder / "instance.wcnf", folder / "instance.result"], stdout=subprocess.PIPE, text=True).stdout
    expect("no name is forged", [line for line in said.splitlines() if line.startswith("true:")], ["true: bang", "true: 7 = x"])
    expect("each comment is told", [line.strip() for line in said.splitlines() if line.startswith("    c")],
           ["c = 1", "c : 1 =boom", "c : :", "c 12 months", "c : : 1 = boom", "c : 1 =  boom", "c : 2 = boom = c", "c : 1 = boom"])
    expect("as in Python", [part.about for part in found.given_up][:2], ["1 = boom", "2 = boom = c"])
    text = (folder / "instance.wcnf").read_text()
    again = wmax.Instance.read(folder / "instance.wcnf")
    expect("the text comes back", again.text(), text.replace("1 =  boom", "1 = boom"))
    expect("so do names and abouts", [list(again), again._clauses[0].about], [["bang", "7 = x"], "1 = boom"])
    for opening, end in ((gzip.open, "gz"), (lzma.open, "xz")):
        with opening(folder / "packed", "wb") as file:
            file.write(text.encode())
        expect(f"read from .{end}", wmax.Instance.read(str(folder / "packed")).text(), again.text())
        (folder / "packed").write_bytes((folder / "packed").read_bytes()[:-12])
        expect(f"a broken .{end}", raised(lambda: wmax.Instance.read(folder / "packed"))[0], "FileFailed")

    def read(text):
        (folder / "a.wcnf").write_bytes(text)
        return raised(lambda: wmax.Instance.read(folder / "a.wcnf"))

    older = read(b"c a comment\np wcnf 4 3 10\n10 1 2 0\n\tc 2 =  Ann  Tue\n3 -1  0\r\n\n4 -2 0")
    expect("the older form", older.text(), "c 2 = Ann Tue\nc a comment\nh 1 2 0\n3 -1 0\nc not Ann Tue\n4 -2 0\n")
    expect("its numbers", (str(older.literal(-4)), older.literal(2)), ("not variable 4", older["Ann Tue"]))
    for number in range(150):
        instance, *_ = random_instance(number)
        text = instance.text()
        expect(f"instance {number} comes back", read(text.encode()).text(), text)
    names = read(b"c 1 = a\nc 1 = b\nc 2 = a\nc 3 = \xff\nc 9 = z\nc 0 = y\nc 02 = y\nc 2 = d\x01\nh 1 2 3 0\n")
    expect("names that are alike, faulty or of nothing", [(name, it.number) for name, it in names.named()], [("a", 1), ("\ufffd", 3), ("z", 9)])
    expect("a name above V", list(read(b"p wcnf 2 1 9\nc 3 = a\nc 2 = b\n9 1 0\n")), ["b"])
    expect("a variable above V", read(b"p wcnf 2 1 9\n9 3 0\n")[0], "WrongValue")
    read_text = b"c a\nc b\nh 1 0\nh -1 0\nc c\n\nh 1 0\nc d\nc 1 = a\nh 1 0\nc\nh 1 0\n"
    expect("comments above", [it.about for it in read(read_text)._clauses], ["b", "b", "", "d", ""])
    expect("comments in the text", read(read_text).text(), "c 1 = a\nc b\nh 1 0\nh -1 0\nc\nh 1 0\nc d\nh 1 0\nc\nh 1 0\n")
    for number, line in enumerate([b"1", b"h 1", b"h 1 0 2", b"h +1 0", b"h 01 0", b"1_0 1 0", b"h 1_0 0", b"0 1 0", b"-1 0", b"1.5 1 0", b"h x 0",
                                   b"h 1 -0", b"p wcnf 1 1 9", b"h 4194305 0", b"4611686018427387904 1 0", b"\xef\xbb\xbfh 1 0", b"h 1\xa00"]):
        found = read(b"h 1 0\n" + line + b"\n")
        expect(f"a faulty line: {line}", (found[0], ": line 2: " in found[1]) if isinstance(found, tuple) else found, ("WrongValue", True))
    expect("a weight above T", read(b"p wcnf 1 1 9\n10 1 0\n")[0], "WrongValue")
    expect("a header without T", read(b"p wcnf 1 1\n10 1 0\n").text(), "c variable 1\n10 1 0\n")


# What stands for the program: what it does as `solve`, where $best is the PATH of --best and $proof that of --proof, as `check`
# and as `lower`.
PRETENDER = """#!/bin/sh
command=$1
case " $* " in *' --help '*) echo '{help}'; exit 0 ;; esac
best= proof=
for word; do
    case $last in --best) best=$word ;; --proof) proof=$word ;; esac
    last=$word
done
case $command in solve) {solve} ;; check) {check} ;; lower) {lower} ;; esac
"""


def lies(program):
    folder = stack_folder()
    shop = wmax.Instance()
    tea, coffee = shop.variables("tea", "coffee")
    shop.hard(tea, coffee)
    shop.soft(3, -tea)
    shop.soft(4, -coffee)
    none = wmax.Instance()
    none.hard()

    def told(solve, check=f'exec "{program}" "$@"', instance=shop, help="", lower="exit 3", **given):
        path = folder / "pretender"
        path.write_text(PRETENDER.format(solve=solve, check=check, lower=lower, help=help))
        path.chmod(0o755)
        found = raised(lambda: instance.solve(program=str(path), **{"warm": False, **given}))
        if isinstance(found, wmax.Solution):
            return (found.cost, found.is_optimum, found.status, found.true_names)
        # the folder of a run has another name each time
        return tuple(re.sub(r" /\S*/(instance\.\w+)$", r" \1", word) if isinstance(word, str) else word for word in found)

    def printing(status, *said):
        return f"printf '%s\\n' {' '.join(repr(it) for it in said)}; exit {status}"

    plain, right = f'exec "{program}" "$@"', printing(30, "o 3", "s OPTIMUM FOUND", "v 10")
    says_yes, kept = "echo YES", "printf 'o 3\\ns SATISFIABLE\\nv 10\\n' > \"$best\"; exec sleep 60"
    some = ': > "$proof"; ' + printing(10, "o 3", "s SATISFIABLE", "v 10")

    def bounded(lower, solve=some, **given):
        return told(solve, lower=lower, help="--profile <1|2|3>", **given)

    rows = [
        ("the program itself", told(plain), (3, True, 30, ["tea"])),
        ("NO", told(plain, printing(1, "NO HintNotUnit 3")), ("CheckFailed", "the certificate does not check: NO HintNotUnit 3")),
        ("no verdict", told(plain, "exit 3"), ("CheckFailed", "the certificate does not check: no verdict")),
        ("a fault for a verdict", told(plain, "echo error: Read >&2; exit 3"), ("CheckFailed", "the certificate does not check: error: Read")),
        ("YES and another status", told(plain, "echo YES; exit 1"), ("CheckFailed", "the certificate does not check: YES")),
        ("YES and more", told(plain, printing(0, "YES", "NO")), ("CheckFailed", "the certificate does not check: YES\nNO")),
        ("no certificate", told(right), ("CheckFailed", "the certificate does not check: error: Read instance.lrat")),
        ("an optimum that is none", told(printing(30, "o 4", "s OPTIMUM FOUND", "v 01")),
         ("CheckFailed", "the certificate does not check: error: Read instance.lrat")),
        ("a cost that both lie about", told(printing(30, "o 2", "s OPTIMUM FOUND", "v 10"), says_yes), ("CheckFailed", "the bits cost 3, and not 2")),
        ("no solution, about which both lie", told(printing(30, "o 0", "s OPTIMUM FOUND", "v 00"), says_yes),
         ("CheckFailed", "the bits break the hard clause tea or coffee")),
        ("a solution that is none", told(printing(10, "o 0", "s SATISFIABLE", "v 00")), ("CheckFailed", "the bits break the hard clause tea or coffee")),
        ("a wrong cost", told(printing(10, "o 3", "s SATISFIABLE", "v 11")), ("CheckFailed", "the bits cost 7, and not 3")),
        ("too many bits", told(printing(10, "o 3", "s SATISFIABLE", "v 101")), ("CheckFailed", "3 bits for 2 variables")),
        ("fewer bits, the others 0", told(printing(10, "o 3", "s SATISFIABLE", "v 1")), (3, False, 10, ["tea"])),
        ("a solution", told(printing(10, "o 7", "s SATISFIABLE", "v 11")), (7, False, 10, ["tea", "coffee"])),
        ("nothing", told(printing(0, "s UNKNOWN")), ("NoSolutionFound", "no solution was met by this effort")),
        ("no solution, without a certificate", told(printing(20, "s UNSATISFIABLE")),
         ("CheckFailed", "the certificate does not check: error: Read instance.lrat")),
        ("no solution", told(plain, instance=none), ("Unsatisfiable", "no assignment satisfies the hard clauses")),
        ("another status", told(printing(10, "o 3", "s OPTIMUM FOUND", "v 10")), ("ProgramFailed", "wmax solve said OPTIMUM FOUND, and ended with status 10")),
        ("no line s", told(printing(10, "o 3", "v 10"))[0], "ProgramFailed"),
        ("no line v", told(printing(10, "o 3", "s SATISFIABLE"))[0], "ProgramFailed"),
        ("no line o", told(printing(30, "s OPTIMUM FOUND", "v 10"))[0], "ProgramFailed"),
        ("a fault", told("echo error: Memory >&2; exit 3"), ("ProgramFailed", "wmax solve ended with status 3: error: Memory")),
        ("a signal", told("kill -9 $$"), ("ProgramFailed", "wmax solve ended with status -9: without a message")),
        ("in time", told(kept, time_limit=1), (3, False, None, ["tea"])),
        ("in time, an optimum without its certificate", told(kept.replace("SATISFIABLE", "OPTIMUM FOUND"), time_limit=1), (3, False, None, ["tea"])),
        ("in time, a lie", told(kept.replace("o 3", "o 2"), time_limit=1), ("CheckFailed", "the bits cost 3, and not 2")),
        ("in time, no solution", told(kept.replace("SATISFIABLE", "UNSATISFIABLE"), time_limit=1), ("NoSolutionFound", "no solution was met in this time")),
        ("in time, nothing", told("exec sleep 60", time_limit=1), ("NoSolutionFound", "no solution was met in this time")),
        ("a lower bound", bounded(printing(0, "at least 2")), (3, False, 10, ["tea"])),
        ("a lower bound that meets the cost", bounded(printing(0, "at least 3")), (3, True, 10, ["tea"])),
        ("a lower bound above the cost", bounded(printing(0, "at least 4")), ("CheckFailed", "the bits cost 3, and at least 4 is said to be needed")),
        ("a lower bound, NO", bounded(printing(1, "NO CutWorth 2")), ("CheckFailed", "the lower bound does not check: NO CutWorth 2")),
        ("a lower bound and another status", bounded(printing(1, "at least 2")), ("CheckFailed", "the lower bound does not check: at least 2")),
        ("a lower bound, no verdict", bounded("exit 3"), ("CheckFailed", "the lower bound does not check: no verdict")),
        ("a lower bound where there is no solution", bounded(printing(0, "no solution")), ("CheckFailed", "the lower bound does not check: no solution")),
        ("a lower bound, no certificate", bounded("exit 3", printing(10, "o 3", "s SATISFIABLE", "v 10")), (3, False, 10, ["tea"])),
        ("a lower bound in another profile", bounded("exit 3", profile=2), (3, False, 10, ["tea"])),
        ("a lower bound in time", bounded(printing(0, "at least 3"), ': > "$proof"; ' + kept, time_limit=1), (3, True, None, ["tea"])),
        ("the last profile of the help", told(printing(3) + '; ', help="--profile <1|2|3|4|17>")[0], "ProgramFailed"),
    ]
    for name, found, wanted in rows:
        expect(name, found, wanted)
    words = 'echo "$*" > "' + str(folder / "words") + '"; exit 3'
    for help, given, wanted in (("--profile <1|2|17>", {}, "17"), ("--profile <3>", {}, "3"), ("none", {"profile": 7}, "7"), ("none", {}, None),
                                ("--profile <1|2|17>", {"profile": 2}, "2")):
        told(words, help=help, **given)
        found = (folder / "words").read_text().split()
        expect(f"the profile: {help} {given}", found[:3], ["solve", "--profile", wanted] if wanted else ["solve", "--proof", found[2]])
    told(words, conflicts=77)
    expect("the effort", "--conflicts 77" in (folder / "words").read_text(), True)
    told(words, help="  --time-limit <S>", time_limit=2.5)
    expect("the time", "--time-limit 2.500" in (folder / "words").read_text(), True)
    told(words, time_limit=2.5)
    expect("the time, of a program that knows of none", "--time-limit" in (folder / "words").read_text(), False)
    # The certificate of an earlier run goes on in profile 3, by a program that can; else it is set aside.
    left, earlier = folder / "left" / "instance.lrat", folder / "left" / "instance.lrat.earlier"
    left.parent.mkdir()
    knows = "--profile <1|2|3> --resume"
    for name, help, given, wanted in (("it goes on", knows, {}, (True, True, False)), ("of no use", knows, {"profile": 2}, (False, False, True)),
                                      ("of a program that cannot", "--profile <1|2|3>", {}, (False, False, True)),
                                      ("not wanted", knows, {"resume": False}, (False, False, False))):
        left.write_text("form 1 0\n")
        earlier.unlink(missing_ok=True)
        told(words, help=help, folder=left.parent, **{"resume": True, **given})
        found = "--resume" in (folder / "words").read_text().split(), left.exists(), earlier.exists()
        expect(f"an earlier certificate, {name}", found, wanted)
    for name, status in (("faulty", 1), ("without its solution", 2)):
        left.write_text("form 1 0\n")
        found = told(f'case "$*" in *--resume*) echo NO x 1; exit {status} ;; esac; ' + plain, help=knows, folder=left.parent, resume=True)
        expect(f"an earlier certificate that is {name}", found, (3, True, 30, ["tea"]))
        expect(f"an earlier certificate that is {name}: it is set aside", (earlier.read_text(), left.exists()), ("form 1 0\n", True))
    left.write_text("form 1 0\n")
    found = told("exit 3", help=knows, folder=left.parent, resume=True)
    expect("an earlier certificate, a fault", (found[0], left.read_text()), ("ProgramFailed", "form 1 0\n"))
    for said, wanted in (("at least 2.9 by the relaxation", 3), ("at least 3.0 by cores", 3), ("at least 3 by conflicts", 3), ("at least 3", 3)):
        path = folder / "pretender"
        path.write_text(PRETENDER.format(solve=f"echo '0.1 s, cost 3 (1 solution), {said}, gap 0.00 %' >&2; " + some, check="exit 3", lower="exit 3",
                                         help="--profile <2>"))
        found = shop.solve(program=str(path), warm=False)
        expect(f"a bound that is told: {said}", max(step.lower or 0 for step in found.history), wanted)
    expect("no program", raised(lambda: shop.solve(program=str(folder / "missing")))[0], "ProgramFailed")
    expect("no effort", raised(lambda: shop.solve(program=program, conflicts=0, warm=False))[0], "NoSolutionFound")
    # A machine that is busy meets its first solution late.
    for limit in (2, 8, 32):
        found = raised(lambda: pigeons(12).solve(program=program, time_limit=limit))
        if isinstance(found, wmax.Solution):
            break
    # On a busy machine it may be stopped before it ends itself.
    expect("a time limit that is met", isinstance(found, wmax.Solution) and not found.is_optimum and found.status in (10, None), True)
    shop.solve(program=program, profile=2, folder=folder / "new" / "files")
    files = [str(folder / "new" / "files" / f"instance.{end}") for end in ("wcnf", "result", "lrat")]
    ran = subprocess.run([program, "check", "--profile", "2", *files], stdout=subprocess.PIPE, text=True)
    expect("the files stay", ran.stdout, "YES\n")
    expect("the best solution stays", (folder / "new" / "files" / "instance.best").read_text(), "o 3\ns OPTIMUM FOUND\nv 10\n")
    going = folder / "going"
    found = pigeons(5).solve(program=program, profile=1, conflicts=60, folder=going)
    kept = (going / "instance.best").read_text()
    expect("what a small effort leaves", (found.is_optimum, kept.startswith(f"o {found.cost}\ns SATISFIABLE\n")), (False, True))
    raised(lambda: pigeons(5).solve(program=program, conflicts=0, folder=going, resume=True))
    expect("it stays for another run", (going / "instance.best").read_text(), kept)
    found = pigeons(5).solve(program=program, folder=going, resume=True)
    expect("going on", (found.is_optimum, found.cost), (True, 1))
    found = shop.solve(program=program, folder=going, resume=True, warm=False)
    expect("of another instance", (found.cost, found.is_optimum), (3, True))
    expect("anew", shop.solve(program=program, folder=going).is_optimum, True)
    # In profile 3 the certificate goes on: no line and no bound is lost, until nothing is left to do.
    lines, bounds, costs = b"", [0], []
    for effort in (2, 5, 10, 20, 40, 80, None, None):
        found = cover(40).solve(program=program, conflicts=effort, folder=folder / "lines", resume=True)
        after = (folder / "lines" / "instance.lrat").read_bytes()
        expect(f"lines that go on, {effort}", (after.startswith(lines), found.lower >= bounds[-1], found.is_optimum or effort is not None),
               (True, True, True))
        is_last, lines = after == lines, after
        bounds.append(found.lower)
        costs.append(found.cost)
    expect("lines that go on: an optimum", (found.is_optimum, found.cost, found.status), (True, cover(40).solve(program=program).cost, 30))
    expect("lines that go on: at first there was none", bounds[1] < costs[0], True)
    expect("an optimum that is known: its lines stay", is_last, True)
    (folder / "lines" / "instance.lrat").write_bytes(lines[:-3])
    found = cover(40).solve(program=program, folder=folder / "lines", resume=True)
    expect("a line that was torn", (found.is_optimum, found.cost), (True, costs[-1]))
    unused = wmax.Instance()
    first, last = unused.variables("first", "last")
    unused.soft(1, first)
    found = unused.solve(program=program)
    expect("variables without a clause", (found[first], found[last], found["last"], found[-last]), (True, False, False, True))
    expect("another instance's literal", raised(lambda: found[tea])[0], "WrongValue")
    late = unused.variable("late")
    unused.soft(1, late)
    expect("a variable that is newer", raised(lambda: found[late])[0], "WrongValue")
    expect("no such variable", raised(lambda: found["never"])[0], "NoSuchName")
    expect("the solution stays as it was", (found.true_names, found.given_up), (["first"], []))


def stops(program):
    # A shell that runs this in the background, or nohup, may have had them ignored.
    signal.signal(signal.SIGINT, signal.default_int_handler)
    for number in (signal.SIGTERM, signal.SIGHUP):
        signal.signal(number, signal.SIG_DFL)
    folder = stack_folder()
    (folder / "tmp").mkdir()
    os.environ["TMPDIR"] = str(folder / "tmp")
    tempfile.tempdir = None
    shop = wmax.Instance()
    tea, coffee = shop.variables("tea", "coffee")
    shop.hard(tea, coffee)
    shop.soft(3, -tea)
    shop.soft(4, -coffee)
    keeps = "printf 'o 4\\ns SATISFIABLE\\nv 01\\n' > \"$best\"; "

    def pretender(solve, check="exit 1"):
        path = folder / "pretender"
        path.write_text(PRETENDER.format(solve=f'echo $$ > "{folder}/child"; {solve}', check=check, lower="exit 1", help=""))
        path.chmod(0o755)
        return str(path)

    def told(solve, check="exit 1", **given):
        found = raised(lambda: shop.solve(program=pretender(solve, check), warm=False, **given))
        return (found.cost, found.is_optimum, found.is_interrupted, found.status) if isinstance(found, wmax.Solution) else found

    def is_over():
        """Whether the child has ended, which a system that is busy may be late to say."""
        for _ in range(1000):
            with contextlib.suppress(OSError, IndexError):
                if pathlib.Path(f"/proc/{(folder / 'child').read_text().strip()}/stat").read_text().rsplit(")", 1)[1].split()[0] == "Z":
                    return True
                time.sleep(0.01)
                continue
            return True
        return False

    interrupt = "kill -INT $PPID; exec sleep 60"
    says_30 = "printf '%s\\n' 'o 3' 's OPTIMUM FOUND' 'v 10'; exit 30"
    for name, where in (("a folder", {"folder": folder / "kept"}), ("no folder", {})):
        rows = [
            ("Ctrl-C with a solution", told(keeps + interrupt, **where), (4, False, True, None)),
            ("Ctrl-C without one", told(interrupt, **where), ("NoSolutionFound", "no solution was met before the interrupt")),
            ("Ctrl-C that the program got, too", told(keeps + "kill -INT $$; exec sleep 60", **where), (4, False, True, None)),
            ("Ctrl-C in the check", told(keeps + says_30, interrupt, **where), (3, False, True, 30)),
            ("Ctrl-C in the check of no solution", told("echo s UNSATISFIABLE; exit 20", interrupt, **where),
             ("NoSolutionFound", "no solution was met before the interrupt")),
        ]
        for row, found, wanted in rows:
            expect(f"{row}, {name}", found, wanted)
            expect(f"{row}, {name}: nothing runs, nothing is left", (is_over(), os.listdir(folder / "tmp")), (True, []))
    found = raised(lambda: shop.solve(program=pretender(interrupt), folder=folder / "kept", resume=True, warm=False))
    expect("Ctrl-C with an earlier solution", found, ("NoSolutionFound", "no solution was met before the interrupt"))
    told(keeps + interrupt, folder=folder / "kept")
    found = raised(lambda: shop.solve(program=pretender(interrupt), folder=folder / "kept", resume=True, warm=False))
    expect("Ctrl-C with an earlier solution to go on from", (found.cost, found.is_interrupted), (4, True))

    def fail(step):
        raise ZeroDivisionError

    try:
        shop.solve(program=pretender("exec sleep 60"), progress=fail)
    except ZeroDivisionError:
        passing = True
    expect("an exception passes", passing, True)
    expect("an exception: nothing runs, nothing is left", (is_over(), os.listdir(folder / "tmp")), (True, []))
    script = folder / "script.py"
    script.write_text(f"import sys\nsys.path.insert(0, {str(TOP / 'python')!r})\nimport wmax\n"
                      "m = wmax.Instance()\nm.hard(m.variable('a'))\nm.solve(program=sys.argv[1])\n")
    for name in ("TERM", "HUP"):
        ran = subprocess.run([sys.executable, script, pretender(f"kill -{name} $PPID; exec sleep 60")], stderr=subprocess.PIPE,
                             env={**os.environ, "PYTHONDONTWRITEBYTECODE": "1"})
        expect(f"SIG{name}", (ran.returncode, ran.stderr), (-getattr(signal, f"SIG{name}"), b""))
        expect(f"SIG{name}: nothing runs, nothing is left", (is_over(), os.listdir(folder / "tmp")), (True, []))
    if wmax._has_setpriv():
        subprocess.run([sys.executable, script, pretender("kill -KILL $PPID; exec sleep 60")], env={**os.environ, "PYTHONDONTWRITEBYTECODE": "1"})
        expect("SIGKILL: nothing runs", is_over(), True)
    script.write_text(script.read_text().replace("m.solve(program=sys.argv[1])", f"wmax._has_setpriv = lambda: False\n"
                                                 f"m.solve(program=sys.argv[1], folder={str(folder / 'left')!r})"))
    subprocess.run([sys.executable, script, pretender("kill -KILL $PPID; exec sleep 60")], env={**os.environ, "PYTHONDONTWRITEBYTECODE": "1"})
    expect("a program that is left has its folder", raised(lambda: shop.solve(program=program, folder=folder / "left"))[0], "FolderInUse")
    os.kill(int((folder / "child").read_text()), signal.SIGKILL)
    expect("it has ended", is_over(), True)
    expect("then it has it no more", shop.solve(program=program, folder=folder / "left").is_optimum, True)
    before = signal.getsignal(signal.SIGTERM), signal.getsignal(signal.SIGHUP), signal.getsignal(signal.SIGINT)
    shop.solve(program=program)
    expect("signals are as they were", (signal.getsignal(signal.SIGTERM), signal.getsignal(signal.SIGHUP), signal.getsignal(signal.SIGINT)), before)
    here = folder / "-here"
    found, go_on = [], threading.Event()
    waits = keeps + 'while [ ! -e "$best.go" ]; do sleep 0.01; done; exit 3'
    thread = threading.Thread(target=lambda: found.append(raised(lambda: shop.solve(
        program=pretender(waits), folder=here, progress=lambda step: go_on.set()))))
    thread.start()
    go_on.wait()
    expect("two in one folder", raised(lambda: shop.solve(program=program, folder=here)),
           ("FolderInUse", f"another solve works in {here}: give each a folder of its own"))
    (here / "instance.best.go").touch()
    thread.join()
    expect("the other one ends as ever", found, [("ProgramFailed", "wmax solve ended with status 3: without a message")])
    expect("then the folder is free", shop.solve(program=program, folder=here).is_optimum, True)
    os.chdir(folder)
    expect("a folder that begins with -", shop.solve(program=program, folder="-here").is_optimum, True)
    for name, left in (("binary", b"\x00\xff\xfeo 3\n"), ("broken", b"o 3\ns SATISFIABLE\n"), ("empty", b""), ("another", b"o 9\ns SATISFIABLE\nv 1111\n"),
                       ("a wrong cost", b"o 1\ns SATISFIABLE\nv 11\n"), ("a great number", b"o " + b"9" * 5000 + b"\ns SATISFIABLE\nv 11\n")):
        (here / "instance.best").write_bytes(left)
        found = shop.solve(program=program, folder=here, resume=True, warm=False)
        expect(f"a kept result that is {name}", (found.cost, found.is_optimum), (3, True))
    (folder / "file").write_text("")
    expect("a folder that is a file", raised(lambda: shop.solve(program=program, folder=folder / "file"))[0], "FileFailed")
    expect("a result that is binary", raised(lambda: shop.solve(program=pretender("printf '\\377\\000'; exit 30")))[0], "ProgramFailed")
    expect("an error that is binary", raised(lambda: shop.solve(program=pretender("printf '\\377' >&2; exit 3")))[0], "ProgramFailed")
    os.environ["TMPDIR"] = str(folder)
    tempfile.tempdir = None


def again(program):
    folder = stack_folder()
    shop = wmax.Instance()
    tea, coffee, milk = shop.variables("tea", "coffee", "milk")
    shop.hard(tea, coffee)
    shop.soft(3, -tea)
    shop.soft(4, -coffee)

    def begins(instance, **given):
        """The solution that a run begins with: what is left where it has no effort."""
        found = raised(lambda: instance.solve(program=program, conflicts=0, **given))
        return (found.cost, found.true_names) if isinstance(found, wmax.Solution) else found[0]

    expect("nothing to begin with", begins(shop), "NoSolutionFound")
    shop.solve(program=program)
    expect("the last solution", begins(shop), (3, ["tea"]))
    expect("not if it is not wanted", begins(shop, warm=False), "NoSolutionFound")
    shop.soft(5, coffee, about="a soft clause more")
    expect("the last solution, at its new cost", begins(shop), (8, ["tea"]))
    more = shop.variable("more")
    shop.hard(-tea, more)
    shop.at_most(9, {tea: 4, more: 5, milk: 3, coffee: 2})
    expect("newer variables", begins(shop), (8, ["tea", "more"]))
    shop.hard(-tea)
    expect("a clause that it breaks", begins(shop), "NoSolutionFound")
    found = shop.solve(program=program, folder=folder / "shop")
    expect("then it is solved anew", (found.cost, found.true_names, found.is_optimum), (4, ["coffee"], True))
    expect("of another run", begins(shop, folder=folder / "shop", resume=True, warm=False), (4, ["coffee"]))
    shop.hard(-milk)
    expect("of another run, a clause more", begins(shop, folder=folder / "shop", resume=True, warm=False), (4, ["coffee"]))
    shop.hard(tea, milk, about="coffee alone is not enough")
    expect("of another run, no solution", begins(shop, folder=folder / "shop", resume=True, warm=False), "Unsatisfiable")
    expect("it is set aside", (folder / "shop" / "instance.best.earlier").read_text()[:23], "o 4\ns SATISFIABLE\nv 010")
    for seed in range(40):
        instance, chosen, rules, prices = random_instance(seed)
        first = raised(lambda: instance.solve(program=program))
        if not isinstance(first, wmax.Solution):
            continue
        picked = random.Random(seed).sample(chosen, k=min(3, len(chosen)))
        limit = random.Random(seed).randint(1, 9)
        weights = {it: k + 2 for k, it in enumerate(picked)}
        instance.at_most(limit, weights)
        rules.append(lambda values: sum(weight for it, weight in weights.items() if values[it.number - 1]) <= limit)
        found = raised(lambda: instance.solve(program=program))
        expect(f"instance {seed} with a constraint more", found.cost if isinstance(found, wmax.Solution) else None, least(chosen, rules, prices))

    # What is proved of the cost.
    holes = pigeons(4)
    found = holes.solve(program=program, folder=folder / "holes")
    expect("an optimum", (found.cost, found.lower, found.is_optimum), (1, 1, True))
    found = holes.solve(program=program, profile=3, conflicts=1, folder=folder / "holes")
    expect("little effort by forms and cuts", (found.cost, found.lower, found.is_optimum), (1, 0, False))
    found = holes.solve(program=program, profile=3, conflicts=0, folder=folder / "holes")
    expect("no effort by forms and cuts", (found.cost, found.lower, found.is_optimum, found.status), (1, 0, False, 0))
    found = holes.solve(program=program, profile=1, conflicts=0, folder=folder / "holes")
    expect("no bound in another profile", (found.cost, found.lower, found.is_optimum), (1, None, False))

    # Stopped again and again: what is proved never falls, and no line of the certificate is lost.
    rings = wmax.Instance()
    for ring in range(12):
        seats = rings.variables((ring, seat) for seat in range(5))
        for seat in range(5):
            rings.hard(seats[seat - 1], seats[seat])
            rings.soft(1, -seats[seat])
    home = folder / "rings"
    lower, before, stops, is_kept = 0, b"", 0, True
    for effort in range(200):
        found = raised(lambda: rings.solve(program=program, profile=3, conflicts=effort, folder=home, resume=True, warm=False))
        proof = (home / "instance.lrat").read_bytes()
        is_kept = is_kept and proof.startswith(before)
        before, stops = proof[:proof.rfind(b"\n") + 1], stops + 1
        if isinstance(found, wmax.Solution):
            is_kept = is_kept and found.lower is not None and found.lower >= lower
            lower = found.lower
            if found.is_optimum:
                break
    expect("stopped again and again", (found.cost, found.is_optimum, is_kept, stops > 3), (36, True, True, True))
    found = rings.solve(program=program, conflicts=1, folder=home, resume=True, warm=False)
    expect("then it is answered at once", (found.cost, found.is_optimum, found.status), (36, True, 30))
    expect("then it stays", (home / "instance.lrat").read_bytes() == proof, True)
    rings.hard(-rings[(0, 0)])
    rings.soft(2, -rings[(0, 1)])
    found = rings.solve(program=program, folder=home, resume=True)
    expect("of another instance", (found.cost, found.is_optimum), (38, True))
    expect("of another instance: it is set aside", (home / "instance.lrat.earlier").read_bytes() == proof, True)
    expect("of another instance: it is another", (home / "instance.lrat").read_bytes() != proof, True)
    found = rings.optima(2, program=program, folder=home, resume=True)
    expect("optima that go on", [(it.cost, it.is_optimum) for it in found], [(38, True)] * 2)

    # Further optima.
    for seed in range(60):
        instance, chosen, rules, prices = random_instance(seed)
        text = instance.text()
        wanted = [values for values in itertools.product((False, True), repeat=len(chosen)) if all(rule(values) for rule in rules)]
        cost = min((sum(price(values) for price in prices) for values in wanted), default=None)
        wanted = {values for values in wanted if sum(price(values) for price in prices) == cost}
        found = raised(lambda: instance.optima(200, program=program))
        expect(f"instance {seed} stays as it was", instance.text(), text)
        if cost is None:
            expect(f"instance {seed} has no optima", found[0], "Unsatisfiable")
            continue
        given = [tuple(solution[it] for it in chosen) for solution in found]
        expect(f"instance {seed}, all optima", (sorted(given), found.is_complete), (sorted(wanted), True))
        expect(f"instance {seed}, each shown", {(it.cost, it.is_optimum) for it in found}, {(cost, True)})
        if len(wanted) > 2:
            found = instance.optima(2, program=program)
            expect(f"instance {seed}, two optima", (len({it.bits for it in found}), found.is_complete), (2, False))
        found = instance.optima(200, over=chosen[:1], program=program)
        expect(f"instance {seed}, over one variable", {it[chosen[0]] for it in found}, {values[0] for values in wanted})
        expect(f"instance {seed}, over one variable, no two alike", len(found), len({values[0] for values in wanted}))

    # What is told on the way.
    steps = []
    found = pigeons(7).solve(program=program, progress=steps.append)
    expect("the history falls to the cost", (found.history[-1].cost, found.history[-1].lower), (1, 1))
    costs = [step.cost for step in found.history if step.cost is not None]
    expect("costs fall, seconds rise", (costs == sorted(costs, reverse=True), [step.seconds for step in found.history] == sorted(step.seconds for step in found.history)), (True, True))
    expect("steps are told", (len(steps) > 0, all(isinstance(step, wmax.Step) for step in steps)), (True, True))
    expect("steps of the history", [step.cost for step in found.history if step.cost is not None][-1], 1)
    found.plot(folder / "a.svg")
    for history in ([wmax.Step(0.0, 0, 0)], [wmax.Step(0.0, 5, None)], [wmax.Step(0.1, None, 2), wmax.Step(0.2, 9, 2), wmax.Step(3.0, 7, 7)],
                    [wmax.Step(1.0, 2 ** 61, 1)]):
        picture = xml.dom.minidom.parseString(wmax._picture(history))
        lines = [it.getAttribute("d") for it in picture.getElementsByTagName("path")]
        expect(f"a picture: {history}", len(lines), 1 + sum(any(step[k] is not None for step in history) for k in (1, 2)))
        expect(f"a picture: {history}, in its frame", all(0 <= float(it) <= 720 for line in lines for it in line.split() if not it.isalpha()), True)
    expect("a picture in a file", xml.dom.minidom.parse(str(folder / "a.svg")).documentElement.tagName, "svg")
    expect("a picture that cannot be written", raised(lambda: found.plot(folder / "no" / "a.svg"))[0], "FileFailed")
    said = io.StringIO()
    with contextlib.redirect_stderr(said):
        pigeons(5).solve(program=program, progress=True)
        expect("no line where there is no terminal", said.getvalue(), "")
        said.isatty = lambda: True
        os.environ["TERM"] = "xterm"
        pigeons(5).solve(program=program, progress=True)
    lines = said.getvalue().split("\r")
    expect("lines on a terminal", (len(lines) > 1, all(len(line.replace("\x1b[K", "")) < 80 for line in lines), "\n" in said.getvalue()), (True, True, False))
    expect("the terminal is left clean", said.getvalue().endswith("\r\x1b[K"), True)


def reasons(program):
    plan = wmax.Instance()
    tea, coffee, milk, sugar = plan.variables("tea", "coffee", "milk", "sugar")
    plan.hard(sugar, about="sugar is wanted")
    plan.at_least(1, [tea, coffee], about="something to drink")
    plan.hard(-coffee, milk)
    plan.hard(-sugar, tea, coffee, milk)
    plan.at_most(0, [tea], about="no tea")
    plan.hard(-milk, about="no milk")
    plan.soft(1, sugar)
    found = raised_error(lambda: plan.solve(program=program))
    expect("why not", [it.about for it in found.because], ["something to drink", "not coffee or milk", "no tea", "no milk"])
    expect("each is needed", found.is_minimal, True)
    expect("their clauses", [it.clauses for it in found.because], [((tea, coffee),), ((-coffee, milk),), ((-tea,),), ((-milk,),)])
    expect("once is enough", found.because is found.because, True)
    expect("no effort", ([it.about for it in found.find_because(time_limit=0)][-2:], found.is_minimal), (["no tea", "no milk"], False))
    nothing = wmax.Instance()
    nothing.hard(nothing.variable("a"))
    nothing.hard()
    found = raised_error(lambda: nothing.solve(program=program))
    expect("a clause without a literal", ([it.about for it in found.because], found.is_minimal), (["a clause without a literal"], True))
    holes = wmax.Instance()
    sits = [[holes.variable((pigeon, "in", hole)) for hole in range(3)] for pigeon in range(4)]
    others = holes.variables(f"other {k}" for k in range(40))
    for k in range(39):
        holes.hard(-others[k], others[k + 1])
    for pigeon, row in enumerate(sits):
        holes.hard(*row, about=f"{pigeon} has a hole")
    for hole in range(3):
        holes.at_most(1, [row[hole] for row in sits], about=f"one in {hole}")
    found = raised_error(lambda: holes.solve(program=program))
    expect("pigeons", ([it.about for it in found.because], found.is_minimal),
           ([*(f"{pigeon} has a hole" for pigeon in range(4)), *(f"one in {hole}" for hole in range(3))], True))
    met = set()
    for seed in range(60):
        pick = random.Random(seed)
        instance = wmax.Instance()
        chosen = instance.variables(range(pick.randint(3, 5)))
        rules = []
        for number in range(pick.randint(8, 16)):
            weights = {pick.choice([it, -it]): pick.randint(1, 4) for it in pick.sample(chosen, k=pick.randint(1, 3))}
            limit, kind = pick.randint(1, 6), pick.choice(["at_least", "at_most"])
            getattr(instance, kind)(limit, weights, about=str(number))
            rules.append(lambda values, kind=kind, weights=weights, limit=limit: SUMS[kind](
                sum(weight for it, weight in weights.items() if values[abs(it.number) - 1] == (it.number > 0)), limit))

        def holds(numbers):
            return any(all(rules[number](values) for number in numbers) for values in itertools.product((False, True), repeat=len(chosen)))

        found = raised_error(lambda: instance.solve(program=program))
        if isinstance(found, wmax.Solution):
            expect(f"instance {seed}", holds(range(len(rules))), True)
            continue
        left = [int(it.about) for it in found.because]
        expect(f"instance {seed}, they contradict each other", holds(left), False)
        expect(f"instance {seed}, each is needed", (found.is_minimal, all(holds(set(left) - {it}) for it in left)), (True, True))
        met.add(len(left))
    expect("contradictions of several sizes", len(met) > 1, True)


def raised_error(call):
    """The exception of a call, or what the call gave."""
    try:
        return call()
    except wmax.WmaxError as error:
        return error


def stack_folder():
    """A folder that is removed when this ends."""
    global FOLDER
    FOLDER = tempfile.TemporaryDirectory(prefix="wmax-python-")
    return pathlib.Path(FOLDER.name)


def pigeons(holes):
    """As many pigeons as holes and one more, of which as many as may be want a hole of their own."""
    instance = wmax.Instance()
    sits = [[instance.variable(f"{pigeon} in {hole}") for hole in range(holes)] for pigeon in range(holes + 1)]
    for hole in range(holes):
        instance.at_most(1, [row[hole] for row in sits])
    for row in sits:
        instance.soft(1, *row)
    return instance


def cover(size):
    """A random graph of which vertices are to be chosen, so that each edge has one; their weights vary."""
    draw = random.Random(7)
    instance = wmax.Instance()
    vertices = [instance.variable(f"vertex {number}") for number in range(size)]
    for _ in range(3 * size):
        instance.hard(*draw.sample(vertices, 2))
    for vertex in vertices:
        instance.soft(draw.randrange(1, 60), -vertex)
    return instance


def examples(program):
    import seating
    import upgrade

    wanted = min(upgrade_costs(upgrade), default=None)
    found = upgrade.make_instance()[0].solve(program=program)
    expect("the upgrade", (found.cost, found.is_optimum), (wanted, True))
    upgrade.WANTED = ["queue", "cron", "wiki"]
    expect("an upgrade that cannot be", stopped(upgrade.main), (
        "upgrade.py: what is wanted cannot be installed:\n  queue and cron cannot stand together\n  queue is wanted\n  cron is wanted\n"))
    wanted = min(seating_costs(seating), default=None)
    found = seating.make_instance()[0].solve(program=program)
    expect("the seating", (found.cost, found.is_optimum), (wanted, True))
    seating.RIVALS.append(("Ann", "Ben"))
    expect("a seating that cannot be", "\n  Ben sits with Ann\n" in stopped(seating.main), True)


def stopped(main):
    """What an example says that stops."""
    said, words = io.StringIO(), sys.argv
    sys.argv = words[:1]
    with contextlib.redirect_stderr(said), contextlib.suppress(SystemExit):
        main()
    sys.argv = words
    return said.getvalue()


def upgrade_costs(told):
    """What each plan of examples/upgrade.py costs, read off its tables."""
    names = list(told.PACKAGES)

    def holds(word, plan):
        return any(plan[name] == version for part in word.split("|") for name, version in told.matching(part.strip()))

    for versions in itertools.product(*([None, *told.PACKAGES[name]] for name in names)):
        plan = dict(zip(names, versions))
        needs = [need for name, version in plan.items() if version for need in told.PACKAGES[name][version]]
        if not all(holds(word, plan) for word in [*needs, *told.WANTED]):
            continue
        if any(holds(one, plan) and holds(other, plan) for one, other in told.CONFLICTS):
            continue
        cost = 0
        for name, version in plan.items():
            was = told.INSTALLED.get(name)
            cost += told.REMOVED * (was is not None and version is None) + told.ADDED * (was is None and version is not None)
            cost += told.CHANGED * (was is not None and version != was)
            cost += told.BEHIND * (version is not None and sum(it > version for it in told.PACKAGES[name]))
        yield cost


def seating_costs(told):
    """What each seating of examples/seating.py costs, read off its tables."""
    for tables in itertools.product(told.TABLES, repeat=len(told.GUESTS)):
        if not all(told.FEWEST <= tables.count(table) <= told.MOST for table in told.TABLES):
            continue
        at = dict(zip(told.GUESTS, tables))
        if any(at[one] != at[other] for one, other in told.PAIRS) or any(at[one] == at[other] for one, other in told.RIVALS):
            continue
        away = sum(at[who] != told.TABLES[0] for who in told.SPEAK)
        yield sum(cost for one, other, cost in told.FRIENDS if at[one] != at[other]) + told.ELSEWHERE * max(0, away - 2)


TRIES = {"counts": counts, "sums": sums, "refusals": refusals, "texts": texts, "lies": lies, "stops": stops, "again": again,
         "reasons": reasons, "examples": examples,
         "optima": lambda program, count: optima(program, int(count))}
TRIES[sys.argv[1]](*sys.argv[2:])
print(f"{passed} passed, {failed} failed")
