"""Planning in Python: variables with names, clauses, counts and sums, and optima that are checked.

One file that needs only the standard library of Python 3.9 or later, on Unix. Copy it next to your
program, put its folder on PYTHONPATH, or `pip install` its folder. It runs `wmax solve`, and checks
what that has found with `wmax check` or `wmax lower`.

>>> import wmax
>>> shopping = wmax.Instance()
>>> tea, coffee, milk = shopping.variables("tea", "coffee", "milk")
>>> shopping.hard(tea, coffee)               # at least one of them
>>> shopping.hard(-coffee, milk)             # coffee needs milk
>>> shopping.soft(3, -tea, about="tea costs 3")
>>> shopping.soft(2, -coffee, about="coffee costs 2")
>>> shopping.soft(2, -milk, about="milk costs 2")
>>> found = shopping.solve()
>>> found.cost, found.is_optimum, found.true_names
(3, True, ['tea'])
>>> [(part.weight, part.about) for part in found.given_up]
[(3, 'tea costs 3')]

A clause holds if one of its literals is true; `-tea` means 'no tea'. A hard clause has to hold. A
soft clause costs its weight if it does not hold. So 'if coffee then milk' is `hard(-coffee, milk)`,
and 'not both' is `hard(-tea, -coffee)`, or `at_most(1, [tea, coffee])`. Python's `or`, `and` and
`not` cannot be used for this: they raise an error that says what to write instead.

>>> shopping.hard(tea or coffee)
Traceback (most recent call last):
wmax.WrongType: a literal has no value before solve: 'a or b' is hard(a, b), 'a and b' is hard(a) \
and hard(b), 'not a' is -a; a solution has the value, solution[a]

Sums have weights. Here a bag holds at most 10 kg, and each thing left at home costs something.

>>> bag = wmax.Instance()
>>> tent, stove, book = bag.variables("tent", "stove", "book")
>>> bag.at_most(10, {tent: 6, stove: 5, book: 3})
>>> for thing, worth in (tent, 9), (stove, 8), (book, 4): bag.soft(worth, thing)
>>> bag.solve().true_names
['tent', 'book']

If the hard constraints contradict each other, `because` lists some that do.

>>> bag.at_least(2, [tent, stove], about="both are needed")
>>> try: bag.solve()
... except wmax.Unsatisfiable as error: print([reason.about for reason in error.because])
['at most 10: 6 tent, 5 stove, 3 book', 'both are needed']

`solve` returns a `Solution`. If its `is_optimum` is True, nothing is cheaper: `wmax check` has said
YES to the certificate, or `wmax lower` has shown that nothing costs less. If there is no solution to
return, an exception is raised, of a class derived from `WmaxError`. `python3 -m wmax FILE` solves
the instance in FILE, and says what its solution gives up.
"""
from __future__ import annotations

import argparse
import collections.abc
import contextlib
import dataclasses
import fcntl
import functools
import gzip
import itertools
import lzma
import math
import operator
import os
import pathlib
import re
import shutil
import signal
import subprocess
import sys
import tempfile
import threading
import time
import warnings
import zlib
from typing import (Any, Callable, Dict, Iterable, Iterator, List, Mapping, NamedTuple, Optional, Sequence, Tuple,
                    Union)

__all__ = ["Instance", "Literal", "Solution", "GivenUp", "Constraint", "Step", "Optima", "WmaxError", "WrongType",
           "WrongValue", "NoSuchName", "Unsatisfiable", "NoSolutionFound", "CheckFailed", "ProgramFailed",
           "FileFailed", "FolderInUse"]

# The weights of an instance are less than this together.
WEIGHT_LIMIT = 2 ** 62

# An instance has no more variables than this.
VARIABLE_LIMIT = 2 ** 22

# A constraint with more clauses than this is warned of.
MANY_CLAUSES = 200_000

# A totalizer may have so many clauses, or so many for each one that an adder network would have.
TOTALIZER_ROOM, TOTALIZER_FACTOR = 2_000, 10


class WmaxError(Exception):
    """What goes wrong here is one of the classes below."""

    __str__ = Exception.__str__


class WrongType(WmaxError, TypeError):
    """An argument is of another type than is needed, or an operation on literals means nothing."""


class WrongValue(WmaxError, ValueError):
    """An argument, or a line of a file, has a value that is not allowed."""


class NoSuchName(WmaxError, KeyError):
    """No variable has this name."""


class NoSolutionFound(WmaxError):
    """Time or effort ran out, or Ctrl-C came, before a solution was met. There may be one."""


class CheckFailed(WmaxError):
    """What the solver said is not shown to be true: `wmax check` said NO, or the bits are wrong."""


class ProgramFailed(WmaxError):
    """The program is missing, refused the instance, or had no memory or no room on the disk."""


class FileFailed(WmaxError):
    """A file or a folder cannot be read or written."""


class FolderInUse(WmaxError):
    """Another `solve` works in this folder."""


class Unsatisfiable(WmaxError):
    """No assignment satisfies the hard clauses. `wmax check` has said YES to the certificate."""

    def __init__(self, words: str, contradiction: "_Contradiction") -> None:
        super().__init__(words)
        self._contradiction = contradiction
        self._found: Optional[List[Constraint]] = None
        self.is_minimal = False  # whether `because` is known to hold together without one of them

    @property
    def because(self) -> List["Constraint"]:
        """`find_because()`, which is called when this is first asked for."""
        return self.find_because() if self._found is None else self._found

    def find_because(self, *, time_limit: float = 60, conflicts: int = 20_000) -> List["Constraint"]:
        """Hard constraints that contradict each other, in the order of their making.

        `wmax check` has said YES to the certificate of a run over their clauses alone. To find them,
        `wmax solve` runs over all hard clauses again. Those that its certificate comes down to are
        kept; then one after another is left out, and stays out if the others still contradict each
        other. `is_minimal` is true if this was decided for each.
        time_limit  seconds for leaving out; after them come one more run and its check
        conflicts   the effort for each
        CheckFailed, ProgramFailed, FileFailed: as `solve` says.
        """
        self._found, self.is_minimal = self._contradiction.find(
            _seconds("time_limit", time_limit), _whole("conflicts", conflicts, 0))
        return self._found


@dataclasses.dataclass(frozen=True)
class Literal:
    """A variable, or its negation: `-literal` or `~literal` is the other one. `Instance.variable` makes them.

    Two are equal that are of one instance and have the same number, so they can be keys of a dict.
    """

    number: int  # the variable, from 1 on; below 0 for its negation
    name: str  # what the variable is called; '' for one of a count
    owner: "Instance" = dataclasses.field(repr=False)

    def __neg__(self) -> "Literal":
        return Literal(-self.number, self.name, self.owner)

    __invert__ = __neg__

    def __str__(self) -> str:
        name = self.name or f"variable {abs(self.number)}"
        return name if self.number > 0 else f"not {name}"

    def __bool__(self) -> bool:
        raise WrongType("a literal has no value before solve: 'a or b' is hard(a, b), 'a and b' is hard(a) and hard(b), "
                        "'not a' is -a; a solution has the value, solution[a]")


def _refuse_operators() -> None:
    """Gives literals the operators that mean nothing, each with what to write."""
    if_then = "'if a then b' is hard(-a, b)"
    sums = "'at most one of them' is at_most(1, [a, b]); with weights it is at_most(9, {a: 4, b: 6})"

    def refusal(sign: str, instead: str) -> Callable[..., Any]:
        def refuse(*_: Any) -> Any:
            raise WrongType(f"literals have no {sign}: {instead}")
        return refuse

    for sign, names, instead in (
            ("|", "or ror", "'a or b' is hard(a, b)"), ("&", "and rand", "'a and b' is hard(a) and hard(b)"),
            ("^", "xor rxor", "'either a or b' is exactly(1, [a, b])"), (">>", "rshift rrshift", if_then),
            ("<", "lt", if_then), ("<=", "le", if_then), (">", "gt", if_then), (">=", "ge", if_then),
            ("+", "add radd", sums), ("-", "sub rsub", sums), ("*", "mul rmul", sums)):
        for name in names.split():
            setattr(Literal, f"__{name}__", refusal(sign, instead))


_refuse_operators()

# What a variable may be called: a text, a whole number, or several of these.
Name = Union[str, int, Sequence[Any]]

# What counts and sums are of: literals, of which each true one counts 1, or weights by literal.
Weighted = Union[Iterable[Literal], Mapping[Literal, int]]


@dataclasses.dataclass(frozen=True)
class GivenUp:
    """A soft clause without a true literal."""

    weight: int
    about: str
    literals: Tuple[Literal, ...]


@dataclasses.dataclass(frozen=True)
class Constraint:
    """The clauses of one call of `hard`, `at_most`, `at_least` or `exactly`."""

    about: str  # what was said about it, else the constraint in the names of its variables
    clauses: Tuple[Tuple[Literal, ...], ...]


class Step(NamedTuple):
    """What was known at some moment of a search, as the program said it: nothing of this is checked."""

    seconds: float  # since the start of `wmax solve`
    cost: Optional[int]  # of the best solution so far
    lower: Optional[int]  # nothing costs less


@dataclasses.dataclass(frozen=True)
class Solution:
    """An assignment that satisfies every hard clause, and its cost, which was counted again here.

    It is of the instance as it was when it was solved.
    """

    cost: int  # the weights of the soft clauses that are given up, together
    is_optimum: bool  # nothing is cheaper: `wmax check` said YES, or `wmax lower` gave a bound as great as the cost
    lower: Optional[int]  # nothing costs less, which was checked; None where nothing is proved
    status: Optional[int]  # the exit status of `wmax solve`; None where it was stopped, as by Ctrl-C
    is_interrupted: bool  # whether Ctrl-C stopped it
    true_names: List[str]  # the names of the variables that are true, in the order of their making
    given_up: List[GivenUp]  # the soft clauses that do not hold, in the order of their making
    history: List[Step] = dataclasses.field(repr=False)  # in the order of time; the last is of the end
    bits: Tuple[bool, ...] = dataclasses.field(repr=False)  # the values of the variables from 1 on
    instance: "Instance" = dataclasses.field(repr=False)

    def __getitem__(self, which: Union[Literal, Name]) -> bool:
        """Whether this literal, or the variable of this name, is true.

        NoSuchName: there is no such name. WrongValue: the literal is of another instance, or newer.
        """
        literal = which if isinstance(which, Literal) else self.instance[which]
        self.instance.stop_on_strangers([literal])
        if abs(literal.number) > len(self.bits):
            raise WrongValue(f"this variable was made after the solution: {literal}")
        return _is_true(literal.number, self.bits)

    def plot(self, path: Union[str, "os.PathLike[str]"]) -> None:
        """Writes a picture (SVG) of cost and lower bound over time. FileFailed: it cannot be written."""
        with _files_fail():
            pathlib.Path(path).write_text(_picture(self.history), encoding="utf-8")


class Optima(List[Solution]):
    """Solutions of least cost, as `Instance.optima` returns them."""

    is_complete = False  # whether it was checked that there are no others


class _Clause(NamedTuple):
    weight: Optional[int]  # None for a hard one
    numbers: Tuple[int, ...]
    about: str
    group: int  # the call that made it


class Instance:
    """Clauses over variables that have names."""

    def __init__(self) -> None:
        self._names: List[str] = []  # of the variables from 1 on; '' for those of a count
        self._literals: Dict[str, Literal] = {}  # by name
        self._clauses: List[_Clause] = []
        self._groups: List[str] = []  # what is said about each call that made clauses
        self._weights = 0  # of the soft clauses together
        self._last: Tuple[bool, ...] = ()  # the last solution

    # Variables

    def variable(self, name: Name) -> Literal:
        """A new variable of this name, as a literal that is true where the variable is.

        A tuple or list is a name, too: ("Ann", 1) is another way to write "Ann 1".
        WrongType: this is no name. WrongValue: the name is taken, is empty, has a control
        character or a lone surrogate, begins or ends with a blank, or has two of them together.
        """
        text = _name("name", name)
        if text in self._literals:
            raise WrongValue(f"name: there is a variable of this name already: {text}")
        self._literals[text] = self.literal(self._new(text))
        return self._literals[text]

    def variables(self, *names: Any) -> List[Literal]:
        """New variables of these names, in this order, or of those in one list or other iterable.

        Errors as in `variable`; a single tuple is a name.
        """
        if len(names) == 1 and not isinstance(names[0], (str, tuple)) and isinstance(names[0], collections.abc.Iterable):
            names = tuple(names[0])
        return [self.variable(name) for name in names]

    def __getitem__(self, name: Name) -> Literal:
        """The variable of this name. NoSuchName: there is none."""
        text = _name("name", name)
        if text not in self._literals:
            raise NoSuchName(f"no variable has this name: {text}")
        return self._literals[text]

    def __contains__(self, name: Name) -> bool:
        """Whether a variable has this name."""
        return _name("name", name) in self._literals

    def __iter__(self) -> Iterator[str]:
        """The names of variables, in the order in which they were made."""
        return iter(self._literals)

    def named(self) -> List[Tuple[str, Literal]]:
        """The variables with their names, in the order in which they were made."""
        return list(self._literals.items())

    def literal(self, number: int) -> Literal:
        """The literal of this number, as the text has it: -7 is the negation of variable 7.

        WrongType, WrongValue: no variable has this number.
        """
        number = _whole("number", number)
        if not 0 < abs(number) <= len(self._names):
            raise WrongValue(f"number: {number} is none of a literal; there are {len(self._names)} variables")
        return Literal(number, self._names[abs(number) - 1], self)

    def _new(self, name: str = "") -> int:
        self._names.append(name)
        return len(self._names)

    def stop_on_strangers(self, literals: Iterable[Literal], argument: str = "literals") -> None:
        """WrongType: one of these is no literal. WrongValue: one belongs to another instance."""
        for literal in literals:
            if not isinstance(literal, Literal):
                raise WrongType(f"{argument}: {literal!r} is no literal. " + (
                    "'a if and only if b' is hard(-a, b) and hard(a, -b)" if isinstance(literal, bool) else
                    "variable() makes one; write *list for a list of them"))
            if literal.owner is not self:
                raise WrongValue(f"{argument}: a literal of another instance: {literal}")

    # Clauses

    def hard(self, *literals: Literal, about: str = "") -> None:
        """One of these literals has to be true. Without a literal, nothing satisfies the instance.

        `about` is written as a comment above the clause. It never names a variable: if it could be
        read as a name, `:` stands before it.
        WrongType, WrongValue: no literal of this instance, or no line of text.
        """
        self.stop_on_strangers(literals)
        about = _line("about", about)
        self._groups.append(about)
        self._add(None, [it.number for it in literals], about)

    def soft(self, weight: int, *literals: Literal, about: str = "") -> None:
        """It costs `weight` if none of these literals is true.

        `about` says so in words, as in `hard`, and `wmax explain` shows it. By default it is the
        clause, spelled with the names of its variables.
        WrongType, WrongValue: the weight is no whole number from 1 on, or all together reach 2^62.
        """
        if isinstance(weight, float):
            raise WrongType(f"weight: {weight!r} is no whole number. Count in smaller units, as in cents")
        weight = _whole("weight", weight)
        if weight < 1 or self._weights + weight >= WEIGHT_LIMIT:
            raise WrongValue(f"weight: {weight} is not from 1 on, or all reach 2^62 together")
        self.stop_on_strangers(literals)
        about = _line("about", about) or " or ".join(map(str, literals)) or "a cost that is always paid"
        self._groups.append(about)
        self._add(weight, [it.number for it in literals], about)
        self._weights += weight

    def _add(self, weight: Optional[int], numbers: Iterable[int], about: str) -> None:
        self._clauses.append(_Clause(weight, tuple(numbers), about, len(self._groups) - 1))

    # Counts and sums

    def at_most(self, most: int, literals: Weighted, *, when: Optional[Literal] = None, about: str = "") -> None:
        """At most `most` of these literals are true. If `when` is given, this has to hold only if `when` is true.

        With weights, as in `at_most(10, {tent: 6, stove: 5})`, the weights of the true literals sum
        to at most `most`; then weights and `most` may be negative. A literal that stands twice in a
        list counts twice.

        A count that takes few clauses is written as plain clauses. Otherwise it becomes a totalizer
        that stops counting above `most` (O. Bailleux and Y. Boufkhad: Efficient CNF Encoding of
        Boolean Cardinality Constraints, 2003). A sum with weights becomes a generalized totalizer
        (S. Joshi, R. Martins and V. Manquinho: Generalized Totalizer Encoding for Pseudo-Boolean
        Constraints, 2015). If that would be large, with more than ten times the clauses of an adder
        network, it becomes the adder network (N. Eén and N. Sörensson: Translating Pseudo-Boolean
        Constraints into SAT, 2006).

        WrongType, WrongValue: `most` is not a whole number, or it is negative and there are no
        weights; or another argument is not what it should be. More than 200,000 clauses give a
        warning.
        """
        self._limit("at most", None, most, literals, when, about)

    def at_least(self, least: int, literals: Weighted, *, when: Optional[Literal] = None, about: str = "") -> None:
        """At least `least` of these literals are true, or their weights sum to at least that. The rest is as in `at_most`."""
        self._limit("at least", least, None, literals, when, about)

    def exactly(self, number: int, literals: Weighted, *, when: Optional[Literal] = None, about: str = "") -> None:
        """Exactly `number` of these literals are true, or their weights sum to that. The rest is as in `at_most`."""
        self._limit("exactly", number, number, literals, when, about)

    equal = exactly

    def count(self, literals: Iterable[Literal], most: Optional[int] = None) -> List[Literal]:
        """Literals that say how many of these are true: the one at index k says 'more than k are'.

        There are as many as `literals` has, or `most`. If each true literal after the second one
        costs 5, write `for more in plan.count(literals)[2:]: plan.soft(5, -more)`.
        """
        listed = self._listed(literals)
        most = len(listed) if most is None else _whole("most", most, 0)
        self._groups.append(_spelled("the count", [(1, it) for it in listed]))
        draft = _Draft(len(self._names), ())
        more = _totalizer(draft, [it.number for it in listed], most, rises=True, falls=True)
        self._take(draft, "")
        return [self.literal(number) for number in more]

    def _listed(self, literals: Any) -> List[Literal]:
        if isinstance(literals, str) or not isinstance(literals, collections.abc.Iterable):
            raise WrongType(f"literals: {literals!r} is no list of literals")
        listed = list(literals)
        self.stop_on_strangers(listed)
        return listed

    def _limit(self, kind: str, least: Optional[int], most: Optional[int], given: Weighted,
               when: Optional[Literal], about: str) -> None:
        has_weights = isinstance(given, collections.abc.Mapping)
        bound = _whole(kind.replace("at ", "").replace("exactly", "number"), most if least is None else least,
                       None if has_weights else 0)
        literals = self._listed(given)
        weights = [_whole("weight", given[it]) for it in literals] if has_weights else [1] * len(literals)
        if when is not None:
            self.stop_on_strangers([when], "when")
        about = _line("about", about)
        self._groups.append(about or _spelled(f"{kind} {bound}", list(zip(weights, literals))))
        unless = () if when is None else (-when.number,)
        terms, base = _terms(zip(weights, literals))
        most = sum(terms.values()) if most is None else bound - base
        least = 0 if least is None else bound - base
        room = max(TOTALIZER_ROOM, TOTALIZER_FACTOR * _adder_size(terms))
        draft = _Draft(len(self._names), unless, room)
        try:
            _bound_sum(draft, dict(terms), least, most, _bound_by_totalizers)
        except _NoRoom:
            draft = _Draft(len(self._names), unless)
            _bound_sum(draft, dict(terms), least, most, _bound_by_adders)
        self._take(draft, about)

    def _take(self, draft: "_Draft", about: str) -> None:
        """The clauses of the draft; the first one gets the comment."""
        self._names.extend([""] * (draft.variables - len(self._names)))
        for numbers in draft.clauses:
            self._add(None, numbers, about)
            about = ""
        if len(draft.clauses) > MANY_CLAUSES:
            warnings.warn(f"{len(draft.clauses):,} clauses for one constraint: {self._groups[-1]}", stacklevel=4)

    # The text

    def text(self) -> str:
        """The instance in the form of the MaxSAT Evaluation 2022.

        A comment for each variable with a name comes first, as in `c 7 = Ann Tue`.
        """
        return "".join(f"{line}\n" for line in self._lines())

    def _lines(self) -> Iterator[str]:
        for name, literal in self.named():
            yield f"c {literal.number} = {name}"
        said, group = "", None
        for clause in self._clauses:
            if clause.about != said and (clause.about or clause.group != group):
                # An empty comment ends what an earlier one is about.
                said = clause.about
                yield f"c {_COMMENT_MARK if _LIKE_A_NAME.match(said) else ''}{said}".rstrip()
            group = clause.group
            yield _clause_line(clause.weight, clause.numbers)

    @classmethod
    def read(cls, path: Union[str, "os.PathLike[str]"]) -> "Instance":
        """The instance of a file in either form, also one that gzip or xz have compressed.

        Comments as in `c 7 = Ann Tue` name variables, the first one for each; `literal(7)` gives a
        variable without a name. A clause is about the last comment above it that names nothing,
        unless a blank line or an empty comment is between: so `wmax explain` has it, too.
        WrongValue: a line is faulty, which it names. FileFailed: the file cannot be read.
        """
        instance = cls()
        with _files_fail(), _opened(_path("path", path)) as lines:
            _Reader(instance, str(path)).read(lines)
        return instance

    # Solving

    def solve(self, *, time_limit: Optional[float] = None, conflicts: Optional[int] = None, profile: Optional[int] = None,
              program: Union[str, "os.PathLike[str]", None] = None, folder: Union[str, "os.PathLike[str]", None] = None,
              resume: bool = False, warm: bool = True,
              progress: Union[bool, Callable[[Step], Any], None] = None) -> Solution:
        """A solution of least cost, after a check that nothing is cheaper; or the best one within a limit.

        time_limit  seconds after which `wmax solve` ends. Then the best solution so far is returned,
                    with `is_optimum` False, or True if the lower bound that was proved is as great as
                    its cost. Checking takes time on top of this. Ctrl-C has the same effect.
        conflicts   the limit on effort of `wmax solve --conflicts`: the same number gives the same
                    answer, if the run begins with the same solution
        profile     how 'cheaper' is encoded; by default the last one that the program's help names. In
                    profile 3 a search that ends before an optimum has proved a lower bound, which is
                    checked
        program     the path of `wmax`; by default WMAX in the environment, ../wmax as seen from this
                    file, or `wmax` on PATH
        folder      where the files are kept: instance.wcnf, instance.result, instance.lrat,
                    instance.best (the best result so far) and instance.lock. It is made if need be. By
                    default they are removed at the end, also if an exception ends the call or, in the
                    main thread, SIGTERM does
        resume      whether to go on from what an earlier call left in the folder: from its solution,
                    and in profile 3 with its certificate, so that no bound is lost. What does not fit
                    this instance is moved to instance.best.earlier or instance.lrat.earlier
        warm        whether to begin with the last solution of this instance, if it satisfies the hard
                    clauses that were added since
        progress    a function that is called with a `Step` at each change and twice a second; or True
                    for a line on standard error, if that is a terminal

        Unsatisfiable: the hard clauses cannot all hold, which was checked.
        NoSolutionFound: time or effort ran out, or Ctrl-C came, before a solution.
        CheckFailed: `wmax check` did not say YES, or the bits are no solution of that cost.
        ProgramFailed: the program cannot be run or ended with a fault, which it reports.
        FileFailed, FolderInUse: what has to be written cannot be; another `solve` works in the folder.
        WrongType, WrongValue: an argument is not what it should be.
        """
        ask = _Request(None if time_limit is None else _seconds("time_limit", time_limit),
                       None if conflicts is None else _whole("conflicts", conflicts, 0), _follower(progress))
        profile = None if profile is None else _whole("profile", profile, 1)
        program = find_program() if program is None else _program(program)
        if resume and folder is None:
            raise WrongValue("resume: there is no folder to go on from")
        try:
            with _files_fail(), _ended_by_signals(), _folder(folder) as (home, lock):
                run = _Run(program, home, profile, lock)
                run.clear(resume)
                run.instance.write_text(self.text(), encoding="utf-8")
                self._begin(run, resume, warm)
                run.solve(ask)
                run.conclude()
        except KeyboardInterrupt:
            raise NoSolutionFound("no solution was met before the interrupt") from None
        if run.said.status == "UNSATISFIABLE":
            raise Unsatisfiable("no assignment satisfies the hard clauses", _Contradiction(self, self._clauses, program, profile))
        if run.said.status == "UNKNOWN":
            raise NoSolutionFound("no solution was met " + {"time": "in this time", "interrupt": "before the interrupt"}.get(
                run.stopped, "by this effort"))
        try:
            return self._solution(run)
        except KeyboardInterrupt:
            # What was found is given all the same.
            run.stopped = "interrupt"
            return self._solution(run)

    def _solution(self, run: "_Run") -> Solution:
        """What the run has found. CheckFailed: it is no solution of that cost, or a bound is above it."""
        said = run.said
        # The digits end at the greatest variable that stands in a clause.
        bits = _bits(said.digits.ljust(len(self._names), "0"))
        given_up = self._given_up(bits, said.cost)
        is_shown = said.status == "OPTIMUM FOUND" and run.is_checked
        bound = said.cost if is_shown else run.bound
        if bound is not None and bound > said.cost:
            raise CheckFailed(f"the bits cost {said.cost}, and at least {bound} is said to be needed")
        self._last = bits
        run.step(said.cost, bound)
        true_names = [name for name, literal in self.named() if _is_true(literal.number, bits)]
        return Solution(said.cost, bound == said.cost, bound, run.status, run.stopped == "interrupt", true_names, given_up,
                        run.history, bits, self)

    def optima(self, most: int = 10, *, over: Optional[Iterable[Literal]] = None, **how: Any) -> Optima:
        """At most `most` solutions of least cost. Each was checked to be an optimum.

        Any two of them differ in at least one of the literals `over`. By default these are the
        variables with names, or all variables if none has a name. `how` is passed on to `solve`. If
        time or effort runs out, or Ctrl-C comes, those found so far are returned. `is_complete` says
        whether it was checked that there are no others. The search for the first one may raise what
        `solve` does.
        """
        most = _whole("most", most, 1)
        numbers = [it.number for it in (self._literals.values() if over is None else self._listed(over))]
        numbers = numbers or list(range(1, len(self._names) + 1))
        optima = Optima()
        found = self.solve(**how)
        how["resume"] = False  # no earlier run was one with the clauses to come
        size = len(self._clauses), len(self._groups)
        try:
            while found.is_optimum and (not optima or found.cost == optima[0].cost):
                optima.append(found)
                if len(optima) == most:
                    return optima
                self._groups.append("another optimum")
                self._add(None, [-it if _is_true(it, found.bits) else it for it in numbers], "another optimum")
                found = self.solve(**how)
            optima.is_complete = bool(optima) and found.lower is not None and found.lower > optima[0].cost
        except Unsatisfiable:
            optima.is_complete = True
        except NoSolutionFound:
            pass
        finally:
            del self._clauses[size[0]:], self._groups[size[1]:]
        return optima

    def _begin(self, run: "_Run", resume: bool, warm: bool) -> None:
        """Puts the cheapest solution that is known where the run begins with it."""
        kept = run.kept().digits
        starts = [self._last] if warm and self._last else []
        starts += [_bits(kept)] if kept and resume else []
        fitting = [bits for bits in map(self._continued, starts) if bits is not None]
        if kept and not (resume and self._continued(_bits(kept))):
            run.set_aside(run.best)
        if not fitting:
            run.best.unlink(missing_ok=True)
            return
        cost, bits = min((self._cost(bits), bits) for bits in fitting)
        greatest = max((abs(it) for clause in self._clauses for it in clause.numbers), default=0)
        run.keep(cost, "".join("01"[bit] for bit in bits[:greatest]))

    def _continued(self, bits: Tuple[bool, ...]) -> Optional[Tuple[bool, ...]]:
        """These bits, with values for newer variables; None where a hard clause does not hold in them.

        A newer variable is false unless a clause needs it. This suffices for those of counts and
        sums, whose clauses come in the order in which values follow from each other.
        """
        size = len(bits)
        values = [*bits, *[False] * (len(self._names) - size)]
        if size > len(self._names):
            return None
        for _ in range(4):
            is_done = True
            for clause in self._clauses:
                if clause.weight is None and not any(_is_true(it, values) for it in clause.numbers):
                    newer = [it for it in clause.numbers if it > size]
                    if not newer:
                        return None
                    values[newer[-1] - 1], is_done = True, False
            if is_done:
                return tuple(values)
        return None

    def _broken(self, bits: Sequence[bool]) -> Iterator[_Clause]:
        """The clauses without a true literal."""
        return (clause for clause in self._clauses if not any(_is_true(it, bits) for it in clause.numbers))

    def _cost(self, bits: Sequence[bool]) -> int:
        return sum(clause.weight or 0 for clause in self._broken(bits))

    def _given_up(self, bits: Tuple[bool, ...], cost: int) -> List[GivenUp]:
        """The soft clauses that do not hold. CheckFailed: a hard one does not, or it is another cost."""
        if len(bits) != len(self._names):
            raise CheckFailed(f"{len(bits)} bits for {len(self._names)} variables")
        given_up = []
        for clause in self._broken(bits):
            literals = tuple(map(self.literal, clause.numbers))
            if clause.weight is None:
                raise CheckFailed("the bits break the hard clause " + (" or ".join(map(str, literals)) or "without a literal"))
            given_up.append(GivenUp(clause.weight, clause.about, literals))
        counted = sum(part.weight for part in given_up)
        if counted != cost:
            raise CheckFailed(f"the bits cost {counted}, and not {cost}")
        return given_up


# Arguments

# A comment that begins like this would be read as the name of a variable, or without its mark.
_LIKE_A_NAME = re.compile(r"[0-9]+ +=|:")
_COMMENT_MARK = ": "


def _whole(argument: str, number: Any, least: Optional[int] = None) -> int:
    """The number as an int, also one of numpy."""
    try:
        if isinstance(number, bool):
            raise TypeError
        whole = operator.index(number)
    except TypeError:
        raise WrongType(f"{argument}: {number!r} is no whole number") from None
    if least is not None and whole < least:
        raise WrongValue(f"{argument}: {whole} is below {least}")
    return whole


def _seconds(argument: str, number: Any) -> float:
    try:
        if isinstance(number, (bool, str)):
            raise TypeError
        seconds = float(number)
    except (TypeError, ValueError, OverflowError):
        raise WrongType(f"{argument}: {number!r} is no number of seconds") from None
    if not seconds >= 0:
        raise WrongValue(f"{argument}: {number!r} is no number of seconds from 0 on")
    return seconds


def _line(argument: str, text: Any) -> str:
    if not isinstance(text, str):
        raise WrongType(f"{argument}: {text!r} is no text")
    if any(sign < " " or "\x7f" <= sign <= "\x9f" or "\ud800" <= sign <= "\udfff" for sign in text):
        raise WrongValue(f"{argument}: no line of text, for a control character or a lone surrogate in it: {text!r}")
    return text.strip(" ")


def _name(argument: str, name: Any) -> str:
    """The text of a name."""
    if isinstance(name, str):
        text = _line(argument, name)
        if not text or text != name or "  " in text:
            raise WrongValue(f"{argument}: a name is not empty and has single blanks inside alone: {name!r}")
        return text
    if isinstance(name, (tuple, list)) and name:
        return " ".join(_name(argument, part) for part in name)
    try:
        return str(_whole(argument, name))
    except WrongType:
        raise WrongType(f"{argument}: {name!r} is no name: neither a text, nor a whole number, nor a tuple or list of these") from None


def _path(argument: str, path: Any) -> pathlib.Path:
    """An absolute path, which begins with no '-'."""
    try:
        text = os.fspath(path)
        if not isinstance(text, str) or not text or "\0" in text:
            raise TypeError
    except TypeError:
        raise WrongType(f"{argument}: {path!r} is no path") from None
    return pathlib.Path(text).absolute()


def _program(path: Any) -> str:
    """The path of a program; a name alone is looked for on PATH."""
    found = _path("program", path)
    return shutil.which(os.fspath(path)) or str(found) if os.sep not in os.fspath(path) else str(found)


def find_program() -> str:
    """WMAX in the environment, else ../wmax as seen from this file, else `wmax` on PATH.

    ProgramFailed: there is none.
    """
    beside = pathlib.Path(__file__).resolve().parent.parent / "wmax"
    found = os.environ.get("WMAX") or (str(beside) if beside.is_file() else shutil.which("wmax"))
    if not found:
        raise ProgramFailed(f"there is no wmax: neither {beside}, nor on PATH, nor WMAX in the environment")
    return found


@contextlib.contextmanager
def _files_fail() -> Iterator[None]:
    """Files that fail are told as FileFailed."""
    try:
        yield
    except OSError as error:
        raise FileFailed(f"{error.filename}: {error.strerror}" if error.filename else str(error)) from error
    except (EOFError, lzma.LZMAError, zlib.error) as error:
        raise FileFailed(f"what was compressed is broken: {error}") from error


def _is_true(number: int, bits: Sequence[bool]) -> bool:
    return bits[abs(number) - 1] == (number > 0)


def _bits(digits: str) -> Tuple[bool, ...]:
    return tuple(digit == "1" for digit in digits)


def _clause_line(weight: Optional[int], numbers: Iterable[int]) -> str:
    return " ".join(["h" if weight is None else str(weight), *map(str, numbers), "0"])


def _spelled(what: str, terms: List[Tuple[int, Literal]]) -> str:
    """A constraint in words, such as 'at most 2: tea, 3 coffee'."""
    shown = [str(literal) if weight == 1 else f"{weight} {literal}" for weight, literal in terms[:8]]
    return f"{what}: {', '.join([*shown, *['..'] * (len(terms) > 8)]) or 'of nothing'}"


# Encodings


class _NoRoom(Exception):
    """A draft has reached its room."""


class _Draft:
    """Clauses with new variables, which are thrown away unless they are taken."""

    def __init__(self, variables: int, unless: Tuple[int, ...], room: float = math.inf) -> None:
        self.variables = variables  # how many there are, with the new ones
        self.clauses: List[Tuple[int, ...]] = []
        self._unless = unless  # what stands in each clause that demands something
        self._room = room

    def new(self) -> int:
        self.variables += 1
        return self.variables

    def define(self, *numbers: int) -> None:
        """A clause that can be satisfied by new variables, whatever the others are."""
        if len(self.clauses) >= self._room:
            raise _NoRoom
        self.clauses.append(numbers)

    def demand(self, *numbers: int) -> None:
        self.define(*self._unless, *numbers)


def _terms(given: Iterable[Tuple[int, Literal]]) -> Tuple[Dict[int, int], int]:
    """Weights above 0 by literals of different variables, and a number: their sum is the same with it."""
    weights: Dict[int, int] = {}
    base = 0
    for weight, literal in given:
        variable = abs(literal.number)
        # What counts where the variable is false is: all of it, less what counts where it is true.
        base += weight if literal.number < 0 else 0
        weights[variable] = weights.get(variable, 0) + (weight if literal.number > 0 else -weight)
    base += sum(weight for weight in weights.values() if weight < 0)
    return {variable if weight > 0 else -variable: abs(weight) for variable, weight in weights.items() if weight}, base


def _bound_sum(draft: _Draft, terms: Dict[int, int], least: int, most: int, encode: Callable[..., None]) -> None:
    """The weights of the true ones sum to `least` at least and `most` at most. It takes the terms."""
    while True:
        total = sum(terms.values())
        least, most = max(least, 0), min(most, total)
        if least > most:
            draft.demand()
            return
        # Who weighs too much is false, and whose lack cannot be made good is true.
        false = [number for number, weight in terms.items() if weight > most]
        true = [number for number, weight in terms.items() if total - weight < least and weight <= most]
        for number in false:
            draft.demand(-number)
            terms.pop(number)
        for number in true:
            draft.demand(number)
            weight = terms.pop(number)
            least, most = least - weight, most - weight
        if not false and not true:
            break
    divisor = math.gcd(*terms.values()) if terms else 1
    if divisor > 1:
        terms = {number: weight // divisor for number, weight in terms.items()}
        _bound_sum(draft, terms, -(-least // divisor), most // divisor, encode)
    elif least > 0 or most < total:
        encode(draft, terms, least, most)


def _bound_by_totalizers(draft: _Draft, terms: Dict[int, int], least: int, most: int) -> None:
    total = sum(terms.values())
    if total == len(terms):
        _bound_count(draft, list(terms), least, most)
        return
    if most < total:
        _generalized_totalizer(draft, terms, most)
    if least > 0:
        _generalized_totalizer(draft, {-number: weight for number, weight in terms.items()}, total - least)


def _bound_count(draft: _Draft, numbers: List[int], least: int, most: int) -> None:
    size = len(numbers)
    if least + most > size:
        # Of the false ones there are fewer to count.
        numbers, least, most = [-it for it in numbers], size - most, size - least
    if least == 0 and math.comb(size, most + 1) <= 3 * size:
        # Of any `most` + 1 one is false.
        for group in itertools.combinations(numbers, most + 1):
            draft.demand(*(-it for it in group))
    elif least == 1:
        # One of all is true; then no fewer need be counted.
        draft.demand(*numbers)
        _bound_count(draft, numbers, 0, most)
    else:
        more = _totalizer(draft, numbers, most + 1, rises=True, falls=least > 0)
        if least > 0:
            draft.demand(more[least - 1])
        draft.demand(-more[most])


def _totalizer(draft: _Draft, numbers: Sequence[int], most: int, rises: bool, falls: bool) -> List[int]:
    """Literals for 'more than k of these are true', k from 0 on, at most `most` of them (Bailleux and Boufkhad 2003).

    rises: each is true where that many are true. falls: each is false where fewer are.
    """
    layer = [[it] for it in numbers] if most > 0 else []
    while len(layer) > 1:
        pairs = [_merged(draft, one, other, most, rises, falls) for one, other in zip(layer[::2], layer[1::2])]
        layer = pairs + layer[len(pairs) * 2:]
    return layer[0] if layer else []


def _merged(draft: _Draft, one: List[int], other: List[int], most: int, rises: bool, falls: bool) -> List[int]:
    """The counts of two groups together."""
    more = [draft.new() for _ in range(min(len(one) + len(other), most))]
    for i, j in itertools.product(range(len(one) + 1), range(len(other) + 1)):
        if rises and i + j > 0:
            # i of the one and j of the other: i + j
            first, second = one[i - 1:i] if i else [], other[j - 1:j] if j else []
            draft.define(*(-it for it in first + second), more[min(i + j, len(more)) - 1])
        if falls and i + j < len(more):
            # no more than i of the one, nor than j of the other: no more than i + j
            draft.define(*one[i:i + 1], *other[j:j + 1], -more[i + j])
    return more


def _generalized_totalizer(draft: _Draft, terms: Dict[int, int], most: int) -> None:
    """The weights sum to `most` at most; each alone does, and all do not (Joshi, Martins and Manquinho 2015).

    A node has a variable for each sum that its terms can have, which is true where they have that
    sum or a greater one. At the root no sums are made: pairs that go together are excluded.
    """
    nodes = [{weight: number} for number, weight in sorted(terms.items(), key=lambda term: term[1])]
    while len(nodes) > 1:
        is_root = len(nodes) == 2
        pairs = [_added(draft, one, other, most, is_root) for one, other in zip(nodes[::2], nodes[1::2])]
        nodes = pairs + nodes[len(pairs) * 2:]


def _added(draft: _Draft, one: Dict[int, int], other: Dict[int, int], most: int, is_root: bool) -> Dict[int, int]:
    """The node above two others."""
    sums: Dict[int, int] = {}
    for i in [0, *sorted(one)]:
        for j in [0, *sorted(other)]:
            reasons = [-node[part] for node, part in ((one, i), (other, j)) if part]
            if i + j > most:
                # So are greater ones, which imply this one.
                draft.demand(*reasons)
                break
            if i + j > 0 and not is_root:
                if i + j not in sums:
                    sums[i + j] = draft.new()
                draft.define(*reasons, sums[i + j])
    rising = sorted(sums)
    for low, high in zip(rising, rising[1:]):
        draft.define(-sums[high], sums[low])
    return sums


def _adder_size(terms: Dict[int, int]) -> int:
    """About how many clauses an adder network has."""
    return 14 * sum(bin(weight).count("1") for weight in terms.values())


def _bound_by_adders(draft: _Draft, terms: Dict[int, int], least: int, most: int) -> None:
    """Full and half adders add the weights bit by bit, and the sum is compared (Eén and Sörensson 2006)."""
    columns = [collections.deque(number for number, weight in terms.items() if weight >> place & 1)
               for place in range(max(terms.values()).bit_length())]
    outputs: List[Optional[int]] = []  # None for a bit that is always 0
    while len(outputs) < len(columns):
        column = columns[len(outputs)]
        while len(column) > 1:
            inputs = [column.popleft() for _ in range(min(3, len(column)))]
            total, carry = draft.new(), draft.new()
            _define_adder(draft, inputs, total, carry)
            column.append(total)
            if len(outputs) + 1 == len(columns):
                columns.append(collections.deque())
            columns[len(outputs) + 1].append(carry)
        outputs.append(column[0] if column else None)
    for place, output in enumerate(outputs):
        above = list(enumerate(outputs))[place + 1:]
        # At the highest bit in which they differ, the limit has 1, or 0 for a lower limit.
        if output is not None and not most >> place & 1 and all(it is not None for at, it in above if most >> at & 1):
            draft.demand(-output, *(-it for at, it in above if it is not None and most >> at & 1))
        if least >> place & 1:
            draft.demand(*(it for it in [output] if it is not None),
                         *(it for at, it in above if it is not None and not least >> at & 1))


def _define_adder(draft: _Draft, inputs: List[int], total: int, carry: int) -> None:
    """`total` and `carry` are the bits of the number of true inputs, of which there are two or three."""
    for values in itertools.product((False, True), repeat=len(inputs)):
        differing = [-it if value else it for it, value in zip(inputs, values)]
        draft.define(*differing, total if sum(values) % 2 else -total)
    if len(inputs) == 2:
        draft.define(-inputs[0], -inputs[1], carry)
        for it in inputs:
            draft.define(it, -carry)
        return
    for one, other in itertools.combinations(inputs, 2):
        draft.define(-one, -other, carry)
        draft.define(one, other, -carry)


# Reading


@contextlib.contextmanager
def _opened(path: pathlib.Path) -> Iterator[Iterable[bytes]]:
    """The lines of a file, which may be compressed."""
    with open(path, "rb") as file:
        head = file.read(6)
    opening = gzip.open if head.startswith(b"\x1f\x8b") else lzma.open if head == b"\xfd7zXZ\x00" else open
    with opening(path, "rb") as lines:
        yield lines


class _Reader:
    """Reads lines into an instance."""

    CLAUSE = re.compile(rb"[ \t]*(h|[1-9][0-9]*)((?:[ \t]+-?[1-9][0-9]*)*)[ \t]+0\s*")
    HEADER = re.compile(rb"[ \t]*p[ \t]+wcnf[ \t]+([0-9]+)[ \t]+[0-9]+(?:[ \t]+([1-9][0-9]*))?\s*")
    NAME = re.compile(rb"[ \t]*c[ \t]+([1-9][0-9]*)[ \t]+=[ \t]+(.*\S)\s*")

    def __init__(self, instance: Instance, path: str) -> None:
        self._instance = instance
        self._path = path
        self._about = ""  # what the next clause is about
        self._top = 0  # the weight of hard clauses in the older form
        self._greatest = VARIABLE_LIMIT

    def read(self, lines: Iterable[bytes]) -> None:
        for number, line in enumerate(lines, 1):
            try:
                self._read_line(line)
            except WmaxError as error:
                raise WrongValue(f"{self._path}: line {number}: {error}") from None

    def _read_line(self, line: bytes) -> None:
        first = line.lstrip(b" \t")[:1]
        if first == b"c":
            self._read_comment(line)
        elif not line.strip():
            self._about = ""
        elif first == b"p" and not self._instance._clauses:
            header = self.HEADER.fullmatch(line)
            if not header:
                raise WrongValue("the header is not p wcnf V C T")
            self._grow(int(header[1]))
            self._greatest, self._top = int(header[1]), int(header[2] or 0)
        else:
            self._read_clause(line)

    def _read_comment(self, line: bytes) -> None:
        name = self.NAME.fullmatch(line)
        text = " ".join((name[2] if name else line.lstrip()[1:]).decode("utf-8", "replace").split())
        if name:
            with contextlib.suppress(WmaxError):
                self._give_name(int(name[1]), _name("name", text))
        else:
            self._about = ""
            with contextlib.suppress(WmaxError):
                self._about = _line("comment", text[len(_COMMENT_MARK):] if text.startswith(_COMMENT_MARK) else text)

    def _give_name(self, variable: int, name: str) -> None:
        """Of names, and of variables with names, the first one counts."""
        self._grow(variable)
        if not self._instance._names[variable - 1] and name not in self._instance._literals:
            self._instance._names[variable - 1] = name
            self._instance._literals[name] = self._instance.literal(variable)

    def _read_clause(self, line: bytes) -> None:
        clause = self.CLAUSE.fullmatch(line)
        if not clause:
            raise WrongValue("this is no clause: h or a weight, literals, and 0")
        numbers = [int(word) for word in clause[2].split()]
        self._grow(max(map(abs, numbers), default=0))
        literals = [self._instance.literal(number) for number in numbers]
        if clause[1] == b"h" or self._top and int(clause[1]) == self._top:
            self._instance.hard(*literals, about=self._about)
        elif self._top and int(clause[1]) > self._top:
            raise WrongValue(f"the weight is above {self._top}")
        else:
            self._instance.soft(int(clause[1]), *literals, about=self._about)

    def _grow(self, variables: int) -> None:
        if variables > self._greatest:
            raise WrongValue(f"a variable is above {self._greatest}")
        self._instance._names.extend([""] * (variables - len(self._instance._names)))


# Running


class _Ended(BaseException):
    """A signal that ends the program has come."""


@contextlib.contextmanager
def _ended_by_signals() -> Iterator[None]:
    """SIGTERM and SIGHUP, if they would end the program, end what is inside first: children stop, files go."""
    kept = []

    def end(number: int, _: Any) -> None:
        for it in kept:
            signal.signal(it, signal.SIG_IGN)
        raise _Ended(number)

    try:
        if threading.current_thread() is threading.main_thread():
            for number in (signal.SIGTERM, signal.SIGHUP):
                if signal.getsignal(number) is signal.SIG_DFL:
                    signal.signal(number, end)
                    kept.append(number)
        yield
    except _Ended as ended:
        signal.signal(ended.args[0], signal.SIG_DFL)
        os.kill(os.getpid(), ended.args[0])
        raise
    finally:
        for number in kept:
            signal.signal(number, signal.SIG_DFL)


@contextlib.contextmanager
def _signals_wait() -> Iterator[None]:
    """Signals that come meanwhile are heard at the end, so that no child is started and lost."""
    came: List[int] = []
    handlers = {}
    if threading.current_thread() is threading.main_thread():
        for number in (signal.SIGINT, signal.SIGTERM, signal.SIGHUP):
            if callable(signal.getsignal(number)):
                handlers[number] = signal.signal(number, lambda number, _: came.append(number))
    try:
        yield
    finally:
        for number, handler in handlers.items():
            signal.signal(number, handler)
    for number in came:
        signal.raise_signal(number)


@contextlib.contextmanager
def _folder(path: Union[str, "os.PathLike[str]", None]) -> Iterator[Tuple[pathlib.Path, Sequence[int]]]:
    """The folder, or one that is removed at the end, and the lock on it. FolderInUse: another run has it."""
    if path is None:
        with tempfile.TemporaryDirectory(prefix="wmax-") as made:
            yield pathlib.Path(made), ()
        return
    folder = _path("folder", path)
    folder.mkdir(parents=True, exist_ok=True)
    # The system takes the lock back where this program and its child have ended, however they do.
    with open(folder / "instance.lock", "a", encoding="ascii") as lock:
        try:
            fcntl.flock(lock, fcntl.LOCK_EX | fcntl.LOCK_NB)
        except BlockingIOError:
            raise FolderInUse(f"another solve works in {folder}: give each a folder of its own") from None
        yield folder, (lock.fileno(),)


@dataclasses.dataclass(frozen=True)
class _Said:
    """The text of a result: its status, the last cost, and the digits."""

    status: str
    cost: int = 0
    digits: str = ""

    @staticmethod
    def read(text: str) -> "_Said":
        """ProgramFailed: this is no result."""
        costs = re.findall(r"^o ([0-9]{1,19})$", text, re.MULTILINE)
        status = re.findall(r"^s (OPTIMUM FOUND|SATISFIABLE|UNSATISFIABLE|UNKNOWN)$", text, re.MULTILINE)
        digits = re.findall(r"^v ?([01]*)$", text, re.MULTILINE)
        has_solution = status in (["OPTIMUM FOUND"], ["SATISFIABLE"])
        if len(status) != 1 or has_solution and not (costs and len(digits) == 1):
            raise ProgramFailed(f"wmax solve gave no result: {text[-200:]!r}")
        return _Said(status[0], int(costs[-1]), digits[0]) if has_solution else _Said(status[0])


class _Request(NamedTuple):
    """What a run is asked for."""

    time_limit: Optional[float]
    conflicts: Optional[int]
    follow: Optional[Callable[[Step], Any]] = None


@functools.lru_cache(maxsize=8)
def _help(program: str, changed: int) -> str:
    """What `wmax solve --help` prints."""
    return subprocess.run([program, "solve", "--help"], stdin=subprocess.DEVNULL, stdout=subprocess.PIPE,
                          stderr=subprocess.DEVNULL, check=False).stdout.decode("utf-8", "replace")


class _Run:
    """A program at work in a folder."""

    STATUSES = {30: "OPTIMUM FOUND", 20: "UNSATISFIABLE", 10: "SATISFIABLE", 0: "UNKNOWN"}

    # So many seconds a program has that ends itself in time.
    GRACE = 1.0

    # How a line of --progress begins.
    PROGRESS = re.compile(r"^[0-9]+\.[0-9] s, .*$", re.MULTILINE)

    def __init__(self, program: str, folder: pathlib.Path, profile: Optional[int], lock: Sequence[int]) -> None:
        self.instance, self.result, self.best, self.proof = (
            folder / f"instance.{end}" for end in ("wcnf", "result", "best", "lrat"))
        self.status: Optional[int] = None
        self.said = _Said("UNKNOWN")
        self.stopped: Optional[str] = None  # what stopped the program: time or interrupt
        self.is_checked = False  # whether `wmax check` has said YES
        self.bound: Optional[int] = None  # what `wmax lower` has said
        self.history: List[Step] = []
        self._start = time.monotonic()
        self._program = program
        self._lock = lock  # what a child holds, too
        try:
            self._help = _help(program, os.stat(program).st_mtime_ns if os.path.exists(program) else 0)
        except OSError as error:
            raise ProgramFailed(f"{program} does not run ({error.strerror}); 'make' builds it") from error
        named = re.search(r"--profile <(?:[0-9]+\|)*([0-9]+)>", self._help)
        last = named and int(named[1])  # each later one solves more
        profile = last if profile is None else profile
        self._profile = [] if profile is None else ["--profile", str(profile)]
        self._proves_bounds = profile == 3  # each beginning of its certificate proves one
        self._goes_on = False  # whether it goes on with the certificate of an earlier run

    def clear(self, resume: bool = False) -> None:
        """Removes what earlier runs have left, but for their best solution, and a certificate to go on with."""
        self.result.unlink(missing_ok=True)
        is_left = resume and self.proof.exists() and self.proof.stat().st_size > 0
        self._goes_on = is_left and self._proves_bounds and "--resume" in self._help
        if not is_left:
            self.proof.unlink(missing_ok=True)
        elif not self._goes_on:
            self.set_aside(self.proof)

    def kept(self) -> _Said:
        """The best solution so far, if one was kept."""
        try:
            return _Said.read(self.best.read_text(encoding="ascii", errors="replace"))
        except (FileNotFoundError, ProgramFailed):
            return _Said("UNKNOWN")

    def keep(self, cost: int, digits: str) -> None:
        self.best.write_text(f"o {cost}\ns SATISFIABLE\n{f'v {digits}'.strip()}\n")
        self.history.append(Step(0.0, cost, None))

    @staticmethod
    def set_aside(file: pathlib.Path) -> None:
        file.replace(f"{file}.earlier")

    def step(self, cost: Optional[int], lower: Optional[int]) -> None:
        self.history.append(Step(round(time.monotonic() - self._start, 3), cost, lower))

    @contextlib.contextmanager
    def _child(self, *words: str) -> Iterator[Tuple["subprocess.Popen[bytes]", int, int]]:
        """The program with its output and its messages as files; it ends with what is inside.

        Its streams are files, so that a child that it may leave keeps nobody waiting. If this
        program is killed, the system kills it, where `setpriv` can ask for that.
        """
        guard = ["setpriv", "--pdeathsig", "KILL", "--"] if _has_setpriv() else []
        with tempfile.TemporaryFile() as out, tempfile.TemporaryFile() as err:
            child = None
            try:
                with _signals_wait():
                    child = subprocess.Popen([*guard, self._program, *words], stdin=subprocess.DEVNULL, stdout=out, stderr=err,
                                             pass_fds=self._lock)
                yield child, out.fileno(), err.fileno()
            except OSError as error:
                if child is None:
                    raise ProgramFailed(f"{self._program} does not run ({error.strerror}); 'make' builds it") from error
                raise
            finally:
                if child is not None:
                    child.kill()
                    child.wait()

    def _call(self, *words: str) -> Tuple[int, str, str]:
        """Status, output and messages."""
        with self._child(*words) as (child, out, err):
            child.wait()
            return child.returncode, _text(out), self.PROGRESS.sub("", _text(err)).strip()

    def solve(self, ask: _Request) -> None:
        """ProgramFailed: the program ended with a fault, or gave no result."""
        words = ["solve", *self._profile, "--proof", str(self.proof), "--best", str(self.best)]
        words += ["--resume"] if self._goes_on else []
        words += [] if ask.conflicts is None else ["--conflicts", str(ask.conflicts)]
        ends_itself = ask.time_limit is not None and ask.time_limit >= 0.001 and "--time-limit" in self._help
        words += ["--time-limit", f"{ask.time_limit:.3f}"] if ends_itself else []
        words += ["--progress"] if "--progress" in self._help else []
        self._start = time.monotonic()
        self.status, self.stopped, self.is_checked = None, None, False
        said = message = ""
        try:
            with self._child(*words, str(self.instance)) as (child, out, err):
                self._follow(child, out, err, ask, self.GRACE if ends_itself else 0.0)
                self.status = child.returncode
                said, message = _text(out), self.PROGRESS.sub("", _text(err)).strip()
        except KeyboardInterrupt:
            self.stopped = "interrupt"
        finally:
            if ask.follow is _show:
                print(_CLEAR, end="", file=sys.stderr, flush=True)
        # From a terminal, Ctrl-C may end the program first.
        if self.stopped or self.status == -signal.SIGINT:
            self.status, self.stopped = None, self.stopped or "interrupt"
            self._take_kept()
            return
        if self._goes_on and self.status in (1, 2):
            # It has searched for nothing yet: the certificate is of another instance, or lacks its solution.
            self.set_aside(self.proof)
            self._goes_on = False
            left = None if ask.time_limit is None else max(0.001, self._start + ask.time_limit - time.monotonic())
            self.solve(ask._replace(time_limit=left))
            return
        if self.status not in self.STATUSES:
            raise ProgramFailed(f"wmax solve ended with status {self.status}: {message or 'without a message'}")
        self.result.write_text(said, encoding="utf-8")
        self.said = _Said.read(said)
        if self.said.status != self.STATUSES[self.status]:
            raise ProgramFailed(f"wmax solve said {self.said.status}, and ended with status {self.status}")
        if self.said.status == "UNKNOWN":
            if ask.time_limit is not None and time.monotonic() >= self._start + ask.time_limit:
                self.stopped = "time"
            self._take_kept()

    def _take_kept(self) -> None:
        """The result is the best solution that was kept, which may be of an earlier run."""
        self.said = self.kept()
        if self.said.status == "UNSATISFIABLE":
            # Without its whole certificate nothing is shown.
            self.said = _Said("UNKNOWN")
        if self.best.exists():
            self.result.write_bytes(self.best.read_bytes())

    def _follow(self, child: "subprocess.Popen[bytes]", out: int, err: int, ask: _Request, grace: float) -> None:
        """Waits for the end, or so long after the time limit, and notes what the program says meanwhile."""
        costs, bounds = _Tail(out, rb"^o ([0-9]{1,19})$"), _Tail(err, rb"\bat least ([0-9]{1,19}(?:\.[0-9])?)\b")
        end = math.inf if ask.time_limit is None else self._start + ask.time_limit + grace
        told = -math.inf
        while True:
            with contextlib.suppress(subprocess.TimeoutExpired):
                child.wait(max(0.0, min(0.05, end - time.monotonic())))
            now, is_new = time.monotonic(), costs.read() | bounds.read()
            if is_new:
                self.step(costs.last, bounds.last)
            if ask.follow and (is_new or now >= told + 0.5):
                told = now
                ask.follow(Step(round(now - self._start, 3), costs.last, bounds.last))
            if child.returncode is not None:
                return
            if now >= end:
                self.stopped = "time"
                return

    def conclude(self) -> None:
        """Checks what was shown. CheckFailed: the program does not confirm it."""
        try:
            if self.said.status in ("OPTIMUM FOUND", "UNSATISFIABLE") and self.status in (20, 30):
                self.check()
            elif self._proves_bounds and self.said.status in ("OPTIMUM FOUND", "SATISFIABLE"):
                self.bound = self.lower()
        except KeyboardInterrupt:
            self.stopped = "interrupt"
            if self.said.status == "UNSATISFIABLE" and not self.is_checked:
                self.said = _Said("UNKNOWN")

    def lower(self) -> Optional[int]:
        """The lower bound that the certificate proves, if there is one.

        CheckFailed: `wmax lower` does not say of the certificate what it shows.
        """
        if not self.proof.exists():
            return None
        status, said, message = self._call("lower", str(self.instance), str(self.proof))
        bound = re.fullmatch(r"at least ([0-9]{1,19})\n", said)
        if status != 0 or bound is None:
            raise CheckFailed(f"the lower bound does not check: {said.strip() or message or 'no verdict'}")
        return int(bound[1])

    def check(self) -> None:
        """CheckFailed: `wmax check` does not say YES to instance, result and certificate."""
        status, said, message = self._call("check", *self._profile, str(self.instance), str(self.result), str(self.proof))
        if status != 0 or said != "YES\n":
            raise CheckFailed(f"the certificate does not check: {said.strip() or message or 'no verdict'}")
        self.is_checked = True


@functools.lru_cache(maxsize=None)
def _has_setpriv() -> bool:
    return sys.platform == "linux" and shutil.which("setpriv") is not None


def _text(file: int) -> str:
    """All of an open file, whose place is another program's."""
    return os.pread(file, os.fstat(file).st_size, 0).decode("utf-8", "replace")


class _Tail:
    """The last number that lines of a growing file name, rounded up."""

    def __init__(self, file: int, form: bytes) -> None:
        self.last: Optional[int] = None
        self._file = file
        self._form = re.compile(form, re.MULTILINE)
        self._read = 0  # up to the end of a line

    def read(self) -> bool:
        """Whether there is another one."""
        new = os.pread(self._file, os.fstat(self._file).st_size - self._read, self._read)
        new = new[:new.rfind(b"\n") + 1]
        self._read += len(new)
        found, was = self._form.findall(new), self.last
        if found:
            whole, _, tenths = found[-1].partition(b".")
            self.last = int(whole) + (tenths not in (b"", b"0"))
        return self.last != was


# Contradictions


class _Contradiction:
    """Hard clauses that no assignment satisfies, by the calls that made them."""

    def __init__(self, instance: Instance, clauses: Iterable[_Clause], program: str, profile: Optional[int]) -> None:
        self._instance = instance
        self._program, self._profile = program, profile
        self._clauses = tuple(clauses)
        self._groups: Dict[int, List[Tuple[int, ...]]] = {}  # the clauses by the calls, once they are needed

    def find(self, time_limit: float, conflicts: int) -> Tuple[List[Constraint], bool]:
        """A small contradiction, and whether each of its constraints is known to be needed."""
        end = time.monotonic() + time_limit
        self._groups = {}
        for clause in self._clauses:
            if clause.weight is None:
                self._groups.setdefault(clause.group, []).append(clause.numbers)
        with _files_fail(), _ended_by_signals(), _folder(None) as (home, lock):
            run = _Run(self._program, home, self._profile, lock)
            core = self._trimmed(run, list(self._groups), _Request(None, None)) or list(self._groups)
            core, is_minimal = self._shortened(run, core, end, conflicts)
            self._try(run, core, _Request(None, None))
            if run.said.status != "UNSATISFIABLE":
                raise CheckFailed("the constraints that are left are not shown to contradict each other")
            run.check()
        return [self._constraint(group) for group in core], is_minimal

    def _shortened(self, run: "_Run", core: List[int], end: float, conflicts: int) -> Tuple[List[int], bool]:
        """Leaves out what can be left out until the time ends: many at once first, and one by one at last."""
        needed = set()
        size = len(core)
        while size > 1:
            size = max(1, size // 4)
            for part in [set(core[place:place + size]) for place in range(0, len(core), size)]:
                rest = [group for group in core if group not in part]
                left = end - time.monotonic()
                if left <= 0 or run.stopped == "interrupt":
                    return core, False
                if len(rest) < len(core):
                    core = self._trimmed(run, rest, _Request(left, conflicts)) or core
                    if size == 1 and run.said.status == "OPTIMUM FOUND":
                        needed |= part
        return core, len(core) == 1 or needed == set(core)

    def _trimmed(self, run: "_Run", groups: List[int], ask: _Request) -> Optional[List[int]]:
        """Those of these groups to which certificates come down; None where no contradiction was shown."""
        shown = None
        while groups:
            used = self._try(run, groups, ask)
            if run.said.status != "UNSATISFIABLE":
                break
            shown = groups
            if not used or len(used) == len(groups):
                break
            groups = used
        return shown

    def _try(self, run: "_Run", groups: List[int], ask: _Request) -> List[int]:
        """Runs over the clauses of these groups. Those that the certificate uses, if they contradict each other."""
        owners = [group for group in groups for _ in self._groups[group]]
        run.clear()
        run.best.unlink(missing_ok=True)
        with open(run.instance, "w", encoding="ascii") as text:
            text.writelines(f"{_clause_line(None, numbers)}\n" for group in groups for numbers in self._groups[group])
        run.solve(ask)
        if run.said.status != "UNSATISFIABLE":
            return []
        return list(dict.fromkeys(owners[number - 1] for number in sorted(_used_clauses(run.proof, len(owners)))))

    def _constraint(self, group: int) -> Constraint:
        clauses = tuple(tuple(map(self._instance.literal, numbers)) for numbers in self._groups[group])
        about = self._instance._groups[group] or " or ".join(map(str, clauses[0])) or "a clause without a literal"
        return Constraint(about, clauses)


def _used_clauses(proof: pathlib.Path, count: int) -> Iterable[int]:
    """Which of so many clauses the lines of a certificate come down to."""
    added: Dict[int, bytes] = {}
    last = 0
    with open(proof, "rb") as lines:
        for line in lines:
            words = line.split(None, 2)
            if len(words) > 1 and words[0].isdigit() and words[1] != b"d":
                last = int(words[0])
                added[last] = line
    used, waiting = set(), [last] if last else []
    while waiting:
        number = waiting.pop()
        if number not in used:
            used.add(number)
            words = added[number].split() if number in added else [b"0", b"0"]
            waiting.extend(abs(int(word)) for word in words[words.index(b"0", 1) + 1:-1])
    return (number for number in used if 0 < number <= count)


# Progress and pictures


def _spelled_step(step: Step) -> str:
    """What is known, such as 'cost 24, at least 20, gap 16.7 %'."""
    words = ["no solution yet" if step.cost is None else f"cost {step.cost:,}"]
    words += [] if step.lower is None else [f"at least {step.lower:,}"]
    words += [f"gap {100 * (step.cost - step.lower) / step.cost:.1f} %"] if step.cost and step.lower is not None else []
    return ", ".join(words)


def _follower(progress: Any) -> Optional[Callable[[Step], Any]]:
    """What is called with each step."""
    if progress is None or progress is False:
        return None
    if progress is True:
        is_terminal = sys.stderr is not None and sys.stderr.isatty() and os.environ.get("TERM") != "dumb"
        return _show if is_terminal else None
    if not callable(progress):
        raise WrongType(f"progress: {progress!r} is neither a function nor True")
    return progress


# What goes to the start of a terminal's line and clears it.
_CLEAR = "\r\x1b[K"


def _show(step: Step) -> None:
    """A line on the terminal in place of the one before; its bar is the part of the cost that is proved to be needed."""
    share = step.lower / step.cost if step.cost and step.lower is not None else 0.0
    bar = "#" * int(20 * share)
    print(_CLEAR + f"[{bar:.<20}] {step.seconds:.0f} s, {_spelled_step(step)}"[:79], end="", file=sys.stderr, flush=True)


def _picture(history: List[Step]) -> str:
    """Cost and lower bound over time as SVG."""
    width, height, left, right, top, bottom = 720, 400, 90, 20, 40, 50
    end = max(step.seconds for step in history) or 0.001
    values = [it for step in history for it in (step.cost, step.lower) if it is not None]
    low, high = min(values), max(values)
    low, high = (low, high) if low < high else (low - 1, high + 1)

    def across(seconds: float) -> float:
        return left + (width - left - right) * seconds / end

    def up(value: float) -> float:
        return height - bottom - (height - top - bottom) * (value - low) / (high - low)

    def stairs(which: int, colour: str) -> str:
        steps = [(step.seconds, step[which]) for step in history if step[which] is not None]
        if not steps:
            return ""
        path = f"M {across(steps[0][0]):.1f} {up(steps[0][1]):.1f}"
        path += "".join(f" H {across(seconds):.1f} V {up(value):.1f}" for seconds, value in steps[1:])
        dashes = ' stroke-dasharray="6 4"' if which == 2 else ""
        return f'<path d="{path} H {across(end):.1f}" fill="none" stroke="{colour}" stroke-width="2"{dashes}/>'

    def words(x: float, y: float, text: str, anchor: str = "start", colour: str = "black") -> str:
        return f'<text x="{x:.0f}" y="{y:.0f}" text-anchor="{anchor}" fill="{colour}">{text}</text>'

    parts = [
        f'<svg xmlns="http://www.w3.org/2000/svg" viewBox="0 0 {width} {height}" font-family="sans-serif" font-size="13">',
        f'<rect width="{width}" height="{height}" fill="white"/>',
        f'<path d="M {left} {top} V {height - bottom} H {width - right}" fill="none" stroke="black"/>',
        *(words(left - 6, up(value) + 4, f"{value:,.0f}", "end") for value in sorted({low, high, *values[-2:]})),
        *(words(across(end * part), height - bottom + 18, f"{end * part:.3g} s", "middle") for part in (0, 0.5, 1)),
        stairs(1, "#1f5fa8"), stairs(2, "#b3541e"),
        words(left, 24, "cost of the best solution", colour="#1f5fa8"),
        words(left + 200, 24, "lower bound", colour="#b3541e"),
        words(width - right, 24, _spelled_step(history[-1]), "end"),
        "</svg>",
    ]
    return "\n".join(part for part in parts if part) + "\n"


# The command line


def main(words: Optional[Sequence[str]] = None) -> int:
    """`python3 -m wmax`: the exit status is that of `wmax solve`, or 2 where something is wrong."""
    parser = argparse.ArgumentParser(prog="wmax.py", description="Solves an instance, has the certificate checked, and says "
                                     "what the solution gives up.")
    parser.add_argument("file", help="either form of WCNF, also compressed by gzip or xz")
    parser.add_argument("--time-limit", type=float, metavar="SECONDS", help="then the best solution so far is given")
    parser.add_argument("--conflicts", type=int, metavar="N", help="the effort, the same on each machine")
    parser.add_argument("--profile", type=int, metavar="N", help="how 'cheaper' is said")
    parser.add_argument("--folder", metavar="PATH", help="where the files stay")
    parser.add_argument("--resume", action="store_true", help="goes on from what is in the folder")
    parser.add_argument("--optima", type=int, metavar="N", help="so many solutions of least cost, if there are as many")
    parser.add_argument("--plot", metavar="PATH", help="a picture (SVG) of cost and bound over time")
    given = parser.parse_args(words)
    how = {name: getattr(given, name) for name in ("time_limit", "conflicts", "profile", "folder", "resume")}
    try:
        instance = Instance.read(given.file)
        optima = instance.optima(given.optima, **how) if given.optima is not None else None
        found = list(optima) if optima else [instance.solve(progress=True, **how)]
        for solution in found:
            _tell(solution)
        if optima is not None and optima.is_complete:
            print("No other solution costs as little.")
        if given.plot:
            found[0].plot(given.plot)
        return 30 if found[0].is_optimum else 10
    except Unsatisfiable as error:
        print("No assignment satisfies the hard clauses, which was checked. These contradict each other:")
        for about in dict.fromkeys(reason.about for reason in error.because):
            print(f"  {about}")
        return 20
    except NoSolutionFound as error:
        print(error)
        return 0
    except WmaxError as error:
        print(f"error: {error}", file=sys.stderr)
        return 2


def _tell(found: Solution) -> None:
    print(f"It costs {found.cost}, " + ("and nothing costs less, which was checked." if found.is_optimum else
                                        "and a cheaper solution may be there." if found.lower is None else
                                        f"and nothing costs less than {found.lower}, which was checked."))
    if found.instance.named():
        print("true: " + ", ".join(found.true_names))
    else:
        print("v " + "".join("01"[bit] for bit in found.bits))
    for part in sorted(found.given_up, key=lambda part: -part.weight):
        print(f"{part.weight:6}  {part.about}")


if __name__ == "__main__":
    try:
        ended = main()
        sys.stdout.flush()
    except BrokenPipeError:
        # Nobody reads on. What is left is not worth a message at the end.
        os.dup2(os.open(os.devnull, os.O_WRONLY), sys.stdout.fileno())
        ended = 1
    except KeyboardInterrupt:
        ended = 130
    sys.exit(ended)
