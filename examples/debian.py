#!/usr/bin/env python3
"""What to install, upgrade and remove on a Debian system, at least cost, found and checked by wmax.

    examples/debian.py install NAME[=VERSION].. remove NAME..
    examples/debian.py upgrade                      each package that is there becomes as new as it can

The packages are those of apt's lists (/var/lib/apt/lists, as `apt-get update` leaves them) and of
dpkg's status. Nothing is installed: the plan is printed, with what it costs by each criterion and
why, if `wmax check` says YES to its certificate. Without a solution, the constraints are printed
that contradict each other.

    --criteria LIST   what counts, most important first, of removed, changed, notuptodate,
                      recommends (unsatisfied Recommends), new, and size (installed, of what comes)
    --status FILE     dpkg's status; --lists PATH, a folder of apt's lists or one list
    --cudf FILE       all from a file in CUDF, its request too
    --to-cudf FILE    writes the same task in CUDF, for other solvers, and solves nothing
    --judge FILE      says by the criteria what a solution in CUDF costs, and solves nothing
    --folder PATH     where the files stay; --time-limit SECONDS (600)

Versions are compared as deb-version(7) says. Depends, Pre-Depends, Recommends, Conflicts, Breaks and
versioned Provides count as in Debian's policy. What is essential stays; what is on hold stays as it is.
CUDF 2.0 is read as its specification says (R. Treinen and S. Zacchiroli: Common Upgradeability
Description Format, 2009), but for `keep`, which is refused.
"""
import argparse
import collections
import functools
import gzip
import operator
import pathlib
import re
import subprocess
import sys

HERE = pathlib.Path(__file__).resolve().parent
sys.path.insert(0, str(HERE.parent / "python"))
import wmax  # noqa: E402 (python/wmax.py)

RELATIONS = {"<<": operator.lt, "<": operator.lt, "<=": operator.le, "=": operator.eq, "!=": operator.ne,
             ">=": operator.ge, ">": operator.gt, ">>": operator.gt}
CRITERIA = ("removed", "changed", "notuptodate", "recommends", "new", "size")

# A name, and what its version has to be, if anything: a relation and the key of a version.
Atom = collections.namedtuple("Atom", "name relation key text")


class Stop(Exception):
    """What is wrong with the input."""


@functools.lru_cache(maxsize=None)
def debian_key(version):
    """Two versions compare as these do (deb-version(7)): '~' is before the end, letters before other signs."""
    epoch, _, rest = version.rpartition(":")
    upstream, _, revision = rest.rpartition("-") if "-" in rest else (rest, "", "0")
    return (int(epoch or 0), *(
        tuple(part for signs, digits in re.findall(r"([^0-9]*)([0-9]*)", text)
              for part in ((*(-1 if it == "~" else ord(it) + 256 * (not it.isalpha()) for it in signs), 0), int(digits or 0)))
        for text in (upstream, revision)))


class Package:
    """A version of a package."""

    def __init__(self, name, version, key):
        self.name, self.version, self.key = name, version, key
        self.needs, self.recommends = [], []  # each a list of atoms, one of which suffices
        self.conflicts = []  # atoms
        self.provides = []  # pairs of a name and the key of a version, or None
        self.is_installed = self.is_needed = self.is_held = False
        self.size = 0  # kilobytes

    def __str__(self):
        return f"{self.name} {self.version}"


class DebianPackage(Package):
    """A package of a list, whose fields are read where they are needed."""

    def __init__(self, fields):
        self.fields = fields
        self.name, self.version, self.key = fields["package"], fields["version"], debian_key(fields["version"])
        self.provides = [(it.name, it.key) for it in list_of(fields.get("provides", ""), debian_atom)]
        self.is_installed = self.is_needed = self.is_held = False
        self.size = int(fields.get("installed-size", 0))

    @functools.cached_property
    def needs(self):
        return [it for field in ("pre-depends", "depends") for it in clauses_of(self.fields.get(field, ""), debian_atom)]

    @functools.cached_property
    def recommends(self):
        return clauses_of(self.fields.get("recommends", ""), debian_atom)

    @functools.cached_property
    def conflicts(self):
        return [it for field in ("conflicts", "breaks") for it in list_of(self.fields.get(field, ""), debian_atom)]


class Universe:
    """All packages that there are, and what is asked for."""

    def __init__(self, is_cudf):
        self.is_cudf = is_cudf
        self.packages = []
        self.by_name = collections.defaultdict(list)
        self.providers = collections.defaultdict(list)
        self.request = []  # pairs of 'install', 'remove' or 'upgrade' and an atom

    def add(self, package):
        self.packages.append(package)
        self.by_name[package.name].append(package)
        for name, key in package.provides:
            self.providers[name].append((package, key))

    def matching(self, atom):
        """The packages that the atom means, each once."""
        def fits(key, is_provided):
            if atom.relation is None:
                return True
            # In CUDF what has no version has them all.
            return RELATIONS[atom.relation](key, atom.key) if key is not None else self.is_cudf and is_provided

        found = [it for it in self.by_name.get(atom.name, ()) if fits(it.key, False)]
        found += [it for it, key in self.providers.get(atom.name, ()) if fits(key, True)]
        return list(dict.fromkeys(found))

    def any_of(self, atoms):
        return list(dict.fromkeys(it for atom in atoms for it in self.matching(atom)))

    def versions(self, name):
        return sorted(self.by_name[name], key=lambda it: it.key)

    def reached(self, with_recommends):
        """The packages that can be of use: those that are there, those asked for, and what these need."""
        waiting = [it for it in self.packages if it.is_installed]
        waiting += [it for kind, atom in self.request if kind != "remove" for it in self.matching(atom)]
        found = set()
        while waiting:
            package = waiting.pop()
            if package not in found:
                found.add(package)
                waiting += self.by_name[package.name]
                for atoms in package.needs + (package.recommends if with_recommends else []):
                    waiting += self.any_of(atoms)
        return [it for it in self.packages if it in found]


# Debian's files


def stanzas(lines):
    """The fields of each stanza, by name; a line that begins with a blank goes on."""
    fields, name = {}, None
    for line in lines:
        line = line.rstrip("\n")
        if not line.strip():
            if fields:
                yield fields
            fields = {}
        elif line[0] in " \t" and name:
            fields[name] += line
        elif not line.startswith("#"):
            name, colon, value = line.partition(":")
            if not colon:
                raise Stop(f"no field: {line[:60]}")
            name = name.lower()
            fields[name] = value.strip()
    if fields:
        yield fields


def debian_atom(text):
    found = re.fullmatch(r"([^\s(:\[]+)(?::(any|native))?\s*(?:\(\s*(<<|<=|=|>=|>>|<|>)\s*([^\s)]+)\s*\))?", text.strip())
    if not found:
        return Atom(text.strip(), None, None, text.strip())  # of another architecture, say: nothing has this name
    name, _, relation, version = found.groups()
    relation = {"<": "<=", ">": ">="}.get(relation, relation)
    return Atom(name, relation, version and debian_key(version), text.strip())


def clauses_of(text, atom):
    """The atoms of each clause, as in 'a (>= 2) | b, c'."""
    return [[atom(part) for part in clause.split("|")] for clause in text.split(",") if clause.strip()]


def list_of(text, atom):
    return [atom(part) for part in text.split(",") if part.strip()]


def read_lists(universe, status, lists, architecture):
    """The packages of apt's lists and of dpkg's status; those of the status that are there are marked."""
    known = {}

    def add(fields):
        name, version = fields.get("package"), fields.get("version")
        if not name or not version or fields.get("architecture") not in (architecture, "all"):
            return None
        package = known.get((name, version))
        if package is None:
            package = known[name, version] = DebianPackage(fields)
        return package

    for path in lists:
        for fields in stanzas(text_lines(path)):
            add(fields)
    for fields in stanzas(text_lines(status)):
        if fields.get("status", "").split()[-1:] == ["installed"]:
            package = add(fields)
            if package is not None:
                package.is_installed, package.is_needed = True, fields.get("essential") == "yes"
                package.is_held = fields["status"].startswith("hold ")
    for package in known.values():
        universe.add(package)


def text_lines(path):
    """The lines of a file of apt, also one that it has compressed."""
    if path.suffix == ".gz":
        return gzip.open(path, "rt", encoding="utf-8", errors="replace")
    if path.suffix in (".lz4", ".xz", ".zst", ".bz2"):
        said = subprocess.run(["/usr/lib/apt/apt-helper", "cat-file", str(path)], stdout=subprocess.PIPE, check=True).stdout
        return said.decode("utf-8", "replace").split("\n")
    return open(path, encoding="utf-8", errors="replace")


# CUDF


def cudf_atom(text):
    found = re.fullmatch(r"(\S+)(?:\s+(=|!=|>=|>|<=|<)\s+([0-9]+))?", text.strip())
    if not found:
        raise Stop(f"CUDF: no package: {text}")
    return Atom(found[1], found[2], found[3] and int(found[3]), text.strip())


def read_cudf(universe, lines):
    for fields in stanzas(lines):
        if "request" in fields:
            universe.request = [(kind, it) for kind in ("install", "remove", "upgrade")
                                for it in list_of(fields.get(kind, ""), cudf_atom)]
        elif "package" in fields:
            universe.add(cudf_package(fields))


def cudf_package(fields):
    package = Package(fields["package"], fields["version"], int(fields["version"]))
    for clause in clauses_of(fields.get("depends", ""), cudf_atom):
        names = [it.name for it in clause]
        if "true!" not in names:
            package.needs.append([it for it in clause if it.name != "false!"])
    package.recommends = [it for it in clauses_of(fields.get("recommends", ""), cudf_atom) if it[0].name != "true!"]
    package.conflicts = list_of(fields.get("conflicts", ""), cudf_atom)
    package.provides = [(it.name, it.key) for it in list_of(fields.get("provides", ""), cudf_atom)]
    package.is_installed = fields.get("installed") == "true"
    package.size = int(fields.get("installedsize", 0))
    if fields.get("keep", "none") != "none" and package.is_installed:
        raise Stop(f"CUDF: keep is not read: {package}")
    return package


def write_cudf(universe, packages, out):
    """The task with each alternative written out as packages: so it needs nothing of Debian's rules."""
    there = set(packages)
    ranks = {it: rank for name in {it.name for it in packages} for rank, it in enumerate(universe.versions(name), 1)}

    def spelled(found):
        # Not every solver reads false! there.
        return " | ".join(f"{it.name} = {ranks[it]}" for it in found if it in there) or "nothing-has-this-name"

    print("preamble: \nproperty: recommends: vpkgformula = [true!], installedsize: nat = [0]\n", file=out)
    for package in packages:
        print(f"package: {package.name}\nversion: {ranks[package]}", file=out)
        for field, clauses in (("depends", package.needs), ("recommends", package.recommends)):
            if clauses:
                print(f"{field}: " + ", ".join(spelled(universe.any_of(atoms)) for atoms in clauses), file=out)
        foes = [f"{it.name} = {ranks[it]}" for it in foes_of(universe, package, there) if it.name != package.name]
        foes += [] if universe.is_cudf else [package.name]
        if foes:
            print(f"conflicts: {', '.join(foes)}", file=out)
        print(f"installedsize: {package.size}\n" + "installed: true\n" * package.is_installed, file=out)
    wanted = [it.name for it in packages if it.is_needed] + [f"{it.name} = {ranks[it]}" for it in packages if it.is_held]
    for kind, atom in universe.request:
        found = universe.matching(atom)
        if kind == "install" and found != universe.by_name[atom.name] and len(found) != 1:
            raise Stop(f"this cannot be said in CUDF: install {atom.text}")
        if kind == "install":
            wanted.append(f"{found[0].name} = {ranks[found[0]]}" if len(found) == 1 else atom.name)
    gone = [f"{it.name} = {ranks[it]}" for kind, atom in universe.request if kind == "remove" for it in universe.matching(atom) if it in there]
    print("request: " + f"\ninstall: {', '.join(wanted)}" * bool(wanted) + f"\nremove: {', '.join(gone)}" * bool(gone), file=out)


def foes_of(universe, package, there):
    """The other packages that cannot stand beside this one, by what it says."""
    return [it for it in universe.any_of(package.conflicts) if it is not package and it in there]


# The instance


class Plan:
    """The instance of a universe: which packages are there, and what that costs."""

    def __init__(self, universe, packages, criteria):
        self.universe, self.packages = universe, packages
        self.there = set(packages)
        self.instance = wmax.Instance()
        self.has = {it: self.instance.variable((it.name, it.version)) for it in packages}
        self.names = list(dict.fromkeys(it.name for it in packages))
        self.was = {name: [it for it in universe.by_name[name] if it.is_installed] for name in self.names}
        self.add_rules()
        self.add_request()
        self.costs = {name: [] for name in criteria}  # triples of a weight, literals and words
        for name in criteria:
            getattr(self, f"cost_{name}")(self.costs[name])
        self.add_costs()

    def some(self, packages):
        return [self.has[it] for it in packages if it in self.there]

    def of(self, name):
        return self.some(self.universe.versions(name))

    def add_rules(self):
        for name in self.names:
            if not self.universe.is_cudf:
                self.instance.at_most(1, self.of(name), about=f"one version of {name}")
        for package in self.packages:
            for atoms in package.needs:
                self.instance.hard(-self.has[package], *self.some(self.universe.any_of(atoms)),
                                   about=f"{package} needs {' | '.join(it.text for it in atoms) or 'what is not there'}")
            for foe in foes_of(self.universe, package, self.there):
                if self.universe.is_cudf or foe.name != package.name:
                    self.instance.hard(-self.has[package], -self.has[foe], about=f"{package} conflicts with {foe}")
            if package.is_needed:
                self.instance.hard(*self.of(package.name), about=f"{package.name} is essential")
            if package.is_held:
                self.instance.hard(self.has[package], about=f"{package} is on hold")

    def add_request(self):
        for kind, atom in self.universe.request:
            found = self.universe.matching(atom)
            if kind == "remove":
                for it in self.some(found):
                    self.instance.hard(-it, about=f"{atom.text} is to be removed")
                continue
            self.instance.hard(*self.some(found), about=f"{atom.text} is to be there")
            if kind == "upgrade":
                of_name = self.universe.versions(atom.name)
                self.instance.at_most(1, self.some(of_name), about=f"one version of {atom.name}")
                oldest = max((it.key for it in of_name if it.is_installed), default=None)
                for it in of_name:
                    if oldest is not None and it.key < oldest:
                        self.instance.hard(-self.has[it], about=f"{atom.name} is not to be older")

    def one_of(self, packages, name):
        """A literal that is true where one of these is there."""
        literals = self.some(packages)
        if len(literals) == 1:
            return literals[0]
        one = self.instance.variable(name)
        for it in literals:
            self.instance.hard(-it, one)
        return one

    def cost_removed(self, costs):
        for name in self.names:
            if self.was[name]:
                costs.append((1, self.of(name), f"{name} is removed"))

    def cost_new(self, costs):
        for name in self.names:
            if not self.was[name]:
                costs.append((1, [-self.one_of(self.universe.versions(name), f"some {name}")], f"{name} is new"))

    def cost_changed(self, costs):
        for name in self.names:
            was = self.was[name]
            others = [it for it in self.universe.versions(name) if it not in was]
            if not self.universe.is_cudf and was:
                costs.append((1, self.some(was), f"{name} is changed"))
            elif was or len(others) > 1:
                changed = self.instance.variable(f"{name} is changed")
                for it in was:
                    self.instance.hard(changed, self.has[it])
                for it in self.some(others):
                    self.instance.hard(changed, -it)
                costs.append((1, [-changed], f"{name} is changed"))
            else:
                costs.append((1, [-self.has[others[0]]], f"{name} is changed"))

    def cost_notuptodate(self, costs):
        for name in self.names:
            *older, newest = self.universe.versions(name)
            if not self.some(older):
                continue
            behind = self.instance.variable(f"{name} is behind")
            for it in self.some(older):
                self.instance.hard(-it, *self.some([newest]), behind)
            costs.append((1, [-behind], f"{name} is not the newest"))

    def cost_recommends(self, costs):
        for package in self.packages:
            for atoms in package.recommends:
                costs.append((1, [-self.has[package], *self.some(self.universe.any_of(atoms))],
                              f"{package} recommends {' | '.join(it.text for it in atoms)}"))

    def cost_size(self, costs):
        for package in self.packages:
            if not package.is_installed and package.size:
                costs.append((package.size, [-self.has[package]], f"{package} takes {package.size} kB"))

    def add_costs(self):
        """The first criterion that differs decides: each unit of one weighs more than all of the later ones."""
        unit = 1
        self.units = {}
        for name in reversed(self.costs):
            self.units[name] = unit
            unit *= 1 + sum(weight for weight, *_ in self.costs[name])
        if unit >= wmax.WEIGHT_LIMIT:
            raise Stop(f"so many criteria are too much for {len(self.packages)} packages: leave out size, or another one")
        for name, costs in self.costs.items():
            for weight, literals, about in costs:
                self.instance.soft(weight * self.units[name], *literals, about=about)

    def values(self, is_there):
        """What a choice of packages costs by each criterion."""
        names = {it.name for it in self.packages if is_there(it)}
        latest = {it.name for it in self.packages if is_there(it) and it is self.universe.versions(it.name)[-1]}
        counted = {
            "removed": sum(bool(was) and name not in names for name, was in self.was.items()),
            "new": sum(not was and name in names for name, was in self.was.items()),
            "changed": sum(any(is_there(it) != it.is_installed for it in self.universe.by_name[name] if it in self.there) for name in self.names),
            "notuptodate": len(names - latest),
            "recommends": sum(not any(map(is_there, (it for it in self.universe.any_of(atoms) if it in self.there)))
                              for package in self.packages if is_there(package) for atoms in package.recommends),
            "size": sum(it.size for it in self.packages if is_there(it) and not it.is_installed),
        }
        return {name: counted[name] for name in self.costs}


def spelled(values):
    return ", ".join(f"{name} {value}" for name, value in values.items())


def print_plan(plan, found):
    for name in plan.names:
        was = [it for it in plan.was[name]]
        now = [it for it in plan.universe.versions(name) if it in plan.there and found[plan.has[it]]]
        if was == now:
            continue
        words = "install" if not was else "remove" if not now else "upgrade" if now[-1].key > was[-1].key else "downgrade"
        print(f"{words:9} {name} " + " -> ".join(", ".join(it.version for it in some) for some in (was, now) if some))
    values = plan.values(lambda it: found[plan.has[it]])
    if sum(value * plan.units[name] for name, value in values.items()) != found.cost:
        raise Stop(f"the plan costs {spelled(values)}, and not {found.cost}")
    print(f"It costs: {spelled(values)}" + ("; nothing is better, which was checked." if found.is_optimum else "; a better plan may be there."))
    for part in found.given_up:
        print(f"  {part.about}")


# The command line


def parse(words):
    parser = argparse.ArgumentParser(description="What to install, upgrade and remove, at least cost.")
    parser.add_argument("wanted", nargs="*", help="install NAME[=VERSION].., remove NAME.., upgrade")
    parser.add_argument("--criteria", help="of " + ",".join(CRITERIA))
    parser.add_argument("--status", type=pathlib.Path, default=pathlib.Path("/var/lib/dpkg/status"))
    parser.add_argument("--lists", type=pathlib.Path, default=pathlib.Path("/var/lib/apt/lists"))
    parser.add_argument("--architecture", default=None)
    parser.add_argument("--cudf", type=pathlib.Path)
    parser.add_argument("--to-cudf", type=pathlib.Path)
    parser.add_argument("--judge", type=pathlib.Path)
    parser.add_argument("--folder")
    parser.add_argument("--time-limit", type=float, default=600)
    return parser.parse_args(words)


def read_universe(given):
    universe = Universe(given.cudf is not None)
    if given.cudf:
        with open(given.cudf, encoding="utf-8") as lines:
            read_cudf(universe, lines)
        return universe
    lists = sorted(given.lists.glob("*_Packages*")) if given.lists.is_dir() else [given.lists]
    architecture = given.architecture or subprocess.run(
        ["dpkg", "--print-architecture"], stdout=subprocess.PIPE, text=True, check=True).stdout.strip()
    read_lists(universe, given.status, lists, architecture)
    kind = None
    for word in given.wanted:
        if word in ("install", "remove", "upgrade"):
            kind = word
        elif kind in ("install", "remove"):
            name, is_exact, version = word.partition("=")
            atom = debian_atom(f"{name} (= {version})" if is_exact else name)
            if kind == "install" and not universe.matching(atom):
                raise Stop(f"no package is {word}: run apt-get update")
            universe.request.append((kind, atom))
        else:
            raise Stop(f"what about {word}? install, remove or upgrade comes first")
    if not given.wanted:
        raise Stop("nothing is asked for: install NAME.., remove NAME.. or upgrade")
    return universe


def main(words):
    given = parse(words)
    usual = "removed,notuptodate,recommends,new" if "upgrade" in given.wanted or given.cudf else "removed,changed,recommends,size"
    criteria = (given.criteria or usual).split(",")
    if not set(criteria) <= set(CRITERIA) or len(set(criteria)) < len(criteria):
        raise Stop(f"criteria are of {', '.join(CRITERIA)}")
    universe = read_universe(given)
    packages = universe.reached("recommends" in criteria)
    if given.to_cudf:
        with open(given.to_cudf, "w", encoding="utf-8") as out:
            write_cudf(universe, packages, out)
        return 0
    plan = Plan(universe, packages, criteria)
    if given.judge:
        judge(plan, given.judge)
        return 0
    try:
        print_plan(plan, plan.instance.solve(time_limit=given.time_limit, folder=given.folder, progress=True))
    except wmax.Unsatisfiable as error:
        print("This cannot be, which was checked:")
        for about in dict.fromkeys(it.about for it in error.because):
            print(f"  {about}")
        return 1
    return 0


def judge(plan, path):
    """What a solution in CUDF costs, and whether it is one."""
    chosen = Universe(True)
    with open(path, encoding="utf-8") as lines:
        read_cudf(chosen, lines)
    ranks = {it: rank for name in plan.names for rank, it in enumerate(plan.universe.versions(name), 1)}
    names = {(it.name, it.key) for it in chosen.packages if it.is_installed}
    there = {it for it in plan.packages if (it.name, it.key if plan.universe.is_cudf else ranks[it]) in names}
    for it in plan.packages:
        plan.instance.hard(plan.has[it] if it in there else -plan.has[it], about=f"{it} is {'' if it in there else 'not '}there")
    plan.instance.solve()
    print(spelled(plan.values(lambda it: it in there)))


if __name__ == "__main__":
    try:
        sys.exit(main(sys.argv[1:]))
    except (Stop, wmax.WmaxError, OSError, subprocess.CalledProcessError) as error:
        print(f"debian.py: {error}", file=sys.stderr)
        sys.exit(2)
