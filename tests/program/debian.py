"""What tests/program/debian.sh tries of examples/debian.py. A line for each test that failed; the last one is 'N passed, M failed'.

    debian.py PROGRAM      made-up lists and CUDF, against all choices of packages
"""
import contextlib
import io
import itertools
import operator
import os
import pathlib
import random
import shutil
import subprocess
import sys
import tempfile

TOP = pathlib.Path(__file__).resolve().parent.parent.parent
sys.dont_write_bytecode = True
sys.path[:0] = [str(TOP / "examples")]
import debian

passed = failed = 0
SIGNS = {"<<": operator.lt, "<": operator.lt, "<=": operator.le, "=": operator.eq, "!=": operator.ne, ">=": operator.ge, ">": operator.gt,
         ">>": operator.gt, None: lambda one, other: True}


def expect(name, found, wanted):
    global passed, failed
    if found == wanted:
        passed += 1
    else:
        failed += 1
        print(f"FAILED {name}\n  wanted {wanted!r}\n  got    {found!r}")


def versions():
    rising = ["0", "0.1", "1~~", "1~~a", "1~", "1", "1-0ubuntu1", "1-1~bpo1", "1-1", "1-1+b1", "1-1.1", "1-1.a", "1-10", "1a", "1aa", "1b", "1+", "1.",
              "1.0.1", "1.2", "1.10", "2-1-1", "10", "1:0.5", "2:0"]
    rising = [it for it in rising if it != "1-0ubuntu1"]
    expect("versions in their order", sorted(reversed(rising), key=debian.debian_key), rising)
    for one, other in (("1", "01"), ("1.0", "1.00"), ("0:1", "1"), ("1-0", "1"), ("1a0", "1a")):
        expect(f"{one} is {other}", debian.debian_key(one), debian.debian_key(other))
    if not shutil.which("dpkg"):
        print("no dpkg: comparisons beside it are not tried")
        return
    pick = random.Random(1)
    for _ in range(300):
        one, other = ("".join(pick.choice(["", "1:"])) + str(pick.randint(0, 2)) + "".join(pick.choices("~+.a-0z19:", k=pick.randint(0, 4))).replace(":", "")
                      for _ in range(2))
        one, other = one.rstrip("-"), other.rstrip("-")
        relation = pick.choice(["lt", "le", "eq", "ge", "gt"])
        ran = subprocess.run(["dpkg", "--compare-versions", one, relation, other], stderr=subprocess.DEVNULL)
        expect(f"{one} {relation} {other}", getattr(operator, relation)(debian.debian_key(one), debian.debian_key(other)), ran.returncode == 0)


class Made:
    """A made-up universe: packages as dicts, and what is asked for."""

    def __init__(self, seed, is_cudf):
        pick = self.pick = random.Random(seed)
        self.is_cudf = is_cudf
        self.names = ["a", "b", "c", "d", "e"][:pick.randint(2, 4 if is_cudf else 5)]
        self.packages = []
        for name in self.names:
            for version in sorted(pick.sample([1, 2, 3], k=pick.randint(1, 2))):
                self.packages.append({
                    "name": name, "version": version, "size": pick.randint(0, 9),
                    "needs": [self.atoms(2) for _ in range(pick.randint(0, 2))], "recommends": [self.atoms(2) for _ in range(pick.randint(0, 1))],
                    "conflicts": self.atoms(1) if pick.random() < 0.3 else [],
                    "provides": [(pick.choice(["v", "w", "a"]), pick.choice([None, 1, 2]))] if pick.random() < 0.3 else [],
                    "installed": False, "held": False})
        for name in self.names:
            if pick.random() < 0.5:
                package = pick.choice(self.of(name))
                package["installed"], package["held"] = True, not is_cudf and pick.random() < 0.2
        self.request = [("install", self.real()) for _ in range(pick.randint(0, 2))]
        self.request += [("remove", self.real())] if pick.random() < 0.3 else []
        self.request += [("upgrade", (pick.choice(self.names), None, None))] if is_cudf and pick.random() < 0.3 else []
        self.request = self.request or [("install", (self.names[0], None, None))]

    def of(self, name):
        return [it for it in self.packages if it["name"] == name]

    def real(self):
        name = self.pick.choice(self.names)
        return name, *self.pick.choice([(None, None), ("=", self.of(name)[0]["version"])])

    def atoms(self, most):
        signs = ["=", ">=", "<=", "<", ">", "!="] if self.is_cudf else ["=", ">=", "<=", "<<", ">>"]
        return [(self.pick.choice([*self.names, *self.names, "v", "w", "none"]), *self.pick.choice([(None, None), (self.pick.choice(signs), self.pick.randint(1, 3))]))
                for _ in range(self.pick.randint(1, most))]

    def matches(self, package, atom):
        name, sign, version = atom
        if package["name"] == name and SIGNS[sign](package["version"], version):
            return True
        return any(provided == name and (sign is None or (self.is_cudf if number is None else SIGNS[sign](number, version)))
                   for provided, number in package["provides"])

    def some(self, chosen, atoms):
        return any(self.matches(it, atom) for it in chosen for atom in atoms)

    def is_plan(self, chosen):
        if not self.is_cudf and len({it["name"] for it in chosen}) < len(chosen):
            return False
        if any(it["held"] and it not in chosen for it in self.packages):
            return False
        for package in chosen:
            if not all(self.some(chosen, atoms) for atoms in package["needs"]):
                return False
            if any(it is not package and self.matches(it, atom) and (self.is_cudf or it["name"] != package["name"])
                   for it in chosen for atom in package["conflicts"]):
                return False
        for kind, atom in self.request:
            found = [it for it in chosen if self.matches(it, atom)]
            if bool(found) != (kind != "remove"):
                return False
            if kind == "upgrade":
                now = [it["version"] for it in chosen if it["name"] == atom[0]]
                if len(now) > 1 or any(it < old["version"] for it in now for old in self.of(atom[0]) if old["installed"]):
                    return False
        return True

    def costs(self, chosen):
        ids, values = set(map(id, chosen)), dict.fromkeys(debian.CRITERIA, 0)
        for name in self.names:
            was, now = [it for it in self.of(name) if it["installed"]], [it for it in self.of(name) if id(it) in ids]
            values["removed"] += bool(was) and not now
            values["new"] += bool(now) and not was
            values["changed"] += list(map(id, was)) != list(map(id, now))
            values["notuptodate"] += bool(now) and now[-1] is not self.of(name)[-1]
        for package in chosen:
            values["size"] += 0 if package["installed"] else package["size"]
            values["recommends"] += sum(not self.some(chosen, atoms) for atoms in package["recommends"])
        return values

    def best(self, criteria):
        plans = ([it for it, is_in in zip(self.packages, bits) if is_in] for bits in itertools.product((0, 1), repeat=len(self.packages)))
        return min((tuple(self.costs(plan)[name] for name in criteria) for plan in plans if self.is_plan(plan)), default=None)

    # As texts

    def spell(self, atom):
        name, sign, version = atom
        return name if sign is None else f"{name} {sign} {version}" if self.is_cudf else f"{name} ({sign} {version})"

    def fields(self, package):
        clauses = {"depends": package["needs"], "recommends": package["recommends"], "conflicts": [[it] for it in package["conflicts"]],
                   "provides": [[(name, number and "=", number)] for name, number in package["provides"]]}
        lines = [f"{field}: " + ", ".join(" | ".join(map(self.spell, atoms)) for atoms in some) for field, some in clauses.items() if some]
        return [f"package: {package['name']}", f"version: {package['version']}", *lines]

    def cudf(self):
        stanzas = ["preamble: \nproperty: recommends: vpkgformula = [true!]"]
        stanzas += ["\n".join([*self.fields(it), f"installedsize: {it['size']}", *["installed: true"] * it["installed"]]) for it in self.packages]
        kinds = {kind: ", ".join(self.spell(atom) for other, atom in self.request if other == kind) for kind in ("install", "remove", "upgrade")}
        return "\n\n".join([*stanzas, "request: \n" + "\n".join(f"{kind}: {atoms}" for kind, atoms in kinds.items() if atoms)]) + "\n"

    def lists(self):
        """dpkg's status and apt's list."""
        texts = ["\n".join(it[0].upper() + it[1:] for it in self.fields(package)) +
                 f"\nArchitecture: all\nInstalled-Size: {package['size']}\nDescription: made up\n that goes on" for package in self.packages]
        status = [text + f"\nStatus: {'hold' if package['held'] else 'install'} ok installed" for text, package in zip(texts, self.packages) if package["installed"]]
        return "\n\n".join(status) + "\n", "\n\n".join(text.replace("Depends:", "Pre-Depends:" if self.pick.random() < 0.2 else "Depends:")
                                                       for text in texts) + "\n"


def told(*words):
    """Status and output."""
    out = io.StringIO()
    with contextlib.redirect_stdout(out):
        try:
            status = debian.main(list(map(str, words)))
        except debian.Stop as error:
            return 2, str(error)
    return status, out.getvalue()


def said(criteria, found):
    """The costs by the criteria, or None where no plan can be."""
    status, out = found
    if status == 1 and out.startswith("This cannot be, which was checked:\n  "):
        return None
    lines = [line for line in out.splitlines() if line.startswith("It costs: ") and line.endswith("; nothing is better, which was checked.")]
    parts = lines[0][len("It costs: "):].split(";")[0].split(", ") if lines else [out]
    return tuple(int(part.split()[1]) for part in parts) if [part.split()[0] for part in parts] == criteria else out


def main(program):
    os.environ["WMAX"] = program
    versions()
    met = set()
    with tempfile.TemporaryDirectory(prefix="wmax-debian-") as folder:
        folder = pathlib.Path(folder)
        for seed in range(120):
            made = Made(seed, is_cudf=seed % 2 == 1)
            criteria = made.pick.sample(debian.CRITERIA, k=made.pick.randint(1, 6))
            wanted, names = made.best(criteria), ",".join(criteria)
            if made.is_cudf:
                (folder / "task").write_text(made.cudf())
                found = said(criteria, told("--cudf", folder / "task", "--criteria", names))
            else:
                status, lists = made.lists()
                (folder / "status").write_text(status)
                (folder / "list").write_text(lists)
                words = [word for kind, (name, sign, version) in made.request for word in (kind, f"{name}={version}" if sign else name)]
                given = ["--status", folder / "status", "--lists", folder / "list", "--architecture", "amd64", "--criteria", names]
                found = said(criteria, told(*words, *given))
            expect(f"universe {seed}, {names}", found, wanted)
            met.add(wanted is None)
            if not made.is_cudf:
                status, out = told(*words, *given, "--to-cudf", folder / "again")
                if status == 0:
                    again = said(criteria, told("--cudf", folder / "again", "--criteria", names))
                    expect(f"universe {seed}, by way of CUDF", again, wanted)
                    met.add("CUDF")
        expect("plans and none", met, {True, False, "CUDF"})

        # A plan in words.
        (folder / "status").write_text("Package: shop\nVersion: 1\nStatus: install ok installed\nArchitecture: all\nDepends: base\n\n"
                                       "Package: base\nVersion: 1:2~rc1-1\nStatus: install ok installed\nArchitecture: amd64\nEssential: yes\n\n"
                                       "Package: gone\nVersion: 1\nStatus: deinstall ok config-files\nArchitecture: all\n")
        (folder / "list").write_text("Package: shop\nVersion: 2\nArchitecture: all\nDepends: base:any (>= 1:2), mail-server\nRecommends: extra\n\n"
                                     "Package: base\nVersion: 1:2-1\nArchitecture: amd64\nInstalled-Size: 70\n\n"
                                     "Package: mailer\nVersion: 1\nArchitecture: all\nProvides: mail-server\nConflicts: mail-server\nInstalled-Size: 40\n\n"
                                     "Package: poster\nVersion: 1\nArchitecture: all\nProvides: mail-server\nConflicts: mail-server\nInstalled-Size: 50\n\n"
                                     "Package: poster\nVersion: 0\nArchitecture: i386\nProvides: mail-server\nInstalled-Size: 1\n")
        given = ["--status", folder / "status", "--lists", folder / "list", "--architecture", "amd64"]
        expect("in words", told("install", "shop=2", *given), (0, (
            "upgrade   shop 1 -> 2\nupgrade   base 1:2~rc1-1 -> 1:2-1\ninstall   mailer 1\n"
            "It costs: removed 0, changed 3, recommends 1, size 110; nothing is better, which was checked.\n"
            "  shop is changed\n  base is changed\n  mailer is changed\n  shop 2 recommends extra\n  base 1:2-1 takes 70 kB\n  mailer 1 takes 40 kB\n")))
        expect("an upgrade", told("upgrade", *given)[1].splitlines()[3],
               "It costs: removed 0, notuptodate 0, recommends 1, new 1; nothing is better, which was checked.")
        expect("what cannot be", told("install", "mailer", "poster", *given), (1, (
            "This cannot be, which was checked:\n  mailer 1 conflicts with poster 1\n  mailer is to be there\n  poster is to be there\n")))
        expect("what is essential", told("remove", "base", *given), (1, (
            "This cannot be, which was checked:\n  base is essential\n  base is to be removed\n")))
        for words, wanted in ((["install", "none"], "no package is none: run apt-get update"), ([], "nothing is asked for"), (["shop"], "what about shop?"),
                              (["install", "shop", "--criteria", "price"], "criteria are of"), (["install", "shop", "--criteria", "new,new"], "criteria are of")):
            found = told(*words, *given)
            expect(f"refused: {words}", (found[0], found[1][:len(wanted)]), (2, wanted))
        told("install", "shop=2", *given, "--to-cudf", folder / "task")
        (folder / "solution").write_text("package: shop\nversion: 2\ninstalled: true\n\npackage: base\nversion: 2\ninstalled: true\n\n"
                                         "package: poster\nversion: 1\ninstalled: true\n")
        expect("a solution of others", told("--cudf", folder / "task", "--judge", folder / "solution", "--criteria", "removed,changed,size"),
               (0, "removed 0, changed 3, size 120\n"))
        (folder / "solution").write_text("package: shop\nversion: 2\ninstalled: true\n")
        try:
            found = told("--cudf", folder / "task", "--judge", folder / "solution")
        except debian.wmax.Unsatisfiable as error:
            found = [it.about for it in error.because]
        expect("a solution that is none", "base 2 is not there" in found, True)


main(sys.argv[1])
print(f"{passed} passed, {failed} failed")
