"""A copy of the crates without their code: types, definitions, laws, theorems and computed examples are left. What is refused there is refused whatever any code says.

A type is left as clauses see it: with its ghost fields, with the numbers of its variants, and with its `impl Model`, which gives it another meaning; without derives, which are code."""
import pathlib
import re
import shutil
import subprocess
import sys

KEPT = re.compile(r"(?:#\[.*\]\n)*(?:(?:pub )?(?:struct|enum|type|mod) |impl\b.* Model for )")
IMPORT = re.compile(r"(pub )?(use (?:\w+::)*)(?:(\w+)|\{([^{}]*)\});")
GHOST_IMPORT = re.compile(r"(ghost use [\w.]+\.)\{([^{}]*)\};")
GHOST = re.compile(r"^    ghost ", re.M)
DERIVE = re.compile(r"^#\[derive\(.*\)\]\n", re.M)
TYPE = re.compile(r"[A-Z]\w*[a-z]\w*")
WORD = re.compile(r"[^\s(){},;]+")
ERROR = re.compile(r"^crates/(\w+)/(specs|proofs)/(\w+)\.antt:(\d+):\d+: error: (?:`([^`]+)`: )?(.*)$", re.M)
DEPEND = re.compile(r"(\d+) declarations? that depends? on `([^`]+)`, which was (?:not admitted|rejected), w(?:as|ere) not checked: (.*)")
TACTICS = "#![tactic(auto)]"


def items_of(code):
    """The items of a file of code: each ends with a `}` or a `;` at the line's start or end."""
    now = []
    for line in code.splitlines():
        if not line.strip() or line.startswith("//") or line == TACTICS:
            continue
        now.append(line)
        if line == "}" or (not line.startswith(" ") and line.endswith((";", "}"))):
            yield "\n".join(now)
            now = []


def kept_of(item):
    """What is left of an item: a type, what gives it its meaning, a module."""
    return DERIVE.sub("", item) if KEPT.match(item) else None


def import_of(item, used):
    """What is left of an import: the types that are used, or that are handed on."""
    handed_on, path, one, many = IMPORT.fullmatch(item).groups()
    types = [name for name in re.split(r"[,\s]+", one or many) if TYPE.fullmatch(name) and (handed_on or name in used)]
    return "%s%s{%s};" % (handed_on or "", path, ", ".join(types)) if types else None


def ghost_import_of(item, used):
    """What is left of an import of definitions: those that are used."""
    path, names = GHOST_IMPORT.fullmatch(item).groups()
    left = [name for name in re.split(r"[,\s]+", names) if name and set(name.strip("◌").split("◌")) <= used]
    return "%s{%s};" % (path, ", ".join(left)) if left else None


def types_alone(code):
    """The types of a file of code, with what they mean in clauses; the modules and the types that it uses."""
    head = TACTICS + "\n\n" if TACTICS in code else ""
    items = list(items_of(code))
    kept = [left for left in map(kept_of, items) if left]
    used = set(re.findall(r"\w+", " ".join(kept)))
    ghosts = {word for item in kept if GHOST.search(item) for word in WORD.findall(item)}
    imports = [ghost_import_of(item, ghosts) for item in items if GHOST_IMPORT.fullmatch(item)] + [import_of(item, used) for item in items if IMPORT.fullmatch(item)]
    return head + "".join(left + "\n" for left in [*filter(None, imports), *kept])


def speaks_of_code(crate, text):
    """Whether a file of theorems cites what the checker makes of a function."""
    return re.search(r"^use Rattle\.%s\.(?:proofs|specs\.contracts)\.(?:[A-Z]\w*\.)?[a-z]" % crate, text, re.M)


def files_of(crate, folder):
    """The files of the stripped crate, by their paths."""
    files = {"src/" + path.name: types_alone(path.read_text()) for path in (folder / "src").glob("*.rt")}
    for part in ("specs", "proofs"):
        files.update({"%s/%s" % (part, path.name): path.read_text() for path in (folder / part).glob("*.antt")})
    for path in [path for path, text in files.items() if path.startswith("proofs/") and speaks_of_code(crate, text)]:
        del files[path]
        files["proofs/Lib.antt"] = re.sub(r"^(pub )?mod %s\n" % pathlib.Path(path).stem, "", files["proofs/Lib.antt"], flags=re.M)
    return files


def is_library(root, line):
    """Whether a line of crates.txt is of a library for other crates."""
    return (root / "crates" / line.split(":")[0] / "src" / "lib.rt").exists()


class Stripped:
    """The copy, in a folder that is kept, so that what has not changed since is not checked again. It is none of the checkout's: there `rt ci` refuses code that is in no crate."""

    def __init__(self, root, folder):
        self.folder = folder
        self.accepted = set()
        lines = [line for line in (root / "crates.txt").read_text().splitlines() if is_library(root, line)]
        self.needs = {line.split(":")[0]: line.split(":")[1].split() for line in lines}
        for part in [part for part in folder.glob("crates/*/*") if part.name != "out"]:
            shutil.rmtree(part)
        for crate in self.needs:
            for path, text in files_of(crate, root / "crates" / crate).items():
                (folder / "crates" / crate / path).parent.mkdir(parents=True, exist_ok=True)
                (folder / "crates" / crate / path).write_text(text)
        (folder / "crates.txt").write_text("".join(line + "\n" for line in lines))

    def path(self, crate, file):
        return self.folder / "crates" / crate / "specs" / (file + ".antt")

    def above(self, crate):
        """The crates that build on it, in the order of crates.txt."""
        found = [crate]
        for name, needs in self.needs.items():
            if set(needs) & set(found):
                found.append(name)
        return found[1:]

    def below(self, crate):
        """The crates that it builds on, each behind those that it uses."""
        found = []
        for name in self.needs[crate]:
            if name in self.needs:
                found += [one for one in [*self.below(name), name] if one not in found]
        return found

    def check(self, crates):
        """What `rt check` says of these crates, and whether all are accepted; those above a refused one are left out."""
        log, refused = "", []
        for crate in crates:
            if set(self.below(crate)) & set(refused):
                continue
            ended = subprocess.run(["rt", "check", "--jobs", "1"], cwd=self.folder / "crates" / crate, stdout=subprocess.PIPE, stderr=subprocess.STDOUT, text=True)
            log += re.sub(r"^(?:\S*/)?(specs|proofs)/", r"crates/%s/\1/" % crate, ended.stdout, flags=re.M)
            refused += [crate] if ended.returncode else []
        return log, not refused

    def accept(self, crates):
        """Ends the run unless these are accepted as they stand; each is checked once."""
        log, fine = self.check([crate for crate in crates if crate not in self.accepted])
        if not fine:
            sys.exit("mutants: the copy without code is not accepted as it stands:\n" + log[-2000:])
        self.accepted.update(crates)


def errors_of(log, dependents):
    """(crate, part, file, declaration, whether it only depends on one that is refused) for each error of a log. Of those that depend on one the log names three:
    `dependents` gives all of that file, by the one that they depend on."""
    for crate, part, file, line, name, said in ERROR.findall(log):
        depend = DEPEND.match(said)
        if not depend:
            yield crate, part, file, name or "line " + line, False
            continue
        count, cause, listed = depend.groups()
        names = dependents(crate, part, file, cause)
        if len(names) != int(count):
            names = re.sub(r" \(via [^)]*\)| and \d+ more$", "", listed).split(", ")
        for each in names:
            yield crate, part, file, each, True
