"""What refuses a mutant: an example, a theorem that the documents list, or a law of a proof alone."""
import re

import definitions
import stripped

# A proof that only computes.
COMPUTED = {"refl", "tt"}


def declarations_of(text):
    """{name: (statement, the right sides of its equations)} of the theorems of a file."""
    found = {}
    starts = [m for m in re.finditer(r"^(?:pub )?([^\s:]+) :(?= |$)", text, re.M)]
    for start, behind in zip(starts, starts[1:] + [None]):
        part = re.sub(r"--[^\n]*", "", text[start.end():behind.start() if behind else len(text)])
        part = re.split(r"^(?:abbrev|unfoldable|pub (?:record|data)|infix\w*|module)\b", part, flags=re.M)[0]
        name = start.group(1)
        pieces = re.split(r"^%s\b[^\n=]*? =\s" % re.escape(name), part, flags=re.M)
        found[name] = (re.split(r"^unfolding ", pieces[0], flags=re.M)[0], pieces[1:])
    return found


def opened(text):
    """The file with what its modules hold as if it stood outside them."""
    return re.sub(r"^module .* where\n((?:(?:  .*)?\n)+)", lambda module: re.sub(r"^  ", "", module[1], flags=re.M), text, flags=re.M)


def laws_used(text):
    """The names that a file takes from proofs/, but for the library's, which speak of no definition."""
    return {name.strip() for names in re.findall(r"^use Rattle\.(?!std\.)\w+\.proofs\.\S+?\.\{([^}]*)\}", text, re.M) for name in names.split(",")}


def is_example(statement, bodies, laws):
    """Whether what is stated is of given values: the proof computes by cases, or nothing is quantified and no law is cited."""
    words = set(re.findall(r"[^\s(),;{}]+", " ".join(bodies)))
    if bodies and set(re.findall(r"[^\W\d]\w*", " ".join(bodies))) <= COMPUTED:
        return True
    quantified = re.search(r"[({][^(){}]* : ", statement) or re.search(r"→(?! ⊥)", statement)
    return bool(bodies) and not quantified and not words & laws


class Judge:
    """Which declarations are examples, theorems that the documents list, and definitions."""

    def __init__(self, root, folder):
        """The documents are in `root`, the crates in `folder`."""
        self.folder = folder
        self.files = {}
        self.listed = set(re.findall(r"`(\w+\.[^`\s]+)`", (root / "docs" / "THEOREMS.md").read_text()))

    def kind(self, crate, part, file, name):
        """`definition`, `example`, `theorem` or `law`."""
        key = (crate, part, file)
        if key not in self.files:
            text = (self.folder / "crates" / crate / part / (file + ".antt")).read_text()
            self.files[key] = (declarations_of(text), {d.name for d in definitions.definitions_of(file, text)}, laws_used(text))
        theorems, defined, laws = self.files[key]
        if part == "specs" and name in defined:
            return "definition"
        if name in theorems and is_example(*theorems[name], laws):
            return "example"
        return "theorem" if "%s.%s" % (file, name) in self.listed else "law"

    def dependents(self, crate, part, file, cause):
        """The declarations of a file that cite this one, or one that does."""
        text = opened((self.folder / "crates" / crate / part / (file + ".antt")).read_text())
        cited = {name: set(re.findall(r"[^\s(),;{}.]+", " ".join([statement, *bodies]))) - {name} for name, (statement, bodies) in declarations_of(text).items()}
        found = {cause}
        while more := {name for name, words in cited.items() if words & found} - found:
            found |= more
        return [name for name in cited if name in found - {cause}]

    def refusal(self, log, own):
        """What refuses, as (kind, crate, declaration): an example before a theorem before a law; `no mutant` if a definition itself is refused."""
        found = {}
        for crate, part, file, name, only_depends in stripped.errors_of(log, self.dependents):
            kind = self.kind(crate, part, file, name)
            if kind == "definition" and not only_depends:
                return ("no mutant", own, "")
            found.setdefault((kind, only_depends), (kind, crate, "%s.%s" % (file, name)))
        ranks = [("example", False), ("theorem", False), ("theorem", True), ("law", False)]
        return next((found[rank] for rank in ranks if rank in found), None)
