"""What earlier runs found: that a change does not fit the types holds on while the definitions are the same, a refusal by an example while the example's file is, too, and those that it uses."""
import hashlib
import json
import re


class Kept:
    def __init__(self, copy, fresh):
        self.copy = copy
        self.fresh = fresh
        self.file = copy.folder / "verdicts.json"
        self.found = json.loads(self.file.read_text()) if self.file.exists() and not fresh else {}
        self.definitions = {}

    def texts_of(self, crate):
        """The types and definitions of a crate."""
        folder = self.copy.folder / "crates" / crate
        return [path.read_text() for part in ("src", "specs") for path in sorted((folder / part).glob("*"))]

    def definitions_of(self, crate):
        if crate not in self.definitions:
            below = [self.definitions_of(name) for name in self.copy.needs[crate] if name in self.copy.needs]
            self.definitions[crate] = hashed(self.texts_of(crate) + below)
        return self.definitions[crate]

    def examples_of(self, crate, file, seen):
        """The texts of an example's file and of those of the crate that it uses."""
        if file in seen:
            return []
        seen.add(file)
        paths = [self.copy.folder / "crates" / crate / part / (file + ".antt") for part in ("specs", "proofs")]
        text = "".join(path.read_text() for path in paths if path.exists())
        used = re.findall(r"^use Rattle\.%s\.proofs\.(\w+)" % crate, text, re.M)
        return [text] + [more for name in used for more in self.examples_of(crate, name, seen)]

    def stamp(self, mutant, verdict):
        kind, crate, name = verdict
        if kind == "no mutant":
            return hashed([mutant.text, self.definitions_of(mutant.crate)])
        return hashed([mutant.text, self.definitions_of(mutant.crate), self.definitions_of(crate), *self.examples_of(crate, name.split(".")[0], set())])

    def verdict(self, mutant):
        """What was found and still holds: a refusal by an example, or that the types do not fit; or nothing."""
        stamp, *verdict = self.found.get(" ".join(mutant.key), [None])
        return tuple(verdict) if stamp and stamp == self.stamp(mutant, verdict) else None

    def keep(self, mutant, verdict):
        if verdict[0] in ("example", "no mutant"):
            self.found[" ".join(mutant.key)] = [self.stamp(mutant, verdict), *verdict]
            self.file.write_text(json.dumps(self.found, ensure_ascii=False, indent=0))


def hashed(texts):
    return hashlib.sha256("\0".join(texts).encode()).hexdigest()
