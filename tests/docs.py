#!/usr/bin/env python3
"""Holds the documents to the tree: what they name in backticks exists, and what must be named is.

Paths, `crate::function`, `crate::Type::function`, `Module.definition` and the names of must-fail edits are looked up. docs/PROMISES.md has a
heading for every library and a row for every public function of it, those of its traits, its public types and its conversions (From, TryFrom)
among them; every edit stands in some document, and docs/WRONG-PROGRAMS.md names each behind its crate. Decisions are numbered without a gap.
docs/landings/ tells what each request moved then: a name there may be gone, if the last table of docs/DECISIONS.md says what stands for it.
"""
import pathlib
import re
import sys

ROOT = pathlib.Path(__file__).resolve().parent.parent
DOCUMENTS = [ROOT / "README.md", *sorted((ROOT / "docs").rglob("*.md")), ROOT / "plans" / "README.md", ROOT / "CHANGELOG.md"]
CRATES = [line.split(":")[0].split()[0] for line in (ROOT / "crates.txt").read_text().splitlines() if line.strip()]
LIBRARIES = [crate for crate in CRATES if (ROOT / "crates" / crate / "src" / "lib.rt").exists()]
TOP = {path.name for path in ROOT.iterdir()} - {"target"}
TOKEN = re.compile(r"`([^`\n]+)`")
GONE = "| Gone | Today |\n|---|---|\n"


def files_of(crate):
    """The code of each file of a crate, without comments."""
    return {path.stem: re.sub(r"//.*", "", path.read_text()) for path in sorted((ROOT / "crates" / crate / "src").glob("*.rt"))}


FILES = {crate: files_of(crate) for crate in CRATES}
EDITS = {crate: {path.stem for path in (ROOT / "crates" / crate / "must-fail").glob("*.edit")} for crate in CRATES}
ALL_EDITS = set().union(*EDITS.values())
PUBLIC = re.compile(r"^ *pub (?:extern \"C\" )?fn (\w+)", re.M)
# A block at the start of a line: a trait, or an impl of a trait (or of none) for a type, and what stands in it.
BLOCK = re.compile(r"^(?:pub (?P<trait>trait) (?P<named>\w+)|impl(?:<[^\n]*?>)? (?:(?P<of>\w+)(?P<given><[^\n]*>)? for )?(?P<type>\w+))[^\n]*\{\n(?P<body>.*?)^\}$",
                   re.M | re.S)
STANDARD = {"From", "TryFrom", "Default", "Display"}


def family(crate):
    """The name up to the first `_`; a program is no library's family."""
    return crate.split("_")[0] if crate in LIBRARIES else None


def functions_of_block(block):
    """`Type::function` of what a block makes public; the promise of an impl of the repository's own trait is the trait's."""
    functions = re.findall(r"^    fn (\w+)", block["body"], re.M)
    if block["trait"]:
        return {f"{block['named']}::{name}" for name in functions}
    if block["of"]:
        return {f"{block['type']}::{name}" for name in functions if block["of"] in STANDARD}
    return {f"{block['type']}::{name}" for name in PUBLIC.findall(block["body"])}


def is_hidden(crate, name):
    """Whether a type is private to its crate, or to a module whose type the crate does not hand on."""
    lib = FILES[crate].get("lib", "")
    private = re.findall(r"^mod (\w+);", lib, re.M)
    handed_on = set(re.findall(r"\w+", " ".join(re.findall(r"^pub use (.*);", lib, re.M))))
    declared = [(file, shown) for file, text in FILES[crate].items()
                for shown in re.findall(rf"^(pub |pub\(crate\) )?(?:struct|enum|trait) {name}\b", text, re.M)]
    return any(shown != "pub " or (file in private and name not in handed_on) for file, shown in declared)


def traits_functions(crate):
    """Those of its traits, which have no body there: what is wrong of one is wrong of an impl, which may stand in another crate."""
    return {function for text in FILES[crate].values() for block in BLOCK.finditer(text) if block["trait"] for function in functions_of_block(block)}


def public_functions(crate):
    """Those that another crate can call: none of a private module, and of a type's own those of a type that is not hidden."""
    private = re.findall(r"^mod (\w+);", FILES[crate].get("lib", ""), re.M)
    found = set()
    for file, text in FILES[crate].items():
        for block in BLOCK.finditer(text):
            types = [block["named"] or block["type"], *re.findall(r"\w+", block["given"] or "")]
            found |= functions_of_block(block) if not any(is_hidden(crate, name) for name in types) else set()
        found |= set(PUBLIC.findall(BLOCK.sub("", text))) if file not in private else set()
    return found


def uses_of_crates():
    """(crate, function) to the crates that name it, by `use` or in front of a call; a crate's own other files count as its own."""
    uses = {}
    for user in CRATES:
        for text in FILES[user].values():
            for named, one, many in re.findall(r"\b(\w+)::(?:\w+::)?(?:(\w+)\b|\{([^{}]*)\})", text):
                crate = user if named == "crate" else named
                if crate in CRATES:
                    for function in re.findall(r"\w+", one or many):
                        uses.setdefault((crate, function), set()).add(user)
    return uses


USES = uses_of_crates()
DEPENDS = {line.split(":")[0].split()[0]: line.split(":")[1].split() for line in (ROOT / "crates.txt").read_text().splitlines() if ":" in line}


def below(crate):
    """The crates that a crate stands on."""
    return set(DEPENDS[crate]).union(*(below(other) for other in DEPENDS[crate] if other in DEPENDS))


BELOW = {crate: below(crate) for crate in CRATES}


def users_of(crate, function):
    """The crates that name a function, or a type's function: in front of a call, or behind a value of a crate below."""
    owner, _, name = function.rpartition("::")
    if not owner:
        return USES.get((crate, function), set())
    call = re.compile(rf"\b{owner}::{name}\b|\.{name}(?:::<[^()]*>)?\(")
    return {user for user in CRATES if user == crate or crate in BELOW[user] for text in FILES[user].values() if call.search(text)}


def is_function(crate, name):
    return any(re.search(rf"\b(?:fn|struct|enum|trait|type|const) {name}\b", text) for text in FILES[crate].values())


def is_definition(module, name, crates):
    """Whether a file Module.antt of one of the crates defines the name, at the start of some line."""
    defined = re.compile(rf"^\s*(?:(?:abbrev|unfoldable|pub|record|data) )*{re.escape(name)}(?: |$)", re.M)
    files = [ROOT / "crates" / crate / part / f"{module}.antt" for crate in crates for part in ("specs", "proofs")]
    return any(path.exists() and defined.search(path.read_text()) for path in files)


def faults_of_token(token, crate):
    """What is wrong with one token; `crate` is the crate named in front of it in the same cell, if any."""
    path = token.split(" ")[0]
    if "/" in path and path.split("/")[0] in TOP and "*" not in path:
        return [] if (ROOT / path).exists() else [f"there is no {path}"]
    called = re.fullmatch(r"(\w+)::(?:\w+::)?(\w+)", token)
    if called and called[1] in CRATES:
        return [] if is_function(called[1], called[2]) else [f"there is no {token}"]
    defined = re.fullmatch(r"([A-Z]\w*)\.([^\s.]+)", token)
    if defined and defined[2] not in ("md", "antt", "hex", "plan", "text"):
        crates = [crate] if crate else CRATES
        return [] if is_definition(defined[1], defined[2], crates) else [f"no {' '.join(crates)} defines {token}"]
    return []


def tokens_of_cell(cell, crate=None):
    """(crate, token) of each token of a table's cell or a line: the crate named last in front of it, or `crate`."""
    for token in TOKEN.findall(cell):
        if token in CRATES:
            crate = token
        else:
            yield crate, token


def gone():
    """The tokens in the first column of the table of names that have gone."""
    table = (ROOT / "docs" / "DECISIONS.md").read_text().partition(GONE)[2]
    return {token for line in table.splitlines() for _, token in tokens_of_cell(line.split("|")[1])}


def cells_of(document):
    """All but the first column of the table of names that have gone."""
    front, _, table = document.read_text().partition(GONE)
    yield from (cell for line in front.splitlines() for cell in line.split("|"))
    yield from (cell for line in table.splitlines() for cell in line.split("|")[2:])


def faults_of_text(document):
    known = gone() if document.parent.name == "landings" else set()
    return [f"{document.name}: {fault}" for cell in cells_of(document) for crate, token in tokens_of_cell(cell) if token not in known
            for fault in faults_of_token(token, crate)]


def faults_of_gone():
    """A name that is said to have gone stands in a landing's page and nowhere in the crates."""
    named = {token for page in (ROOT / "docs" / "landings").glob("*.md") for token in TOKEN.findall(page.read_text())}
    return [f"DECISIONS.md: {token} is not gone, or no landing's page names it" for token in sorted(gone())
            if token not in named or not faults_of_token(token, None)]


def rows_of_promises():
    """(crate, whether for its family alone, function, edits with their crates) of each row of docs/PROMISES.md under a crate's heading."""
    crate, own = None, False
    for line in (ROOT / "docs" / "PROMISES.md").read_text().splitlines():
        heading = re.fullmatch(r"## `(\w+)`", line)
        crate = heading[1] if heading else crate
        cells = line.split("|")
        if crate and len(cells) == 6:
            if cells[1].strip() in ("Function", "For its family"):
                own = cells[1].strip() == "For its family"
            elif cells[1].strip().startswith("`"):
                *front, name = TOKEN.findall(cells[1])[0].split("::")
                owner = [part for part in front if not part.islower() or re.fullmatch(r"[ui]\d+", part)]
                yield crate, own, "::".join(owner + [name]), list(tokens_of_cell(cells[3], crate))


def faults_of_row(crate, own, function, edits):
    """A function for strangers has two wrong answers in its own crate; one for its family is used by its family alone."""
    faults = [f"{where} has no edit {edit}" for where, edit in edits if edit not in EDITS[where]]
    if function not in public_functions(crate):
        faults.append(f"{crate} has no public {function}")
    users = users_of(crate, function)
    if own:
        faults += [f"{crate}::{function} is used by {user}" for user in sorted(users) if family(user) != family(crate)]
        if not users:
            faults.append(f"{crate}::{function} is used by nobody in its family")
    elif len([edit for where, edit in edits if where == crate or function in traits_functions(crate)]) < 2:
        faults.append(f"{crate}::{function} has fewer than two wrong answers in its own crate")
    return [f"PROMISES.md: {fault}" for fault in faults]


def faults_of_promises():
    headings = re.findall(r"^## `(\w+)`$", (ROOT / "docs" / "PROMISES.md").read_text(), re.M)
    if headings != LIBRARIES:
        return [f"PROMISES.md: the headings are {headings}, not {LIBRARIES}"]
    rows = list(rows_of_promises())
    faults = [fault for row in rows for fault in faults_of_row(*row)]
    for crate in LIBRARIES:
        named = [function for where, _, function, _ in rows if where == crate]
        faults += [f"PROMISES.md: no row for {crate}::{function}" for function in sorted(public_functions(crate) - set(named))]
        faults += [f"PROMISES.md: two rows for {crate}::{function}" for function in sorted(set(named)) if named.count(function) > 1]
    return faults


def faults_of_edits():
    tokens = {token for document in DOCUMENTS for token in TOKEN.findall(document.read_text())}
    faults = [f"no document names the edit {crate}/{edit}" for crate in CRATES for edit in sorted(EDITS[crate] - tokens)]
    for line in (ROOT / "docs" / "WRONG-PROGRAMS.md").read_text().splitlines():
        crate = None
        for cell in line.split("|"):
            for where, token in tokens_of_cell(cell, crate):
                if token in ALL_EDITS and (where is None or token not in EDITS[where]):
                    faults.append(f"WRONG-PROGRAMS.md: {where} has no edit {token}")
            first = cell.strip().strip("`")
            crate = first if first in CRATES else None
    return faults


def faults_of_decisions():
    text = (ROOT / "docs" / "DECISIONS.md").read_text()
    numbers = [int(number) for number in re.findall(r"^(\d+)\. ", text, re.M)]
    return [] if numbers == list(range(1, len(numbers) + 1)) else [f"DECISIONS.md: the numbers are {numbers}"]


def main():
    faults = [fault for document in DOCUMENTS for fault in faults_of_text(document)]
    faults += faults_of_gone() + faults_of_promises() + faults_of_edits() + faults_of_decisions()
    for fault in faults:
        print(f"docs: {fault}", file=sys.stderr)
    if faults:
        sys.exit(1)
    print(f"docs: {len(DOCUMENTS)} documents agree with the tree")


if __name__ == "__main__":
    main()
