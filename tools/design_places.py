#!/usr/bin/env python3
"""Prints what may be a place of a point of docs/DESIGN-PASS.md, in src/ of every crate at a commit.

tools/design_places.py COMMIT [POINT ..]    a line each: file, line, function or type, what was met

Run it at the top. COMMIT may be `--here`: the files as they lie there. It prints more than the places; the page says of each line what it is.
"""

import difflib
import itertools
import re
import subprocess
import sys
from collections import defaultdict
from pathlib import Path

HEAD = re.compile(
    r"^(\s*)(?:pub(?:\(crate\))? )?(?:unsafe )?(?:extern \"C\" )?(const fn|fn|struct|enum|type|const|impl|trait)\b(?:<[^>]*>)? ?([^({;=]*)"
)
NUMBER = r"(?:u8|u16|u32|u64|usize)"


class Item:
    """A function, type, constant or impl: its file, its first line (that of its attributes) and its lines."""

    def __init__(self, file, kind, name, start, lines, at):
        self.file, self.kind, self.name, self.start, self.lines, self.at = file, kind, name, start, lines, at
        self.crate = file.split("/")[1]

    def text(self):
        return "\n".join(self.lines)

    def code(self):
        """Without comments and clauses."""
        return "\n".join(bare(l) for l in self.lines if not re.match(r"\s*(requires|ensures|//)", l))

    def body(self):
        code = self.code()
        return code[code.find("{") + 1 : code.rfind("}")] if "{" in code else ""

    def parameters(self):
        """Of a function: name and type."""
        if self.kind not in ("fn", "const fn"):
            return []
        text = re.split(r"\bfn \w+", self.code(), maxsplit=1)[1]
        start, depth = 0, 0
        while text[start] != "(" or depth:
            depth += (text[start] == "<") - (text[start] == ">" and text[start - 1] != "-")
            start += 1
        end, depth = start + 1, 1
        while depth:
            depth += (text[end] in "([") - (text[end] in ")]")
            end += 1
        parts = [" ".join(p.split()) for p in re.split(r",(?![^<(\[]*[>)\]])", text[start + 1 : end - 1])]
        return [tuple(x.strip() for x in p.split(":", 1)) for p in parts if ":" in p]

    def fields(self):
        """Of a struct: name and type."""
        return re.findall(r"^\s*(?:pub )?(\w+): ([^\n]+?),$", self.body(), re.M) if self.kind == "struct" else []

    def cases(self):
        return re.findall(r"^    (\w+)(\([^\n]*\))?,$", self.body(), re.M) if self.kind == "enum" else []


def bare(line):
    return re.sub(r"\s*//.*$", "", line)


def sources(commit):
    """Each file's name and lines."""
    if commit == "--here":
        for path in sorted(Path("crates").glob("*/src/**/*.rt")):
            yield str(path), path.read_text().split("\n")
        return
    names = subprocess.run(["git", "ls-tree", "-r", "--name-only", commit, "crates"], capture_output=True, text=True, check=True).stdout
    for name in names.split():
        if re.match(r"crates/\w+/src/.*\.rt$", name):
            show = subprocess.run(["git", "show", f"{commit}:{name}"], capture_output=True, text=True, check=True)
            yield name, show.stdout.split("\n")


def items_of(file, lines):
    found, within = [], []
    for n, line in enumerate(lines):
        head = HEAD.match(line)
        if not head or line.lstrip().startswith("//"):
            continue
        indent, kind, name = len(head.group(1)), head.group(2), head.group(3).strip()
        within = [(i, t) for i, t in within if i < indent]
        end = n
        while end + 1 < len(lines) and not (bare(lines[end]).endswith(";") and end == n) and not re.match(r"\s{%d}(\}|\};)$" % indent, lines[end]):
            if lines[end].endswith(";") and (kind in ("type", "const") or re.match(r"\s*(?:requires|ensures)\b", lines[end])):
                break
            if "{" in bare(lines[end]) and re.search(r"\}$", bare(lines[end])) and end == n:
                break
            end += 1
        start = n
        while start and lines[start - 1].lstrip().startswith("#["):
            start -= 1
        if kind in ("impl", "trait"):
            within.append((indent, name.split(" for ")[-1]))
            lines_kept = lines[start : n + 1]
        else:
            lines_kept = lines[start : end + 1]
        name = name.split(":")[0].strip() if kind == "const" else name
        owners = [re.sub(r"<.*", "", t) for _, t in within if kind not in ("impl", "trait")]
        full = "::".join(owners + [re.sub(r"<.*", "", name) if kind not in ("impl", "trait") else name])
        found.append(Item(file, kind, full, start, lines_kept, n + 1))
    return found


def met(items, patterns, code=True):
    """Of each item the lines that one of the patterns meets."""
    for item in items:
        if item.kind in ("impl", "trait"):
            continue
        for offset, line in enumerate(item.lines):
            text = bare(line) if code else line
            if re.match(r"\s*(requires|ensures|//)", text) and code:
                continue
            for what, pattern in patterns:
                if re.search(pattern, text):
                    yield item, item.start + offset + 1, what
                    break


def functions(items):
    return [i for i in items if i.kind in ("fn", "const fn")]


def point_1(items):
    for item in items:
        if item.kind == "enum" and len(item.cases()) == 2:
            yield item, item.at, "an enum of two cases"
        if item.kind == "struct" and any(n in ("number", "outcome", "found") or t in ("bool", "Outcome") for n, t in item.fields()):
            yield item, item.at, "a struct with a number or flag beside values"
    yield from met(
        items,
        [
            ("64 for none", r"== 64\b|usize = 64;|\bif \w+ < 64\b"),
            ("0 for none", r"\w\]? == 0 \{|\w\]? == 0,|0 < \w+\.(?:number|count)|0 < shared|count: 0, first: 0|=> 0,$|bound: 0,|^    0$"),
            ("a number for none", r"\b65536\)|0x?FFFF|\b65535[,)]"),
            ("a flag for the end", r"Result<bool>"),
            ("a blank for none", r"fn (?:blank|no)_\w+\(\)|fn nothing"),
            ("a refusal's number", r"(?:Fault|Refused|UpToPeriod)\(\d|number: (?:6|11|0),|Limit::\w+(?:\([\d_]+\))?, \d+\)"),
            ("a number's type for refusals", r"(?:Fault|Refused)\(u8|UpToPeriod\(u8\)|Limit, pub u8|(?:number|refusal): u8|fn \w*(?:refus|number|method|verdict)\w*\(.*-> u8"),
            ("a number for a method or verdict", r"^\s*[\d_]+ => (?:Method|Verdict)::|(?:Method|Verdict)::\w+(?:\(\w+(?:, \w+)*\))? => (?:\d+,|put_four)|\[METHOD\]|method: u8|verdict: u8|number: [0-2],"),
            ("a match that says yes or no", r"=> (?:true|false),"),
        ],
    )


def shape(item):
    """The body's words, every name x and every number 0, a field like a name, an early return like an else."""
    body = re.sub(r"if ([^{}]*)\{\s*return ([^{};]*);\s*\}\s*([^{};]+)$", r"if \1{ \2 } else { \3 }", item.body().rstrip())
    tokens = re.findall(r"[A-Za-z_][\w.]*|\d[\w_]*|[^\s\w]", body)
    keep = {"if", "else", "while", "for", "in", "return", "match", "let", "mut", "as", "loop", "break", "out"}
    return ["0" if t[0].isdigit() else t if t in keep or not (t[0].isalpha() or t[0] == "_") else "x" for t in tokens]


def sized(name):
    """A name without its size."""
    return "_".join("N" if w in ("one", "two", "four") else re.sub(r"\d+$", "N", w) for w in name.split("_"))


def point_2(items):
    """Functions whose bodies are alike but for names and numbers, constants that are the same, enums whose cases bear one name."""
    shaped = [(i, shape(i)) for i in functions(items)]
    runs = defaultdict(list)
    for item in functions(items):
        lines = [l.strip() for l in item.body().split("\n") if l.strip()]
        for n in range(len(lines) - 3):
            run = "\n".join(lines[n : n + 4])
            if sum(len(l) > 8 for l in lines[n : n + 4]) >= 2 and item not in runs[run]:
                runs[run].append(item)
    for there in runs.values():
        for a, b in itertools.combinations(there, 2):
            yield a, a.at, f"the same lines as {b.crate} {b.name}"
    for (a, s), (b, t) in itertools.combinations(shaped, 2):
        if a.name != b.name and a.crate == b.crate and sized(a.name) == sized(b.name):
            yield a, a.at, f"named like {b.crate} {b.name}"
        few = min(len(s), len(t))
        if few < 12:
            s, t = ["x" if w == "0" else w for w in s], ["x" if w == "0" else w for w in t]
        alike = difflib.SequenceMatcher(None, s, t, autojunk=False).ratio() if few else 0
        if alike >= (0.92 if few < 12 else 0.86 if few < 40 else 0.68 if a.crate == b.crate else 0.72):
            yield a, a.at, f"like {b.crate} {b.name}"
    consts = [i for i in items if i.kind == "const"]
    for a, b in itertools.combinations(consts, 2):
        if "=" not in a.text() or "=" not in b.text():
            continue
        if a.text().split("=")[1] == b.text().split("=")[1] and "b\"" in a.text() or a.name == b.name:
            yield a, a.at, f"like {b.crate} {b.name}"
    types = [i for i in items if i.kind in ("struct", "enum", "type")]
    for a, b in itertools.combinations(types, 2):
        names = lambda i: {n for n, _ in i.fields()} or {n for n, _ in i.cases()} or {re.sub(r"\[.*;", "[", i.text().split("=")[-1])}
        same = names(a) & names(b)
        if len(same) >= 2 or (len(same) == 1 and len(names(a)) == 1):
            yield a, a.at, f"type like {b.crate} {b.name}"


def point_3(items):
    yield from met(functions(items), [("while", r"^\s*(?:'\w+: )?while "), ("loop", r"^\s*(?:'\w+: )?loop "), ("for over a range", r"\bfor \w+ in [^{]*\.\.")])


def point_4(items):
    for item in items:
        if item.kind in ("struct", "enum") and not re.search(r"derive\([^)]*PartialEq|struct \w+;", item.text()):
            yield item, item.at, "no equality derived"
    for item in functions(items):
        if not item.parameters() and "->" in item.text() and "()" in item.lines[item.at - 1 - item.start]:
            yield item, item.at, "a constant value made by a function"
        body = " ".join(item.body().split())
        if re.fullmatch(r"if \S+ < \S+ \{ (?:return )?[^{}]*?;? \} (?:else \{ [^{}]* \}|[^{};]*)", body):
            yield item, item.at, "the lesser, the greater or a difference by hand"
        if re.search(r"if [^{}]*\{ if [^{}]*\{[^{}]*\} \}(?! else)|if [^{}]*\{ (return [^{};]*;) \} if [^{}]*\{ \1 \}", body):
            yield item, item.at, "two tests for one"
    yield from met(
        items,
        [
            ("a conversion by `as`", rf"\bas {NUMBER}\b"),
            ("one enum or number to another, case by case", r"^\s*(?:[\d_]\w*|\w+::\w+(?:\([^)]*\))?) => (?:\d+,|\w+::\w+|Parts|house_default)"),
            ("bytes by weights", r"byte_of\(|\b(?:256|65536) \*|% 256"),
            ("printed by hand", r"\bput\(|\bput_(?:number|item|two|four)\(|io::decimal|\b(?:write|println)!\("),
            ("a match in place of ==", r"=> (?:true|false),"),
            ("a test put together by hand", r"& !\w+\) \||\) \| [(\w]"),
            ("a result put together by hand", r"Returned \{"),
            ("field by field", r"^\s*(\w+): \w+\.\1,$"),
            ("a field copied first", r"let (\w+) = \w+\.\1;"),
            ("copied one by one", r"\w+\[[^\]]+\] = (?:\w+(?:\[\w+\]|\.\w+)|0x\w+|\d+);"),
        ],
    )


CONJUNCT = re.compile(r"\s+×\s+")


def facts_of(item):
    """The conjuncts of an item's clauses, with the names of slices and numbers left out."""
    for line in item.lines:
        clause = re.match(r"\s*(?:requires|ensures)\s*\w*\s*\{ (.*) \}$", line)
        for fact in CONJUNCT.split(clause.group(1)) if clause else []:
            fact = re.sub(r"\b(?:s|bytes|out|into|buffer|reply|r\.plan|buf|plan)\.(?:now|old|new)\b", "BYTES", fact.strip("() "))
            fact = re.sub(r"\b(\w+\.)*(?:at)\b", "at", fact)
            fact = re.sub(r"\bat \+ (?:[^≤×]+?) ≤ length BYTES$", "at + N ≤ length BYTES", fact)
            fact = re.sub(r"\b(?:count|seen|many|row\.many|kept)\b", "COUNT", fact)
            fact = re.sub(r"^.*\b[\w.]+ < 64$|^.*→ .* < 64$", "PLACE < 64", fact)
            fact = re.sub(r"\b(?:last|last_at .*?\)) ≤ (?:end|end_at .*)$", "LAST ≤ END", fact)
            fact = re.sub(r"^(Scene|OnMesh|AllOnMesh|LegalPlatform|LegalFlow|Ends|Written|Inside|Highest|GivenBack|Node)\b.*", r"\1 ..", fact)
            fact = re.sub(r"\b[\w.]+ (< 8|< 256|≤ 1_000_000_000|< 4294967291)$", r"X \1", fact)
            if "≡" not in fact:
                yield fact


def point_5(items):
    """A line for each fact and each two parameters that stand in three or more functions, or where one stands in two and never without the other, and what these are."""
    facts, pairs = defaultdict(list), defaultdict(list)
    for item in functions(items):
        for fact in set(facts_of(item)):
            facts[fact].append(item)
        names = {n.removeprefix("mut ") for n, _ in item.parameters()}
        for pair in itertools.combinations(sorted(names), 2):
            pairs[pair].append(item)
    lines = [("fact " + fact, there) for fact, there in sorted(facts.items()) if len(there) >= 3]
    single = defaultdict(list)
    for item in functions(items):
        for name in {n.removeprefix("mut ") for n, _ in item.parameters()}:
            single[name].append(item)
    always = lambda pair, there: len(there) == 2 and any(single[n] == there for n in pair)
    lines += [("parameters " + ", ".join(pair), there) for pair, there in sorted(pairs.items()) if len(there) >= 3 or always(pair, there)]
    for struct in (i for i in items if i.kind == "struct" and len(i.fields()) >= 2):
        own = {t for _, t in struct.fields()}
        apart = [
            f
            for f in functions(items)
            if len(set(struct.fields()) & set(f.parameters())) >= 3
            or (all(t[0].isupper() for t in own) and own <= {t for _, t in f.parameters()})
            or set(struct.fields()) <= set(f.parameters())
        ]
        if apart:
            lines.append((f"parameters that are fields of {struct.crate} {struct.name}", apart))
    for what, there in lines:
        print(f"5  {what}: {len(there)}: {', '.join(i.crate + ' ' + i.name for i in there)}")
    print(f"5  {len(lines)} lines")


def point_6(items):
    arrays = {i.name for i in items if i.kind == "type" and re.search(r"\[.*;", i.text())}
    array = re.compile(r"\[[^\[\]]+; \w+\]|\b(?:" + "|".join(sorted(arrays) or ["-"]) + r")\b")
    counts = ("count", "seen", "many", "length", "n", "kept", "size")
    for item in items:
        if item.kind == "type" and array.search(item.text()):
            yield item, item.at, "a type of arrays"
        held = item.fields() or item.parameters()
        if any(n in counts and re.fullmatch(NUMBER, t) for n, t in held) and any(array.search(t) or "[" in t for _, t in held):
            yield item, item.at, "a buffer with a length beside it"
        elif sum(1 for _, t in held if array.search(t)) >= 2:
            yield item, item.at, "parallel arrays"
        if item.kind == "const" and re.search(r": usize", item.text()):
            yield item, item.at, "a constant index"
    yield from met(functions(items), [("an array made with room", r"let mut \w+(?:: [^=]+)? = \["), ("the part up to a length", r"&\w[\w.]*\[\.\.\w"), ("an array handed out", r"-> \[\w+; \d+\]")])


def point_7(items):
    yield from met(functions(items), [("a match", r"\bmatch \w"), ("a function's table", r"\[fn\b|: fn\(|dyn ")])


ANSWER = re.compile(r"^pub (\S+) : goal\.\S+\n(.*?)(?=^\S*pub |\n\n|\Z)", re.M | re.S)


def point_8(commit):
    """Each crate's answers, how many of them say what another of the crate says, and the lines of its proofs."""
    if commit == "--here":
        files = [(str(p), p.read_text()) for p in sorted(Path("crates").glob("*/proofs/**/*.antt"))]
    else:
        names = subprocess.run(["git", "ls-tree", "-r", "--name-only", commit, "crates"], capture_output=True, text=True, check=True).stdout
        wanted = [n for n in names.split() if re.match(r"crates/\w+/proofs/.*\.antt$", n)]
        files = [(n, subprocess.run(["git", "show", f"{commit}:{n}"], capture_output=True, text=True, check=True).stdout) for n in wanted]
    crates = defaultdict(lambda: [[], 0])
    for name, text in files:
        row = crates[name.split("/")[1]]
        row[0] += [body.replace(goal, "_") for goal, body in ANSWER.findall(text)]
        row[1] += text.count("\n")
    for crate, (answers, lines) in sorted(crates.items()):
        again = sum(answers.count(a) > 1 for a in answers)
        print(f"8  {crate}: {len(answers)} answers, {again} of them alike, {lines} lines of proofs")
    print(f"8  all: {sum(len(r[0]) for r in crates.values())} answers")


def main():
    if len(sys.argv) < 2:
        sys.exit(__doc__)
    commit, points = sys.argv[1], sys.argv[2:] or list("12345678")
    items = [i for file, lines in sources(commit) for i in items_of(file, lines)]
    finders = {"1": point_1, "2": point_2, "3": point_3, "4": point_4, "5": point_5, "6": point_6, "7": point_7}
    for point in points:
        if point == "8":
            point_8(commit)
            continue
        if point == "5":
            point_5(items)
            continue
        seen = defaultdict(list)
        for item, line, what in finders[point](items):
            seen[(item.file, item.at, item.name, what)].append(line)
        for (file, at, name, what), lines in sorted(seen.items()):
            print(f"{point}  {file}:{','.join(str(l) for l in sorted(set(lines)))} {name}: {what}")
        places = {(f, n) for (f, _, _, _), lines in seen.items() for n in lines}
        print(f"{point}  {len({(f, a) for f, a, _, _ in seen})} functions, types and constants; {len(places)} lines")


main()
