"""The definitions of a crate's specs/, and their mutants: each definition with one operand, constant, comparison or order changed, by rule.

What is mutated is the right side of an equation, the type of a record's field and that of a constructor; not a signature, a comment, an import or a theorem.
"""
import re
from dataclasses import dataclass, field

# The crates whose definitions are changed; of framing the numbers of what sends a plan back, which those of the plan go by.
CRATES = ["framing", "plan_values", "plan_table", "plan_checks", "plan", "writer_bytes", "writer", "mesh", "recurrence", "model", "reply", "converter", "lines_items", "lines_mesh", "lines_flow", "lines"]
OF_CRATE = {"framing": ["Returned.number_of"]}

# A word ends where a projection begins: `p.method` is `p` and `.method`.
TOKEN = re.compile(r"--[^\n]*|\s+|[(){}\[\];,]|\.[\w«][^\s(){}\[\];,.]*|(?:[^\s(){}\[\];,.]|\.(?![\w«]))+")
NUMBER = re.compile(r"0x[0-9A-Fa-f]+|[0-9][0-9_]*")
NAME = re.compile(r"[^\W\d_]\w*'?")
OPERATORS = set("+ - * / % ^ ∷ ++ && || ≡ ≢ < ≤ × ⊎ → ↔ ↦ ÷ = : | , ; when else then in let elim record λ ⌈ ⌉".split())
# Where one expression ends and the next begins, at one depth of brackets.
SEPARATORS = set("= : | , ; ↦ when else then in let elim × ⊎ → ↔ λ ⌈ ÷ ⌉".split())
OPENING, CLOSING = "([{", ")]}"
PROJECTED = "p.f"  # the text of a group that is no brackets

# What sends a plan back, in the order of the numbers.
FAULTS = (
    "Cut UnknownTag WrongLength Misplaced FlowTooMany IdTaken PriorityTaken EndsEqual ByteAfterEnd BufferTooShort Columns Rows LinkCycles RoutingCycles BufferFlits Method PriorityFlits "
    "Id Priority Source Destination Flits Period DeadlineZero Jitter DeadlineAbovePeriod"
).split()

# One word for another, by kind. A choice that does not fit the types makes no mutant.
WORDS = {
    "comparison": {"ltb": ["leb"], "leb": ["ltb"], "eqb": ["leb"], "<": ["≤"], "≤": ["<"], "≢": ["≡"]},
    "arithmetic": {"+": ["-"], "-": ["+"], "*": ["+"], "/": ["%"], "%": ["/"], "suc": [""], "min": ["max"]},
    "logic": {"&&": ["||"], "||": ["&&"], "not": [""], "true": ["false"], "false": ["true"]},
    "case": {
        "SB": ["XLWX"], "XLWX": ["IBN"], "IBN": ["SB"], "One": ["Two"], "Two": ["Four"], "Four": ["Two"],
        "PlatformRecord": ["FlowRecord"], "FlowRecord": ["EndRecord"], "EndRecord": ["PlatformRecord"],
        "one_at": ["two_at"], "two_at": ["one_at"], "four_at": ["two_at"], "two_bytes": ["four_bytes"], "four_bytes": ["two_bytes"],
        "IsPlatform": ["IsFlow"], "IsFlow": ["IsEnd"], "IsEnd": ["IsPlatform"],
    },
    "fault": {fault: [following] for fault, following in zip(FAULTS, FAULTS[1:] + FAULTS[:1])},
    "field": {
        ".columns": [".rows"], ".rows": [".columns"], ".link": [".routing"], ".routing": [".buffer"], ".buffer": [".link"], ".method": [".buffer"], ".priority_flits": [".method"],
        ".id": [".priority"], ".priority": [".id"], ".source": [".destination"], ".destination": [".source"], ".flits": [".period"],
        ".period": [".deadline", ".weight", ".nodes"], ".deadline": [".period", ".jitter"], ".jitter": [".deadline"],
        ".count": [".first"], ".first": [".count"], ".shift": [".weight"], ".weight": [".shift"], ".nodes": [".period"],
        ".row": [".column"], ".column": [".row"], ".0": [".1"], ".1": [".0", ".2"], ".2": [".1"], ".3": [".1"],
    },
}
# Where a word that a mutant brings in comes from.
MODULES = {
    "Rattle.std.specs.Prelude": ["ltb", "leb", "◌+◌", "◌-◌", "◌/◌", "◌%◌", "◌<◌", "◌≤◌", "max", "true", "false", "◌&&◌", "◌||◌", "◌≡◌"],
    "Rattle.framing_numbers.specs.Numbers": ["one_at", "two_at"], "Rattle.framing.specs.BigEndian": ["two_bytes", "four_bytes"],
    "Rattle.framing_numbers.specs.declared.Width.TheVariants": ["Two", "Four"],
    "Rattle.framing.specs.declared.returned.Fault.TheVariants": FAULTS,
    "Rattle.plan_table.specs.declared.Kind.TheVariants": ["PlatformRecord", "FlowRecord", "EndRecord"],
    "Rattle.model.specs.declared.Method.TheVariants": ["SB", "XLWX", "IBN"],
}
SAME_EITHER_WAY = {"min", "eqb", "≡"}
LIMITS = {"ltb", "leb", "UpTo", "Within", "Outside", "<", "≤"}


@dataclass
class Token:
    """A word of the text with its place, or a group: the words between two brackets."""

    text: str
    start: int
    end: int
    inner: list = field(default_factory=list)

    @property
    def is_group(self):
        return self.text in ("()", "[]", "{}", PROJECTED) and bool(self.inner)

    @property
    def is_projected(self):
        return self.text == PROJECTED


@dataclass
class Equation:
    """A right side, or the type of a field or constructor: its words, and the parameters that it may name, by their types."""

    words: list
    parameters: dict


@dataclass
class Definition:
    file: str
    name: str
    equations: list
    by_cases: bool = True  # its parts are the cases of a function, and not fields or constructors


@dataclass(frozen=True)
class Mutant:
    crate: str
    file: str
    definition: str
    kind: str
    change: str
    text: str  # the whole file, changed

    @property
    def key(self):
        return (self.crate, "%s.%s" % (self.file, self.definition), self.change)


def tokens_of(text, start, end):
    """The words from start to end, without spaces and comments."""
    found, at = [], start
    while at < end:
        match = TOKEN.match(text, at, end)
        word = match.group()
        if not word.isspace() and not word.startswith("--"):
            found.append(Token(word, match.start(), match.end()))
        at = match.end()
    return found


def grouped(tokens):
    """The same with brackets as groups, and with what is projected as a group with its projections: `p.method`."""
    stack = [[]]
    opened = []
    for token in tokens:
        if token.text in OPENING:
            opened.append(token)
            stack.append([])
        elif token.text in CLOSING:
            if not opened:
                continue
            first, inner = opened.pop(), stack.pop()
            stack[-1].append(Token(first.text + token.text, first.start, token.end, inner))
        elif token.text.startswith(".") and stack[-1] and stack[-1][-1].end == token.start:
            whole = stack[-1].pop()
            parts = whole.inner if whole.is_projected else [whole]
            stack[-1].append(Token(PROJECTED, parts[0].start, token.end, [*parts, token]))
        else:
            stack[-1].append(token)
    return stack[0]


HEADER = re.compile(r"^( *)(?:(abbrev|unfoldable) pub (\S+) : (.*)|pub record (\S+).* where|pub data (\S+).* where|(?:use|module|infix\w*|pub mod|\S+ :)\b.*)$", re.M)


def definitions_of(file, text):
    """The definitions of one file, with their equations, fields or constructors."""
    heads = [m for m in HEADER.finditer(text) if not m.group().lstrip().startswith("--")]
    found = []
    for at, head in enumerate(heads):
        end = next((h.start() for h in heads[at + 1:] if len(h.group(1)) <= len(head.group(1))), len(text))
        indent = len(head.group(1))
        if head.group(2):
            equations = list(equations_of(text, head.end(), end, indent, types_of(head.group(4))))
            found.append(Definition(file, head.group(3), equations))
        elif head.group(5) or head.group(6):
            parameters = named_types(head.group())
            fields = [Equation(words, parameters) for words in fields_of(text, head.end(), end)]
            found.append(Definition(file, head.group(5) or head.group(6), fields, False))
    return found


def named_types(header):
    """The parameters of a record, by their types: `(a b : T)`."""
    return {name: kind.strip() for names, kind in re.findall(r"\(([^():]+) : ([^()]+|[^()]*\([^()]*\)[^()]*)\)", header) for name in names.split()}


def types_of(signature):
    """The types of a definition's arguments, in order."""
    parts, depth, now = [], 0, []
    for word in TOKEN.findall(signature):
        depth += (word in OPENING) - (word in CLOSING)
        if word == "→" and depth == 0:
            parts.append("".join(now).strip())
            now = []
        else:
            now.append(word)
    return [part for part in parts if not part.startswith("{")]


def logical_lines(text, start, end, indent):
    """(start, end) of each line at this depth with those that go on below it."""
    begins = [m.start() for m in re.finditer(r"^ {%d}(?![ \]]|--)\S" % indent, text, re.M) if start <= m.start() < end]
    return zip(begins, begins[1:] + [end])


def equations_of(text, start, end, indent, types):
    for first, last in logical_lines(text, start, end, indent):
        words = grouped(tokens_of(text, first, last))
        at = next((k for k, word in enumerate(words) if word.text == "="), None)
        if at is None:
            continue
        patterns = words[1:at]
        parameters = {}
        if len(patterns) == len(types):
            for pattern, kind in zip(patterns, types):
                if not pattern.is_group and NAME.fullmatch(pattern.text):
                    parameters[pattern.text] = kind
        yield Equation(words[at + 1:], parameters)


def fields_of(text, start, end):
    """The words behind the `:` of each field or constructor."""
    for match in re.finditer(r"^ +(?:pub )?[^\n:]*? : ([^\n]*)$", text[start:end], re.M):
        if not match.group().lstrip().startswith("--"):
            yield grouped(tokens_of(text, start + match.start(1), start + match.end(1)))


# ---- the rules: each gives (kind, [(start, end, new text), ..]) for one level of words


def number_changes(text, level):
    """A number one higher; one lower too where it is a limit. Of a list of plain numbers the first of each line."""
    plain = all(NUMBER.fullmatch(word.text) or word.text in ("∷", "[]") for word in level) and len(level) > 2
    for k, word in enumerate(level):
        if not NUMBER.fullmatch(word.text) or (plain and k and "\n" not in text[level[k - 2].end:word.start]):
            continue
        n = int(word.text.replace("_", ""), 0)
        write = (lambda v: "0x%02X" % v) if word.text.startswith("0x") else str
        yield "number", [(word.start, word.end, write(n + 1))]
        beside = {level[j].text for j in (k - 3, k - 2, k - 1, k + 1) if 0 <= j < len(level)}
        if n and beside & LIMITS:
            yield "number", [(word.start, word.end, write(n - 1))]


def word_changes(level):
    for word in level:
        for kind, words in WORDS.items():
            for other in words.get(word.text, []):
                yield kind, [(word.start, word.end, other)]


def operand_changes(level, parameters):
    """A parameter for the next one of its type."""
    for word, behind in zip(level, level[1:] + [None]):
        kind = parameters.get(word.text) if behind is None or behind.text != "=" else None
        alike = [name for name, other in parameters.items() if other == kind] if kind else []
        if len(alike) > 1:
            yield "operand", [(word.start, word.end, alike[(alike.index(word.text) + 1) % len(alike)])]


def swapped(text, a, b):
    """Two stretches of words, each for the other."""
    (s, e), (s2, e2) = (a[0].start, a[-1].end), (b[0].start, b[-1].end)
    return [(s, e, text[s2:e2]), (s2, e2, text[s:e])] if text[s:e] != text[s2:e2] else None


def split(level, stops):
    """The stretches of words between stops, with the stop behind each."""
    now, found = [], []
    for word in level:
        if word.text in stops or (word.text.endswith(".") and len(word.text) > 1):
            found.append((now, word.text))
            now = []
        else:
            now.append(word)
    return found + [(now, None)]


def argument_swaps(text, level, signatures):
    """Two neighbouring arguments of a call, if they are known to have one type or the types are not known."""
    for run, _ in split(level, OPERATORS):
        head, rest = run[:1], [w for w in run[1:] if not w.text.startswith(".")]
        if not head or head[0].text in SAME_EITHER_WAY or head[0].text.startswith("."):
            continue
        types = signatures.get(head[0].text, [])
        for k, (a, b) in enumerate(zip(rest, rest[1:])):
            if len(types) < k + 2 or types[k] == types[k + 1]:
                yield "arguments", swapped(text, [a], [b])


def operand_swaps(text, level):
    """The two sides of -, /, %, < and ≤; neighbours of ++ and of a list."""
    for part, _ in split(level, SEPARATORS):
        signs = [w.text for w in part if w.text in OPERATORS]
        if len(signs) == 1 and signs[0] in ("-", "/", "%", "<", "≤"):
            (a, _), (b, _) = split(part, set(signs))
            if a and b:
                yield "order", swapped(text, a, b)
        for sign in ("++", "∷"):
            if signs and set(signs) == {sign}:
                sides = [side for side, _ in split(part, {sign}) if side and not (len(side) == 1 and text[side[0].start:side[0].end] == "[]")]
                plain = sign == "∷" and all(len(side) == 1 and NUMBER.fullmatch(side[0].text) for side in sides)
                for a, b in list(zip(sides, sides[1:]))[:1 if plain else None]:
                    yield "order", swapped(text, a, b)


def chain_swaps(text, level):
    """Two neighbouring lines of a `when .. else` chain; the two values of the last."""
    pieces = [piece for piece, _ in split_at(level, "else")]
    if len(pieces) < 2:
        return
    lines = [p for p in pieces if any(w.text == "when" for w in p)]
    for a, b in zip(lines, lines[1:]):
        yield "order", swapped(text, a, b)
    value = split_at(lines[-1], "when")[0][0]
    if value and pieces[-1]:
        yield "order", swapped(text, value, pieces[-1])


def split_at(level, stop):
    now, found = [], []
    for word in level:
        if word.text == stop:
            found.append((now, stop))
            now = []
        else:
            now.append(word)
    return found + [(now, None)]


def left_out(text, level):
    """A conjunct or a disjunct left out."""
    for part, _ in split(level, SEPARATORS):
        signs = [w.text for w in part if w.text in ("&&", "||")]
        if len(set(signs)) != 1:
            continue
        sides = [side for side, _ in split(part, {"&&", "||"})]
        for k, side in enumerate(sides):
            rest = sides[:k] + sides[k + 1:]
            if all(rest) and side:
                kept = (" %s " % signs[0]).join(text[s[0].start:s[-1].end] for s in rest)
                yield "left out", [(part[0].start, part[-1].end, kept)]


def branch_swaps(text, level):
    """The values of the two cases of an `elim`; the values of two neighbouring fields of a record."""
    arrows = [k for k, w in enumerate(level) if w.text == "↦"]
    if len(arrows) == 2:
        bar = next(k for k in range(arrows[0], len(level)) if level[k].text == "|")
        yield "order", swapped(text, level[arrows[0] + 1:bar], level[arrows[1] + 1:])
    fields = [p for p, stop in split_at(level, ";") if p and any(w.text == "=" for w in p)]
    values = [split_at(p, "=")[1][0] for p in fields if len(split_at(p, "=")) == 2]
    for a, b in zip(values, values[1:]):
        if a and b:
            yield "order", swapped(text, a, b)


def levels_of(words):
    """The words at each depth of brackets."""
    yield words
    for word in words:
        if word.is_group:
            yield from levels_of(word.inner)


def changes_of(text, definition, signatures):
    """All changes of a definition, as (kind, replacements)."""
    for equation in definition.equations:
        for level in levels_of(equation.words):
            yield from number_changes(text, level)
            yield from word_changes(level)
            yield from operand_changes(level, equation.parameters)
            yield from argument_swaps(text, level, signatures)
            yield from operand_swaps(text, level)
            yield from chain_swaps(text, level)
            yield from left_out(text, level)
            yield from branch_swaps(text, level)
    for a, b in zip(definition.equations, definition.equations[1:]):
        if definition.by_cases and a.words and b.words:
            yield "order", swapped(text, a.words, b.words)


def applied(text, replacements):
    for start, end, new in sorted(replacements, reverse=True):
        text = text[:start] + new + text[end:]
    return text


def plain_text(text):
    return " ".join(re.sub(r"--[^\n]*", "", text).split())


def said(text, kind, replacements):
    """The change in a few words."""
    if len(replacements) == 2:
        return "`%s` ↔ `%s`" % tuple(plain_text(text[start:end]) for start, end, _ in replacements)
    start, end, new = replacements[0]
    if kind == "left out":
        return "`%s` → `%s`" % (plain_text(text[start:end]), plain_text(new))
    line = text.rfind("\n", 0, start) + 1
    before = tokens_of(text, line, start)
    behind = tokens_of(text, end, text.find("\n", end))
    left = before[-1].start if before else start
    right = behind[0].end if behind else end
    return "`%s` → `%s`" % (plain_text(text[left:right]), plain_text(text[left:start] + new + text[end:right]))


def spread(alike, most):
    """The same, those first of which there are so many, evenly spread over all."""
    step = -(-len(alike) // most)
    return alike[::step] + [one for k, one in enumerate(alike) if k % step]


def signatures_of(texts):
    """The types of the arguments of every definition and record."""
    found = {"ltb": ["ℕ", "ℕ"], "leb": ["ℕ", "ℕ"], "take": ["ℕ", "list"], "drop": ["ℕ", "list"], "replicate": ["ℕ", "one"],
             "get_or": ["list", "ℕ", "one"], "cond": ["Bool", "one", "one"], "map": ["function", "list"]}
    for text in texts:
        for name, signature in re.findall(r"^ *(?:abbrev|unfoldable) pub (\S+) : (.*)$", text, re.M):
            found[name] = types_of(signature)
        for header in re.findall(r"^pub record (.*) where$", text, re.M):
            found[header.split()[0]] = list(named_types(header).values())
    return found


def imported(text, new):
    """The file with what a change brings in imported, if it is not yet."""
    names = {w for w in TOKEN.findall(new)}
    lines = []
    for module, brought in MODULES.items():
        for name in brought:
            if name.strip("◌") in names and not re.search(r"^use [^\n]*[{ ]%s[,}]" % re.escape(name), text, re.M):
                lines.append("use %s.{%s}\n" % (module, name))
    return "".join(lines) + text


def distinct(text, changes):
    """The changes that change something, each once, as (kind, what it says, the text with it, what it brings in)."""
    seen, counts = {text}, {}
    for kind, replacements in changes:
        if replacements and (changed := applied(text, replacements)) not in seen:
            seen.add(changed)
            change = said(text, kind, sorted(replacements))
            counts[change] = counts.get(change, 0) + 1
            yield kind, change + (" (%d)" % counts[change] if counts[change] > 1 else ""), changed, " ".join(new for _, _, new in replacements)


def mutants_of(crate, files, signatures):
    """The mutants of a crate, in a list for each definition and kind: files is {name: text} of its specs/."""
    for file, text in files.items():
        for definition in definitions_of(file, text):
            named = "%s.%s" % (file, definition.name)
            if named not in OF_CRATE.get(crate, [named]):
                continue
            by_kind = {}
            for kind, change, changed, brought in distinct(text, changes_of(text, definition, signatures)):
                by_kind.setdefault(kind, []).append(Mutant(crate, file, definition.name, kind, change, imported(changed, brought)))
            yield from by_kind.values()


def all_mutants(root, crates):
    """Those of these crates."""
    signatures = signatures_of(path.read_text() for path in sorted((root / "crates").glob("*/specs/*.antt")))
    for crate in crates:
        files = {path.stem: path.read_text() for path in sorted((root / "crates" / crate / "specs").glob("*.antt"))}
        yield from mutants_of(crate, files, signatures)
