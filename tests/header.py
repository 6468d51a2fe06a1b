#!/usr/bin/env python3
"""Holds what callers and fitters read of the formats to the crates: to the reader's table, crates/plan_table/src/lib.rt, to the
faults and their numbers, crates/framing/src/returned.rt, and to the reply's record.

The header's macros, its refusals and its pictures of plan and reply; docs/FORMAT.md's tables; the sizes of examples/lingfallow.rs; the
lengths of plans/bytes; what the texts say of the methods, the house default and the conversion. The header's version is CHANGELOG.md's last, and its
stacks are those that tests/memory.c allows. Then faults are planted in copies, and each must be found.
"""
import collections
import pathlib
import re
import sys

ROOT = pathlib.Path(__file__).resolve().parent.parent
TABLE, LISTED = "crates/plan_table/src/lib.rt", "crates/plan_table/specs/Refusals.antt"
FAULTS, NUMBERED = "crates/framing/src/returned.rt", "crates/framing/specs/Returned.antt"
CHECKS, PROGRAM, REPLY = "crates/plan_checks/src/lib.rt", "crates/bounds/src/main.rt", "crates/reply/specs/Reply.antt"
DEFAULT, LATENCY, CONVERTER = "crates/engine_costs/src/method.rt", "crates/model/specs/Latency.antt", "crates/converter/src/lib.rt"
METHODS = "crates/model/src/lib.rt"
HEADER, FORMAT, RUST, BYTES, CHANGES = "include/lingfallow.h", "docs/FORMAT.md", "examples/lingfallow.rs", "plans/bytes", "CHANGELOG.md"
PRINTED, MEMORY = "docs/BOUNDS.md", "tests/memory.c"
FILES = (TABLE, LISTED, FAULTS, NUMBERED, CHECKS, PROGRAM, REPLY, METHODS, DEFAULT, LATENCY, CONVERTER, HEADER, FORMAT, RUST, BYTES, CHANGES, PRINTED, MEMORY)
WIDTHS = {"One": 1, "Two": 2, "Four": 4}

# `only_if`: the length that a record with this field has, where it may have another.
Field = collections.namedtuple("Field", "record offset width name least limit most refusal only_if")
ARM = re.compile(r"^ *Kind::(\w+)Record => (\w+)(?:\(told\))?,$", re.M)
EITHER = r"fn {}\(told: u16\) -> u16\n.*\n{{\n    if told == (\d+) {{\n        return (\d+);\n    }}\n    (\d+)\n}}"
LINES = r"^const {}_FIELDS: \[Field; \d+\] = \[\n((?:    .*\n)+)\];$"
LINE = re.compile(r"Field\(\s*Width::(\w+),\s+(\d+),\s+Limit::(\w+)(?:\(([\w:]+)\))?,\s+Fault::(\w+),?\s*\),(?: // (.+))?$", re.M)
FULL = "matches!(kind, Kind::FlowRecord) && {} <= count"


def number(digits):
    return int(digits.replace("_", "").replace(",", ""))


def only(pattern, text):
    found = re.findall(pattern, text, re.M)
    if len(found) != 1:
        raise LookupError(f"{pattern} stands {len(found)} times")
    return found[0]


# ---- the reader's table

def either_of(table, function):
    """The two lengths, the shorter first, of a function that gives the second where a record tells it, and else the first."""
    told, given, other = map(int, only(EITHER.format(function), table))
    if told != given or other >= told:
        raise LookupError(f"{function} gives {given} for {told}, and else {other}")
    return other, told


def lengths(table):
    """The lengths that each record may have: a number, or a function of the one it tells."""
    body = table[table.index("fn body_length"):table.index("const PLATFORM_FIELDS")]
    found = {kind: (int(length),) if length.isdigit() else either_of(table, length) for kind, length in ARM.findall(body)}
    if found.keys() != tags(table).keys():
        raise LookupError(f"{TABLE} has the lengths of {sorted(found)}")
    return found


def said(values):
    return " or ".join(map(str, values))


def tags(table):
    return {kind: int(tag, 16) for tag, kind in re.findall(r"(0x\w\w) => Some\(Kind::(\w+)Record\)", table)}


def numbers_of(texts):
    """The number of each fault, by the enum, which must be the definition's."""
    numbers = {name: int(n) for name, n in re.findall(r"^    (\w+) = (\d+),$", texts[FAULTS], re.M)}
    defined = {name: int(n) for name, n in re.findall(r"^number_of (\w+) = (\d+)(?: |$)", texts[NUMBERED], re.M)}
    if numbers != defined or not numbers:
        raise LookupError(f"{FAULTS} has the numbers {numbers}, and {NUMBERED} has {defined}")
    return numbers


def words(name):
    """A fault's name as words, for a field that is named by it."""
    return re.sub(r"(?<!^)(?=[A-Z])", " ", name).lower()


def fields_of_record(texts, kind):
    """The lines of a record's table, which its longest record has, with the offset of each."""
    numbers, found, offset = numbers_of(texts), [], 3
    shortest, *longer = lengths(texts[TABLE])[kind]
    lines = only(LINES.format(kind.upper()), texts[TABLE])
    for width, least, limit, most, fault, name in LINE.findall(lines):
        only_if = longer[-1] if offset >= 3 + shortest else None
        most = numbers[most.split("::")[1]] if "::" in most else number(most or "0")
        found.append(Field(kind, offset, WIDTHS[width], name or words(fault), int(least), limit, most, numbers[fault], only_if))
        offset += WIDTHS[width]
    if offset != 3 + (longer[-1] if longer else shortest) or len(found) != lines.count("Field("):
        raise LookupError(f"the fields of {TABLE} do not fill its {kind.lower()} record")
    return found


def fields(texts):
    """The platform's fields, and then a flow's; which table is whose."""
    if re.findall(r"Kind::(\w+)Record => &(\w+)_FIELDS(?:\[\.\.usize::from\((\w+)\(told\)\)\])?,$", texts[TABLE], re.M) != [
            ("Platform", "PLATFORM", "six_or_seven"), ("Flow", "FLOW", "")]:
        raise LookupError(f"{TABLE}: fields_of lends other tables")
    return [field for kind in ("Platform", "Flow") for field in fields_of_record(texts, kind)]


def allowed(field):
    if field.limit == "BelowNodes":
        return "below columns x rows"
    return f"{field.least}..{'period' if field.limit == 'UpToPeriod' else field.most}"


def refusals_of(field):
    """A field's own numbers with the macros' ends."""
    end = field.name.upper().replace(" ", "_")
    if field.limit == "UpToPeriod":
        return {f"{end}_ZERO": field.refusal, f"{end}_ABOVE_PERIOD": field.most}
    return {end: field.refusal}


def listed(texts):
    """Every refusal's number with its offset in its record, by the definition without the reader; 6 and 11 are the plan's and the buffer's."""
    pairs = {(int(n), int(offset)) for n, offset in re.findall(r"^ *(?:\w+ = )?\((\d+), (\d+)\) ∷", texts[LISTED], re.M)}
    return pairs | {(6, 0), (11, None)}


def reply_rows(texts):
    """(offset, width, name) of the reply's fields, by the sentence of document 01 that its definition quotes."""
    quoted = only(r'^-- "For each flow \.\.: tag 81, length 13, (.*)\."$', texts[REPLY])
    rows, offset = [], 3
    for name, width in re.findall(r"([a-z ]+) \((\d)\)", quoted):
        rows.append((offset, int(width), name.strip()))
        offset += int(width)
    return rows


# ---- what is held to it

def faults_of_macros(texts):
    """The limits: a LEAST where it is not 0, a MOST where it is a number, and no others."""
    expected = {"MOST_FLOWS": int(only(re.escape(FULL).replace(r"\{\}", r"(\d+)"), texts[CHECKS]))}
    for field in fields(texts):
        name = field.name.upper().replace(" ", "_")
        if field.least > 0:
            expected[f"LEAST_{name}"] = field.least
        if field.limit == "UpTo":
            expected[f"MOST_{name}"] = field.most
    found = {name: int(value) for name, value in re.findall(r"#define LINGFALLOW_((?:LEAST|MOST)_\w+) (\d+)", texts[HEADER])}
    return [f"{HEADER}: {name} is {found.get(name)}, not {expected.get(name)}"
            for name in sorted(expected.keys() | found.keys()) if found.get(name) != expected.get(name)]


def faults_of_refusals(texts):
    """The enum has the numbers that are listed, and each field's under the field's name."""
    found = {name: int(value) for name, value in re.findall(r"LINGFALLOW_REFUSED_(\w+) = (\d+)", texts[HEADER])}
    faults = [f"{HEADER}: REFUSED_{name} is {found.get(name)}, not {value}"
              for field in fields(texts) for name, value in refusals_of(field).items() if found.get(name) != value]
    if sorted(found.values()) != sorted(n for n, _ in listed(texts)):
        faults.append(f"{HEADER}: the refusals are {sorted(found.values())}")
    if sorted(numbers_of(texts).values()) != sorted(n for n, _ in listed(texts)):
        faults.append(f"{FAULTS}: the refusals are {sorted(numbers_of(texts).values())}")
    return faults


def picture_rows(texts):
    """(record, offset, size, words) of the header's picture of a plan, whose two halves stand side by side."""
    lines = texts[HEADER].split("\n")
    head = next(k for k, line in enumerate(lines) if line.count("offset  size  meaning") == 2)
    middle = lines[head].rindex("offset")
    for line in lines[head + 1:]:
        if line.strip() == "*":
            return
        for record, half in (("Platform", line[2:middle]), ("Flow", line[middle:])):
            row = re.fullmatch(r" *(\d+) +(\d+)  (.*?) *", half)
            if row:
                yield record, int(row[1]), int(row[2]), row[3]


def faults_of_picture(texts):
    rows = list(picture_rows(texts))
    expected = [(f.record, f.offset, f.width, f.name + (f", if the length is {f.only_if}" if f.only_if else "")) for f in fields(texts)]
    for record, all_lengths in lengths(texts[TABLE]).items():
        if record != "End":
            expected += [(record, 0, 1, f"tag: {tags(texts[TABLE])[record]:02X} hex"), (record, 1, 2, f"length of what follows: {said(all_lengths)}")]
    faults = [f"{HEADER}: no row of the plan says {place}" for place in expected
              if not any(row[:3] == place[:3] and re.match(rf"{place[3]}($|[,:; ](?! *(or|if) ))", row[3]) for row in rows)]
    return faults + ([f"{HEADER}: the plan has {len(rows)} rows"] if len(rows) != len(expected) else [])


def faults_of_format(texts):
    """Each field's row, the lengths', and each refusal's: its offset, and of a field its name and the first value above."""
    faults = []
    plain = re.sub(r"(?<=\d),(?=\d)", "", texts[FORMAT])
    rows = [[cell.strip() for cell in line.strip("|").split("|")] for line in plain.split("\n") if line.startswith("| ")]
    for field in fields(texts):
        words = [str(field.offset), str(field.width), field.name]
        numbers = set(refusals_of(field).values())
        only_if = f"only if the length is {field.only_if}" if field.only_if else ""
        if not any(row[:3] == words and re.match(rf"{allowed(field)}(,|$)", row[3]) and numbers <= set(map(number, row[4].split(", ")))
                   and (row[3].endswith(f", {only_if}") if only_if else "only if" not in row[3])
                   for row in rows if len(row) == 5 and row[4][0].isdigit()):
            faults.append(f"{FORMAT}: no row has {words}, {allowed(field)} and {numbers}")
        faults += [f"{FORMAT}: refusal {n} does not say {field.name} and its limit" for n in numbers
                   if not any(row[0] == str(n) and row[1].startswith(field.name) and says_limit(field, row[1]) for row in rows if len(row) == 4)]
    for kind, all_lengths in lengths(texts[TABLE]).items():
        if kind != "End" and ["1", "2", "length", said(all_lengths), "3"] not in rows:
            faults.append(f"{FORMAT}: no row has the length {said(all_lengths)}")
    found = {(int(row[0]), int(row[3]) if row[3] else None) for row in rows if len(row) == 4 and row[0].isdigit() and row[2] and not row[1].isdigit()}
    return faults + ([f"{FORMAT}: the refusals' offsets differ in {sorted(n for n, _ in found ^ listed(texts))}"] if found != listed(texts) else [])


def says_limit(field, words):
    """What is above the limit: nothing if all the width's values are allowed, one value, or more."""
    if field.limit != "UpTo":
        return True
    above = 256 ** field.width - 1 - field.most
    return above == 0 or (f" {field.most + 1}," in words if above == 1 else f"above {field.most}" in words)


def faults_of_reply(texts):
    section = texts[FORMAT].split("## The reply")[1].split("## Refusals")[0]
    faults = []
    for offset, width, name in reply_rows(texts):
        if not re.search(rf"^ \* +{offset} +{width}  {name}(:| of)", texts[HEADER], re.M):
            faults.append(f"{HEADER}: the reply has no {name} of {width} bytes at {offset}")
        if f"| {offset} | {width} | {name} |" not in section:
            faults.append(f"{FORMAT}: the reply has no {name} of {width} bytes at {offset}")
    return faults


def sizes(texts):
    offset, width, _ = reply_rows(texts)[-1]
    record = offset + width
    flows = int(only(re.escape(FULL).replace(r"\{\}", r"(\d+)"), texts[CHECKS]))
    longest = {kind: 3 + all_lengths[-1] for kind, all_lengths in lengths(texts[TABLE]).items()}
    plan = longest["Platform"] + flows * longest["Flow"] + longest["End"]
    return {"MOST_FLOWS": flows, "LONGEST_PLAN": plan, "LONGEST_REPLY": record * flows + 3, "FLOW_RECORD": record,
            "DECIDING_BYTES": int(only(r"let mut plan = \[0u8; (\d+)\]", texts[PROGRAM]))}


def faults_of_sizes(texts):
    faults = []
    for name, size in sizes(texts).items():
        found = int(only(rf"#define LINGFALLOW_{name} (\d+)", texts[HEADER])), int(only(rf"pub const {name}: usize = (\d+);", texts[RUST]))
        faults += [f"{HEADER} and {RUST}: {name} is {found}, not {size}"] if found != (size, size) else []
    for name in ("LONGEST_PLAN", "LONGEST_REPLY"):
        faults += [] if f"at most {sizes(texts)[name]:,}" in texts[FORMAT] else [f"{FORMAT}: no {name}"]
    found = {int(tag, 16): tuple(map(int, re.findall(r"\d+", all_lengths)))
             for tag, all_lengths in re.findall(r'(0x\w\w): \("\w+", \(([\d, ]+)\)\)', texts[BYTES])}
    expected = {tags(texts[TABLE])[kind]: all_lengths for kind, all_lengths in lengths(texts[TABLE]).items()}
    return faults + ([f"{BYTES}: the records are {found}"] if found != expected else [])


def one_line(text):
    """Without line ends, and without the stars of a comment's lines."""
    return re.sub(r"\s*\n(?: \*)?\s*", " ", text)


def faults_of_absent(texts, sentences):
    return [f"{path}: does not say {sentence!r}" for path, sentence in sentences if sentence not in one_line(texts[path])]


def methods(texts):
    """The number of each method and the house default, by the code, both ways, which must be the definition's."""
    enum = only(r"^pub enum Method {\n((?:    .*\n)+)}$", texts[METHODS])
    given = {name: int(digit) for name, digit in re.findall(r"(\w+) = (\d),", enum)}
    numbers = {name: int(digit) for digit, name in re.findall(r"(\d) => Ok\(Method::(\w+)\),", texts[METHODS])}
    default = only(r"fn house_default\(\) -> Method\n.*\n{\n    Method::(\w+)\n}", texts[DEFAULT])
    defined = {name: int(digit) for name, digit in re.findall(r"^method_number (\w+) = (\d)$", texts[LATENCY], re.M)}
    if not numbers == given == defined or default != only(r"^house_default = (\w+)$", texts[LATENCY]):
        raise LookupError(f"{METHODS} has {given} and {numbers}, {DEFAULT} by default {default}, and {LATENCY} has not")
    return numbers, default


def faults_of_methods(texts):
    numbers, default = methods(texts)
    found = {name: int(digit) for name, digit in re.findall(r"#define LINGFALLOW_METHOD_(\w+) (\d+)", texts[HEADER])}
    meaning = f"0 asks for the house default, which is {default}: the reply is that of method {numbers[default]}, and"
    listed_methods = ", ".join(f"{number} is {name}" for name, number in numbers.items())
    faults = [] if found == {"DEFAULT": 0, **numbers} else [f"{HEADER}: the methods are {found}"]
    return faults + faults_of_absent(texts, [
        (HEADER, f"{meaning} a plan keeps its 0"), (FORMAT, f"Method {listed_methods}. {meaning} `bounds` prints `method {numbers[default]}`."),
        (PRINTED, f"the method really used ({numbers[default]} where the plan has 0)")])


def faults_of_conversion(texts):
    """The byte that is rewritten is the table's method, and both texts say which, from what and to what; what it was is the method of that number."""
    place = int(only(r"^const METHOD: usize = (\d+);$", texts[CONVERTER]))
    old, new = map(int, only(r"if plan\[METHOD\] == (\d+) {\n *plan\[METHOD\] = (\d+);\n", texts[CONVERTER]))
    offset = next(field.offset for field in fields(texts) if field.name == "method")
    before = next((name for name, number in methods(texts)[0].items() if number == new), None)
    faults = [] if place == offset else [f"{CONVERTER}: writes at {place}, and the method is at {offset}"]
    return faults + faults_of_absent(texts, [
        (HEADER, f"it was {before}, the reply that of method {new}: lingfallow_convert"),
        (HEADER, f"method {old}, which was {before} then, becomes {new}, which is {before} still"),
        (HEADER, f"If the byte at offset {offset}, the method, was {old}, it is {new} now"),
        (FORMAT, f"it was {before} ("),
        (FORMAT, f"writes {new} over a method of {old}: the byte at offset {offset},"),
        (FORMAT, f"{new} is {before} in every version")])


def faults_of_stack(texts):
    told = re.findall(r"under (\d+) KiB of stack", one_line(texts[HEADER]))
    limits = re.findall(r"\w+_STACK = (\d+) \* 1024", texts[MEMORY])
    return [] if told == limits and len(told) == 3 else [f"{HEADER}: stacks under {told} KiB, and {MEMORY} has {limits}"]


def faults_of_version(texts):
    parts = [only(rf"#define LINGFALLOW_VERSION_{part} (\d+)", texts[HEADER]) for part in ("MAJOR", "MINOR", "PATCH")]
    last = re.search(r"^## ([\d.]+) ", texts[CHANGES], re.M)[1]
    return [] if ".".join(parts) == last else [f"{HEADER}: version {'.'.join(parts)}, and {CHANGES} has {last}"]


def faults_of(texts):
    checks = (faults_of_macros, faults_of_refusals, faults_of_picture, faults_of_format, faults_of_reply, faults_of_sizes, faults_of_methods,
              faults_of_conversion, faults_of_stack, faults_of_version)
    try:
        return [fault for check in checks for fault in check(texts)]
    except LookupError as error:
        return [str(error)]


# ---- faults that must be found: file, what stands there, what is planted

PLANTED = [
    (TABLE, "Limit::UpTo(16), Fault::LinkCycles", "Limit::UpTo(32), Fault::LinkCycles"),
    (TABLE, "1, Limit::UpTo(65535), Fault::Flits", "0, Limit::UpTo(65535), Fault::Flits"),
    (TABLE, "Width::Two, 1, Limit::UpTo(65535), Fault::Flits", "Width::Four, 1, Limit::UpTo(65535), Fault::Flits"),
    (TABLE, "Limit::UpToPeriod(Fault::DeadlineAbovePeriod),\n        Fault::DeadlineZero", "Limit::UpToPeriod(Fault::DeadlineZero),\n        Fault::DeadlineAbovePeriod"),
    (TABLE, "Kind::PlatformRecord => six_or_seven(told),\n        Kind::FlowRecord => 20", "Kind::PlatformRecord => 7,\n        Kind::FlowRecord => 20"),
    (TABLE, "Kind::PlatformRecord => six_or_seven(told),\n        Kind::FlowRecord => 20", "Kind::PlatformRecord => 6,\n        Kind::FlowRecord => 20"),
    (TABLE, "        Kind::FlowRecord => 20,", "        Kind::FlowRecord => six_or_seven(told),"),
    (TABLE, "told == 7 {\n        return 7", "told == 8 {\n        return 8"),
    (TABLE, "told == 7 {\n        return 7", "told == 8 {\n        return 7"),
    (TABLE, "    }\n    6\n}", "    }\n    5\n}"),
    (TABLE, "Limit::UpTo(8), Fault::PriorityFlits", "Limit::UpTo(9), Fault::PriorityFlits"),
    (TABLE, "1, Limit::UpTo(8), Fault::PriorityFlits", "0, Limit::UpTo(8), Fault::PriorityFlits"),
    (TABLE, "Limit::UpTo(16), Fault::RoutingCycles", "Limit::UpTo(16), Fault::LinkCycles"),
    (TABLE, "=> &FLOW_FIELDS", "=> &PLATFORM_FIELDS"),
    (TABLE, "&PLATFORM_FIELDS[..usize::from(six_or_seven(told))]", "&PLATFORM_FIELDS"),
    (FAULTS, "    Source = 32,", "    Source = 39,"),
    (NUMBERED, "number_of Source = 32", "number_of Source = 39"),
    (CHECKS, FULL.format(64), FULL.format(65)),
    (PROGRAM, "[0u8; 2048]", "[0u8; 1024]"),
    (HEADER, "MOST_LINK_CYCLES 16", "MOST_LINK_CYCLES 32"),
    (HEADER, "#define LINGFALLOW_LEAST_FLITS 1\n", ""),
    (HEADER, "#define LINGFALLOW_MOST_ID 65534", "#define LINGFALLOW_LEAST_ID 1\n#define LINGFALLOW_MOST_ID 65534"),
    (HEADER, "MOST_PRIORITY_FLITS 8", "MOST_PRIORITY_FLITS 9"),
    (HEADER, "#define LINGFALLOW_LEAST_PRIORITY_FLITS 1\n", ""),
    (HEADER, "REFUSED_PRIORITY_FLITS = 26", "REFUSED_PRIORITY_FLITS = 27"),
    (HEADER, "REFUSED_SOURCE = 32", "REFUSED_SOURCE = 33"),
    (HEADER, "REFUSED_AFTER_END = 10", "REFUSED_AFTER_END = 5"),
    (HEADER, "9     2  flits", "9     1  flits"),
    (HEADER, "11     4  period", "10     4  period"),
    (HEADER, "length of what follows: 6 or 7", "length of what follows: 6     "),
    (HEADER, "length of what follows: 6 or 7", "length of what follows: 7     "),
    (HEADER, "length of what follows: 20", "length of what follows: 20 or 21"),
    (HEADER, "9     1  priority flits", "8     1  priority flits"),
    (HEADER, "priority flits, if the length is 7", "priority flits, if the length is 6"),
    (HEADER, "priority flits, if the length is 7", "priority flits                    "),
    (HEADER, "buffer flits                    ", "buffer flits, if the length is 7"),
    (HEADER, "1     2  length of what follows: 20", "1     2  length of what follows: 23"),
    (HEADER, "8     4  bound:", "8     2  bound:"),
    (HEADER, "LONGEST_PLAN 1485", "LONGEST_PLAN 1484"),
    (HEADER, "LONGEST_REPLY 1027", "LONGEST_REPLY 1024"),
    (HEADER, "VERSION_MINOR 8", "VERSION_MINOR 7"),
    (FORMAT, "| link cycles | 1..16 |", "| link cycles | 1..32 |"),
    (FORMAT, "link cycles 0 or above 16", "link cycles 0 or above 32"),
    (FORMAT, "| 15 | 4 | deadline | 1..period | 36, 38 |", "| 15 | 4 | deadline | 1..period | 36, 37 |"),
    (FORMAT, "| length | 6 or 7 |", "| length | 6 |"),
    (FORMAT, "| length | 20 |", "| length | 23 |"),
    (FORMAT, "| 1..8, only if the length is 7 |", "| 0..8, only if the length is 7 |"),
    (FORMAT, "| 1..8, only if the length is 7 |", "| 1..8, only if the length is 6 |"),
    (FORMAT, "| 1..8, only if the length is 7 |", "| 1..8 |"),
    (FORMAT, "| buffer flits | 1..64 |", "| buffer flits | 1..64, only if the length is 7 |"),
    (FORMAT, "priority flits 0 or above 8", "priority flits 0 or above 9"),
    (FORMAT, "| the priority flits | 9 |", "| the priority flits | 10 |"),
    (FORMAT, "| 11 | 4 | period |", "| 12 | 4 | period |"),
    (FORMAT, "| the length | 1 |", "| the length | 0 |"),
    (FORMAT, "| the priority | 5 |\n| 9 |", "| the priority | 6 |\n| 9 |"),
    (FORMAT, "| 12 | 4 | rounds |", "| 11 | 4 | rounds |"),
    (FORMAT, "at most 1,485", "at most 1,484"),
    (RUST, "LONGEST_PLAN: usize = 1485", "LONGEST_PLAN: usize = 1484"),
    (RUST, "LONGEST_REPLY: usize = 1027", "LONGEST_REPLY: usize = 1024"),
    (BYTES, '("flow", (20,))', '("flow", (23,))'),
    (BYTES, '("platform", (6, 7))', '("platform", (6,))'),
    (BYTES, '("platform", (6, 7))', '("platform", (6, 7, 8))'),
    (CHANGES, "## 0.8.0 ", "## 0.9.0 "),
    (DEFAULT, "    Method::IBN\n}", "    Method::XLWX\n}"),
    (METHODS, "1 => Ok(Method::SB)", "1 => Ok(Method::XLWX)"),
    (METHODS, "    IBN = 3,", "    IBN = 4,"),
    (LATENCY, "house_default = IBN", "house_default = XLWX"),
    (LATENCY, "method_number IBN = 3", "method_number IBN = 2"),
    (HEADER, "METHOD_XLWX 2", "METHOD_XLWX 1"),
    (HEADER, "METHOD_DEFAULT 0", "METHOD_DEFAULT 3"),
    (HEADER, "the house default, which is IBN", "the house default, which is XLWX"),
    (HEADER, "the reply is that of method 3", "the reply is that of method 2"),
    (FORMAT, "Method 1 is SB, 2 is XLWX", "Method 1 is XLWX, 2 is SB"),
    (FORMAT, "the house default, which is IBN", "the house default, which is XLWX"),
    (FORMAT, "`bounds` prints `method 3`", "`bounds` prints `method 2`"),
    (PRINTED, "(3 where the plan has 0)", "(2 where the plan has 0)"),
    (CONVERTER, "plan[METHOD] = 2", "plan[METHOD] = 1"),
    (CONVERTER, "METHOD: usize = 8", "METHOD: usize = 9"),
    (CONVERTER, "plan[METHOD] == 0", "plan[METHOD] == 1"),
    (HEADER, "it was XLWX, the reply that of method 2", "it was SB, the reply that of method 2"),
    (HEADER, "becomes 2, which is XLWX", "becomes 2, which is SB"),
    (HEADER, "byte at offset 8, the method", "byte at offset 9, the method"),
    (HEADER, "was 0, it is 2 now", "was 0, it is 3 now"),
    (FORMAT, "writes 2 over a method of 0: the byte at offset 8", "writes 2 over a method of 0: the byte at offset 5"),
    (FORMAT, "2 is XLWX in every version", "2 is IBN in every version"),
    (HEADER, "1 KiB of stack", "2 KiB of stack"),
    (MEMORY, "CONVERT_STACK = 1 * 1024", "CONVERT_STACK = 2 * 1024"),
]


def is_found(texts, path, old, new):
    if old not in texts[path]:
        sys.exit(f"header: {path} has no {old!r}")
    return bool(faults_of({**texts, path: texts[path].replace(old, new, 1)}))


def main():
    texts = {path: (ROOT / path).read_text() for path in FILES}
    faults = faults_of(texts) or [f"{new!r} in {path} is not found" for path, old, new in PLANTED if not is_found(texts, path, old, new)]
    for fault in faults:
        print(f"header: {fault}", file=sys.stderr)
    if faults:
        sys.exit(1)
    print(f"header: {len(fields(texts))} fields and {len(listed(texts))} refusals as the reader has them; {len(PLANTED)} planted faults found")


if __name__ == "__main__":
    main()
