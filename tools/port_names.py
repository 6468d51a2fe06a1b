#!/usr/bin/env python3
"""Brings this repository's own definitions and lemmas to today's spelling: words in snake case, types and modules as they are.

Run once, at the top, behind the kit's port.py. It renames what stands in specs/ and proofs/ (not the library's names, nor those
that Rattle makes in proofs/F/Proof.antt) and what cites it in clauses. With --list it prints each name, old and new, and changes nothing.
"""

import os
import re
import sys

TOKEN = re.compile(r"[^\s(){}\[\];,.\"`]+")
DASHED = re.compile(r"\w-\w")
CAMEL = re.compile(r"^[a-z][a-z0-9]*[A-Z]")
USE = re.compile(r"^(?:ghost )?use ([^\s{]+)\.\{(.*?)\}", re.M | re.S)

# A lemma that would get its function's name, and a word that would get a constructor's: which other name it gets.
APART = {
    "comes-to": "comes_to_lem",
    "digits-below": "digits_below_lem",
    "flow-values": "flow_values_lem",
    "platform-values": "platform_values_lem",
    "is-bounded": "is_bounded_lem",
    "is-platform": "platform_is",
    "mesh-line": "mesh_line_lem",
    "record-bytes": "record_bytes_lem",
    "refusals-of": "refusals_of_lem",
    "reply-bytes": "reply_bytes_lem",
    "tag-byte": "tag_byte_lem",
    "with-seventh": "with_seventh_lem",
    "flows-of-p": "flows_of_p_lem",
    "lines-of": "lines_of_lem",
    "flow-fields": "flow_lines",
    "platform-fields": "platform_lines",
    "headerCut": "is_header_cut",
    "bodyCut": "is_body_cut",
    "wrongLength": "is_wrong_length",
}
# The same where port.py had turned a dash already, or took a name for the library's: by file, and not behind a dot.
ANSWERS = {"answer_at": "answers_at"}
BYTES = {"four_bytes": "four_bytes_lem", "two_bytes": "two_bytes_lem"}
APART_IN = {
    "framing/proofs/BigEndian.antt": BYTES,
    "analyser/proofs/Bytes.antt": BYTES,
    "model/proofs/FlowLines.antt": ANSWERS,
    "lines/proofs/Theorems.antt": ANSWERS,
    "analyser/proofs/Deciding.antt": ANSWERS,
    "analyser/proofs/Demands.antt": ANSWERS,
    "framing_reader/proofs/Travels.antt": {"reader_at": "start"},
    "model/proofs/SameAnswers.antt": {"map-map": "map_map"},
    "model/proofs/PaperSets.antt": {"some_of": "some_of_lem"},
    "plan/proofs/RuledFrame.antt": {"no_room": "no_room_lem"},
}


def files(crates):
    for folder, dirs, names in os.walk(crates):
        dirs[:] = sorted(d for d in dirs if d != "out")
        for name in sorted(names):
            if name.endswith((".antt", ".rt")):
                yield os.path.join(folder, name)


def respelled(word):
    if word in APART:
        return APART[word]
    word = word.replace("-", "_")
    if CAMEL.match(word):
        word = re.sub(r"(?<=[a-z0-9])([A-Z])", lambda m: "_" + m.group(1).lower(), word)
    return word


def is_old(word):
    return bool(DASHED.search(word) or CAMEL.match(word))


def items(text, crates, mine):
    """The names that a file takes by use lines from this repository's specs/ and lemma files, or from elsewhere."""
    found = set()
    for m in USE.finditer(text):
        path = m.group(1).split(".")
        own = path[0] == "Rattle" and path[1] in crates
        made = own and path[2] == "proofs" and len(path) > 3 and not path[3][:1].isupper()
        if (own and not made) == mine:
            found |= {w.strip() for i in m.group(2).split(",") for w in i.split(" as ")}
    return found


def turned(text, wanted, apart):
    """Each wanted word of the text in its new spelling; in a comment only what stands between back quotes."""
    def word(m):
        w = m.group(0)
        behind_dot = m.string[m.start() - 1:m.start()] == "."
        return apart[w] if w in apart and not behind_dot else respelled(w) if wanted(w) else w

    def line(row):
        at = re.search(r"(^|\s)(--|//)( |$)", row)
        code, note = (row[:at.start()], row[at.start():]) if at else (row, "")
        note = re.sub(r"`([^`]*)`", lambda m: "`" + TOKEN.sub(word, m.group(1)) + "`", note)
        return TOKEN.sub(word, code) + note

    return "\n".join(line(row) for row in text.split("\n"))


def main():
    crates = set(os.listdir("crates"))
    texts = {p: open(p, encoding="utf-8").read() for p in files("crates")}
    library = set().union(*(items(t, crates, False) for t in texts.values()))
    names = set()
    for path, text in texts.items():
        if path.endswith("/Proof.antt") or path.endswith(".rt"):
            mine = items(text, crates, True)
            wanted = lambda w: w in mine and is_old(w)
        else:
            wanted = lambda w: is_old(w) and w not in library
        names |= {w for w in TOKEN.findall(text) if wanted(w)}
        if "--list" not in sys.argv:
            new = turned(text, wanted, APART_IN.get(path[len("crates/"):], {}))
            if new != text:
                open(path, "w", encoding="utf-8").write(new)
    if "--list" in sys.argv:
        for w in sorted(names):
            print(w + "\t" + respelled(w))


if __name__ == "__main__":
    main()
