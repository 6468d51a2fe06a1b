#!/usr/bin/env python3
"""Holds the plans of plans/ to their hex, by plans/bytes, and plans/bytes to what it must refuse.

Each .hex gives the bytes of its .plan; each slip of the pen in P.hex is told with its line, and nothing is written of it.
"""
import pathlib
import subprocess
import sys
import tempfile

PLANS = pathlib.Path(__file__).resolve().parent.parent / "plans"
KINDS = (".hex", ".plan", ".text")
FLOW_2 = "the flow record that starts in line 14"
PLATFORM = "the platform record that starts in line 7"

# Slips in P.hex: what stands there, what is written in its place, the line that is told, the sentence.
SLIPS = [
    ("003C  ", "003G  ", 17, "'G' is no hex digit"),
    ("0002 0001", "0002 OOO1", 15, "'O' is no hex digit"),
    ("04 05 ", "04\u00a005 ", 16, "'\\xa0' is no hex digit"),
    ("0A  ", "0x0A  ", 10, "'x' is no hex digit"),
    ("003C  ", "03C  ", 17, "03C is no whole bytes: a byte has two digits"),
    ("003C  ", "003 C  ", 17, "003 is no whole bytes: a byte has two digits"),
    ("000000C8 000000C8", "00000C8 00000C8", 18, "00000C8 is no whole bytes: a byte has two digits"),
    ("003C  ", "3C  ", 19, f"{FLOW_2} ends here with 22 bytes, and must have 23"),
    ("003C  ", "00003C  ", 19, f"{FLOW_2} must have 23 bytes, and has 20 before this line and 24 with it"),
    ("00000000            # jitter 0\n\n# place 32", "# jitter 0\n\n# place 32", 18, f"{FLOW_2} ends here with 19 bytes, and must have 23"),
    ("003C                # flits 60\n", "\n003C                # flits 60\n", 16, f"{FLOW_2} ends here with 9 bytes, and must have 23"),
    ("0A                  # buffer flits 10\n", "", 10, f"{PLATFORM} ends here with 8 bytes, and must have 9"),
    ("01 0006", "01 0007", 11, f"{PLATFORM} ends here with 9 bytes, and must have 10"),
    ("03                  # method", "03 02               # method", 11, f"{PLATFORM} must have 9 bytes, and has 8 before this line and 10 with it"),
    ("# method 3: IBN\n", "# method 3: IBN\n02\n", 12, "the flow record that starts in line 12 ends here with 1 bytes, and must have 23"),
    ("01 0006             # tag", "01 00\n\n06          # tag", 7, f"{PLATFORM} ends here with 2 bytes, and must have 9 or 10"),
    ("02 0014", "02 0013", 14, "the length of a flow record is 0014, not 0013"),
    ("02 0014", "02 0007", 14, "the length of a flow record is 0014, not 0007"),
    ("01 0006", "01 0600", 7, "the length of a platform record is 0006 or 0007, not 0600"),
    ("01 0006", "01 0008", 7, "the length of a platform record is 0006 or 0007, not 0008"),
    ("02 0014", "20 0014", 14, "no record has the tag 20"),
    ("7F 0000             # tag, length 0\n", "", 35, "no end record, 7F 0000, follows"),
    ("7F 0000", "7F 0000 00", 38, "the end record that starts in line 38 must have 3 bytes, and has 0 before this line and 4 with it"),
    ("# tag, length 0\n", "# tag, length 0\n7F 0000\n", 39, "these bytes stand behind the end record"),
    ("# Plan P", "# wrong on purpose: nothing\n# Plan P", 1, "this file is not wrong: its records are whole, and a wrong value needs no such line"),
]

# P with a line to a record, as document 01 has it, and a byte lost in its second line.
SHORT_LINE = "01 0006 06 01 01 00 0A 03\n02 0014 0002 0001 04 05 3C 000000C8 000000C8 00000000\n7F 0000\n"
SHORT_LINE_TOLD = (3, "the flow record that starts in line 2 must have 23 bytes, and has 22 before this line and 25 with it")

# Other ways to write P.hex, with the same bytes.
ALIKE = [("0A  ", "0a  "), ("000000C8 000000C8", "000000c8\t00 00 00 C8"), ("\n", "\r\n"), ("# Plan P", "\ufeff# Plan P")]


def fail(sentence):
    sys.exit(f"hex: {sentence}")


def run(path):
    """What plans/bytes makes of a file: exit status, standard output, standard error."""
    done = subprocess.run([str(PLANS / "bytes"), str(path)], capture_output=True)
    return done.returncode, done.stdout, done.stderr.decode()


def check_plan(name):
    for kind in KINDS:
        if not (PLANS / (name + kind)).exists():
            fail(f"{name} has no {kind}")
    status, data, told = run(PLANS / (name + ".hex"))
    if status != 0:
        fail(told.strip())
    if data != (PLANS / (name + ".plan")).read_bytes():
        fail(f"{name}.plan is not made of {name}.hex")


def run_text(text):
    with tempfile.TemporaryDirectory() as folder:
        path = pathlib.Path(folder) / "slip.hex"
        path.write_bytes(text.encode())
        status, data, told = run(path)
        return status, data, told.replace(str(path), "slip.hex")


def changed(text, old, new, times):
    if old not in text:
        fail(f"P.hex has no {old!r}")
    return text.replace(old, new, times)


def check_refused(text, line, sentence):
    expected = (1, b"", f"slip.hex, line {line}: {sentence}\n")
    found = run_text(text)
    if found != expected:
        fail(f"a slip is not refused as {expected} but {found}")


def main():
    names = sorted({path.stem for path in PLANS.iterdir() if path.suffix in KINDS})
    if not names:
        fail("plans/ has no plan")
    for name in names:
        check_plan(name)
    text = (PLANS / "P.hex").read_text()
    for old, new, line, sentence in SLIPS:
        check_refused(changed(text, old, new, 1), line, sentence)
    check_refused(SHORT_LINE, *SHORT_LINE_TOLD)
    for old, new in ALIKE:
        if run_text(changed(text, old, new, -1)) != (0, (PLANS / "P.plan").read_bytes(), ""):
            fail(f"{new!r} for {old!r} in P.hex gives other bytes")
    print(f"hex: {len(names)} plans are made of their hex, and {len(SLIPS) + 1} slips of the pen are told")


if __name__ == "__main__":
    main()
