#!/usr/bin/env python3
"""Holds docs/MUTANTS.md, which `tests/mutants` printed, to the tree, without a prover: every definition that has mutants is in the list, every change listed is one that the rule makes now,
and what refuses it is an example, or a theorem where it says so. If this fails, a definition or an example has changed since, and `tests/mutants` is to be run. Then faults are planted in the list, and each must be found.
"""
import pathlib
import re
import sys

ROOT = pathlib.Path(__file__).resolve().parent.parent
sys.path.insert(0, str(ROOT / "tests" / "common"))
import definitions  # noqa: E402
import equal_mutants  # noqa: E402
import judging  # noqa: E402

REFUSED_BY = re.compile(r"`(\w+)` `(\w+)\.(\S+)`( \(theorem\))?")


def changes_by_rule():
    """{"crate definition": the changes that the rule makes}"""
    found = {}
    for alike in definitions.all_mutants(ROOT, definitions.CRATES):
        for mutant in alike:
            found.setdefault("%s %s" % mutant.key[:2], set()).add(mutant.change)
    return found


def rows_of(text):
    """("crate definition", the changes, what refuses them) of each row of the list."""
    crate = None
    for line in text.splitlines():
        heading = re.fullmatch(r"## `(\w+)`", line)
        crate = heading[1] if heading else crate
        cells = [cell.strip() for cell in re.split(r"(?<!\\)\|", line)]
        if crate and len(cells) == 5 and cells[1].startswith("`"):
            yield "%s %s" % (crate, cells[1].strip("`")), cells[2].replace("\\|", "|"), cells[3]


def unknown_changes(changes, known):
    """What stands between the `;` of a cell and is no change; a change may have a `;` of its own."""
    parts = changes.split("; ")
    while parts:
        taken = next((n for n in range(len(parts), 0, -1) if "; ".join(parts[:n]) in known), None)
        if taken is None:
            yield parts[0]
        parts = parts[taken or 1:]


def faults_of_refuser(judge, by):
    named = REFUSED_BY.fullmatch(by)
    if not named:
        return ["no refuser: %s" % by]
    crate, file, name, theorem = named.groups()
    parts = [part for part in ("specs", "proofs") if (ROOT / "crates" / crate / part / (file + ".antt")).exists()]
    kinds = [judge.kind(crate, part, file, name) for part in parts]
    return [] if ("theorem" if theorem else "example") in kinds else ["%s is no %s: %s" % (by, "theorem" if theorem else "example", kinds)]


def faults_of(text, rule, judge):
    rows = list(rows_of(text))
    said = {definition for definition, _, _ in rows} | set(equal_mutants.REASONS) | equal_mutants.NO_MUTANT
    faults = ["%s is not in the list" % definition for definition in rule if definition not in said]
    for definition, changes, by in rows:
        faults += ["%s: the rule does not make %s" % (definition, change) for change in unknown_changes(changes, rule.get(definition, set()))]
        faults += ["%s: %s" % (definition, fault) for fault in faults_of_refuser(judge, by)]
    for definition, reasons in equal_mutants.REASONS.items():
        faults += ["%s, equal in meaning: the rule does not make %s" % (definition, change) for change in reasons if change not in rule.get(definition, set())]
    return faults + ["%s, without a mutant: the rule changes nothing of it" % definition for definition in equal_mutants.NO_MUTANT if definition not in rule]


# Something of the list, and what makes it untrue: a definition left out, another change, a law of a proof, a theorem that computes nothing, one that is no theorem of docs/THEOREMS.md.
PLANTED = [
    ("| `Latency.house_default` |", "| `Latency.house_rule` |"),
    ("`= IBN` → `= SB`", "`= IBN` → `= XLWX`"),
    ("`plan_table` `Examples.widths`", "`plan_table` `Lengths.filled`"),
    ("`plan_table` `Examples.widths`", "`plan_table` `Examples.heights`"),
    ("`plan_table` `Examples.places`", "`plan_table` `Numbers.numbered`"),
    ("`model` `Paper.sb_is_3` (theorem)", "`model` `Paper.sb_is_3`"),
    ("`model` `Figures.figures`", "`model` `Figures.figures` (theorem)"),
]


def main():
    text = (ROOT / "docs" / "MUTANTS.md").read_text()
    rule, judge = changes_by_rule(), judging.Judge(ROOT, ROOT)
    faults = faults_of(text, rule, judge)
    for old, new in PLANTED:
        if old not in text or not faults_of(text.replace(old, new, 1), rule, judge):
            faults.append("%s for %s is not found" % (new, old))
    for fault in faults:
        print("mutants_listed:", fault)
    if not faults:
        print("mutants_listed: %d definitions, as the rule and the examples have them; %d planted faults found" % (len(rule), len(PLANTED)))
    sys.exit(bool(faults))


if __name__ == "__main__":
    main()
