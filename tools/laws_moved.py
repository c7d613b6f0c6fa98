#!/usr/bin/env python3
"""Turn imports of laws that moved from specs/ to proofs/ of whole, elimination_rules and sheet_rules.

Run at the top of the checkout: `python3 tools/laws_moved.py`. It names each file that it changes; a second run changes none.
An import of names of both kinds becomes two lines.
"""
import glob
import re
import sys

# What is now in proofs/ of the same name: the names, or '*' for the whole module.
MOVED = {("elimination_rules", module): "*" for module in "Swap Ways Rounds".split()}
MOVED["whole", "Division"] = (
    "divided rounded_down lowered_quotient lowered_remainder kept_quotient kept_remainder size_quotient quotient_fits remainder_fits"
).split()
MOVED["elimination_rules", "Upright"] = "upright_positive upright_ind length_upright size_upright upright_in_limit".split()
MOVED["elimination_rules", "Fall"] = (
    "Remains Falls falls again_remains again_smaller again_some again_long again_in_limit round_tabled holds_table solved_tabled"
    " again_tabled"
).split()
MOVED["elimination_rules", "Steps"] = "Steps step_ind".split()
MOVED["elimination_rules", "Kept"] = "again_kept last_kept upright_off round_kept".split()
MOVED["elimination_rules", "Count"] = "solve_kept one_outcome one_kept".split()
MOVED["elimination_rules", "Fuel"] = "solve_ends one_ended one_ends".split()
MOVED["elimination_rules", "Yield"] = "dot_swap yield_swapped".split()
MOVED["elimination_rules", "Moves"] = "again_stands last_stands".split()
MOVED["elimination_rules", "Course"] = "TurnStands OutcomeStands round_stands solve_stands".split()
MOVED["elimination_rules", "Fold"] = "one_stands one_clash VerdictStands each_stands OutcomeKeeps VerdictKeeps each_keeps".split()
MOVED["elimination_rules", "Theorem"] = "elimination_is rounds_fit".split()
MOVED["elimination_rules", "Checked"] = "verdict checked_answer call_ind answer_checked".split()
MOVED["elimination_rules", "Demand"] = (
    "accepts_general clash_first clash_exactly accepts_exactly answered accepted_call rounds_call clash_call clash_call_exactly"
    " accepts_call_exactly answered_call special_call"
).split()
MOVED["sheet_rules", "Prefix"] = "length_units unit_of_lem unit_long".split()
MOVED["sheet_rules", "UnitRows"] = "units_are reads_fits unit_fits equations_fit".split()
MOVED["sheet_rules", "WorkKept"] = (
    "line_ind LineKeeps WorkKeeps work_ind solved_ind LinesKept line_kept line_more start_kept_lines solved_kept solved_ends"
).split()
MOVED["sheet_rules", "Bridge"] = "reading_value line_value line_val line_unit_by line_agrees".split()
MOVED["sheet_rules", "LinesStand"] = "LinesZero LineClash solved_general solved_clash".split()
MOVED["sheet_rules", "Answers"] = (
    "Accepted Asked check_ind ask_ind check_accepted line_asked channel_asked check_clash check_is check_answered line_answered"
    " channel_answered asked_unit"
).split()
MOVED["sheet_rules", "Demand3"] = (
    "most_general every_choice_agrees table_in_limit rounds_fit line_is channel_is clash_place clash_exactly line_in_limit"
    " channel_in_limit check_ends line_ends channel_ends"
).split()

USE = re.compile(r"^([ \t]*)((?:pub |ghost )*use )Rattle\.(\w+)\.specs\.(\w+)(?:\.\{([^}]*)\}|( as \w+)?)(;?)[ \t]*$", re.M)
PATH = re.compile(r"\bRattle\.(\w+)\.specs\.(\w+)\.([^\s(){},;.]+)")


def import_line(found):
    """The import as it is to read: one line, or two where its names are now in two places."""
    indent, word, crate, module, names, alias, end = found.groups()
    moved = MOVED.get((crate, module))
    if not moved:
        return found.group(0)

    def line(part, names):
        tail = "" if names is None else ".{" + ", ".join(names) + "}"
        return f"{indent}{word}Rattle.{crate}.{part}.{module}{tail}{alias or ''}{end}"

    if names is None:
        if moved == "*":
            return line("proofs", None)
        print(f"mend by hand where it means a law: {found.group(0).strip()}", file=sys.stderr)
        return found.group(0)
    names = [name.strip() for name in names.split(",") if name.strip()]
    gone = [name for name in names if moved == "*" or name.split()[0] in moved]
    if not gone:
        return found.group(0)
    stay = [name for name in names if name not in gone]
    return "\n".join(([line("specs", stay)] if stay else []) + [line("proofs", gone)])


def full_path(found):
    """A name by its full path, outside an import."""
    crate, module, name = found.groups()
    moved = MOVED.get((crate, module), [])
    return f"Rattle.{crate}.proofs.{module}.{name}" if moved == "*" or name in moved else found.group(0)


files = [
    *glob.glob("crates/*/specs/**/*.antt", recursive=True),
    *glob.glob("crates/*/proofs/**/*.antt", recursive=True),
    *glob.glob("crates/*/src/**/*.rt", recursive=True),
    *glob.glob("crates/*/must-fail/*.edit"),
]
for path in sorted(files):
    with open(path, encoding="utf-8") as it:
        was = it.read()
    text = PATH.sub(full_path, USE.sub(import_line, was))
    if text != was:
        with open(path, "w", encoding="utf-8") as it:
            it.write(text)
        print(path)
