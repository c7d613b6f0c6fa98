#!/usr/bin/env python3
"""Bring this repository's own names in specs, lemmas, clauses, edits and pages to snake case.

Run once, at the top of the checkout, after the kit's port.py: `python3 tools/respell.py`.
Names of the library, names that Rattle makes, types, modules and functions of src/ stay.
It says what falls together, and writes nothing where something does.
"""
import glob
import re
import sys

OWN = {"whole", "row", "elimination_rules", "elimination", "sheet_rules", "sheet", "starred", "cases", "bench"}
TOKEN = re.compile(r"[^\s(){},;.`\[\]\"]+")
COMMENT = re.compile(r"(?:^|\s)(?:--|//)(?:\s|$)")
CAMEL = re.compile(r"\b[a-z]+[a-z0-9]*[A-Z]\w*\b")
USE = re.compile(r"^\s*(?:pub |ghost )?use ([^\s{;]+?)\.\{(.*)\}")
# Names that would fall together: with a tactic, or a law with the definition that it is about. In which files, and what then.
CHOSEN = [
    ("first_of", "first_values", "elimination_rules/specs/(First|Columns|Units).antt|sheet_rules/specs/(Bridge|PutIn).antt"),
    ("first_of", "first_failing", ""),
    ("in-limit", "in_limit_lem", "whole/specs/Size.antt"),
    ("in-limit", "limited", ""),
    ("good-line", "good_lines", ""),
    ("good-record", "good_records", ""),
    ("good-channel", "good_channels", ""),
    ("good-operands", "good_operands_lem", "sheet_rules/specs/Prefix.antt"),
    ("on-done", "on_done_lem", ""),
    ("on-outcome", "on_outcome_lem", ""),
    ("on-turn", "on_turn_lem", ""),
    ("on-found", "on_found_lem", ""),
    ("on-verdict", "on_verdict_lem", ""),
    ("no_code", "no_code_lem", ""),
    ("unknown-columns", "all_unknown_columns", ""),
    ("well-formed", "well_formed_lem", ""),
    ("row-values", "row_values_lem", ""),
    ("unit-of", "unit_of_lem", ""),
    ("all-zero", "all_zero_lem", ""),
    ("is-zero", "is_zero_lem", ""),
    ("all-within", "all_within_lem", ""),
    ("bit-and", "bit_and_lem", "whole/proofs/word/Mask.antt"),
]


def snake(token, path=""):
    """The token in snake case, where it is a word of ours: in parts joined by `-`, or in camel case from a small letter."""
    for old, chosen, where in CHOSEN:
        if token == old and re.search(where, path):
            return chosen
    if re.search(r"[^\w'-]", token) or not re.match(r"[a-zα-ω]", token) or re.search(r"-$|--", token):
        return token
    token = token.replace("-", "_")
    return re.sub(r"(?<=[a-z0-9])([A-Z])", lambda m: "_" + m.group(1).lower(), token)


def outside(path):
    parts = path.split(".")
    return not (parts[0] == "Rattle" and len(parts) > 1 and parts[1] in OWN)


def imported(lines):
    """What a file takes from the library, and what from our own files."""
    library, ours = set(), set()
    for line in lines:
        found = USE.match(line)
        if found:
            names = [n for part in found.group(2).split(",") for n in part.split(" as ")]
            (library if outside(found.group(1)) else ours).update(n.strip() for n in names)
    return library, ours


def turned(text, path, keep, only=None):
    def one(found):
        token = found.group(0)
        if token in keep or (only is not None and token not in only):
            return token
        return snake(token, path)
    return TOKEN.sub(one, text)


def parted(line):
    """A line's code, and its comment: there a dash is English."""
    found = COMMENT.search(line)
    return (line[:found.start()], line[found.start():]) if found else (line, "")


def turn_file(text, path, only_imported):
    lines = text.split("\n")
    library, ours = imported(lines)
    out, seen = [], {}
    for line in lines:
        found = USE.match(line)
        if found:
            new = line if outside(found.group(1)) else line[:found.start(2)] + turned(found.group(2), path, set()) + line[found.end(2):]
        else:
            code, comment = parted(line)
            new = turned(code, path, library, ours if only_imported else None) + CAMEL.sub(lambda m: snake(m.group(0), path), comment)
        code, _ = parted(line)
        for token in TOKEN.findall(code):
            same = token if token in library or (only_imported and token not in ours) else snake(token, path)
            seen.setdefault(same, set()).add(token)
        out.append(new)
    return "\n".join(out), {n: t for n, t in seen.items() if len(t) > 1}


def declared():
    """Our names that change, for the files that hold no imports."""
    names = {}
    for path in glob.glob("crates/*/specs/*.antt") + glob.glob("crates/*/proofs/*.antt"):
        text = open(path).read()
        library, _ = imported(text.split("\n"))
        for token in TOKEN.findall(text):
            if token not in library and snake(token, path) != token:
                names[token] = snake(token, path)
    return names


def main():
    names = declared()
    lemmas = glob.glob("crates/*/specs/*.antt") + glob.glob("crates/*/proofs/*.antt") + glob.glob("crates/*/proofs/word/*.antt")
    walks = [p for p in glob.glob("crates/*/proofs/**/*.antt", recursive=True) if p not in lemmas]
    new, clashes = {}, 0
    for path in lemmas + walks + glob.glob("crates/*/src/**/*.rt", recursive=True):
        text = open(path).read()
        new[path], together = turn_file(text, path, only_imported=path in walks)
        if path in walks or path.endswith(".rt"):
            continue  # the walks are written anew, and a function may have its definition's name
        # The field of src's struct beside the field of the rules' record.
        together.pop("unknown_columns" if path.endswith("Views.antt") else "", None)
        for name, tokens in sorted(together.items()):
            print(f"{path}: {', '.join(sorted(tokens))} would all be {name}")
            clashes += 1
    if clashes:
        sys.exit(f"respell: {clashes} names fall together; nothing was written")
    for path in glob.glob("crates/*/must-fail/*.edit"):
        new[path] = turned(open(path).read(), path, set(), set(names))
    for path in ["README.md"] + glob.glob("docs/*.md"):
        new[path] = re.sub(r"`[^`\n]+`", lambda m: turned(m.group(0), path, set(), set(names)), open(path).read())
    for path, text in new.items():
        open(path, "w").write(text)
    print(f"respell: {len(names)} names, {len(new)} files")


main()
