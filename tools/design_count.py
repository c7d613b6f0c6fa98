#!/usr/bin/env python3
"""Counts the places that docs/DESIGN-PASS.md is about, in crates/*/src of a checkout: design_count.py [-v] [FOLDER].

Each line is a point, what is counted and how many places there are; -v names them. A count is of a pattern of text, so a place
may be found that is as it should be: the page says which."""
import pathlib
import re
import sys

SIGNATURE = re.compile(r'^( *)(?:pub )?(?:extern "C" )?(?:const )?fn (\w+).*?(?:^\1\{| \{$)', re.M | re.S)
PATTERNS = [
    # (point, what, pattern over a whole file)
    ('1', 'own enum with a variant for nothing, a refusal or a failure',
     r'^(?:pub )?enum (\w+) \{(?:[^}]*\b(?:Nothing|Nowhere|Refused|Clash|Wide|WellFormed)\b)[^}]*\}'),
    ('1', 'a refusal by its number', r'Refused\(\d+'),
    ('1', 'a match on a number that stands for a kind', r'match (?:code|kind) \{\s*\d+[^}]*=>'),
    ('2', 'a function that has a twin',
     r'^(?:pub )?fn (?:all_zero|all_in_limit|in_range|first_(?:record|channel|line|used)|ask_(?:line|channel)|(?:\w+_)?owner'
     r'|(?:check|ask)_in|wide)\('),
    ('3', 'a loop that counts an index by hand', r'\bwhile (?:\w+ < |0 < |\d+ < )'),
    ('3', 'a `for` over the indices of one slice', r'\bfor \w+ in 0\.\.\w+\.len\(\)'),
    ('4', 'a conversion by `as`', r' as (?:usize|isize|[ui]\d+)\b'),
    ('4', 'a byte or a text compared byte by byte', r'\w+\[[^\]]*\] (?:!=|==) \d+'),
    ('4', 'a function that prints or converts by hand',
     r'^(?:pub )?fn (?:wide|widen|narrow|size|minus|signed|number|number_at|exponent|spoken|heard|digits|put|word|words|table|both_below)\('),
    ('6', 'a part of a buffer by its two ends', r'let b = a \+ |\bat \+ \d+|\[\w+\.\.\w+ \+ |\* \w+\.\.\('),
    ('6', 'a fixed buffer', r'\[0(?:u8|i32|i64)?; (?:\d+|[A-Z_]+)\]'),
    ('7', 'a function pointer, a boxed closure or a dyn', r'\bdyn \w|: fn\('),
]
# What the heads of functions repeat: a fact, or a parameter that always travels with another.
FACTS = [(f, rf'\b{f} ') for f in ('Formed', 'Laid', 'Roomy', 'Stored', 'Ready')]
FACTS += [('≡ ..columns', r'≡ [\w.]*\bcolumns\b'), ('the shape as a parameter', r'\b(?:sh|shape): ')]


def functions(text):
    """Each function's name, its first line's number and its head, from `fn` to the body's brace."""
    for m in SIGNATURE.finditer(text):
        yield m.group(2), text.count('\n', 0, m.start()) + 1, m.group(0)


def parameters(head):
    inner = head[head.index('(') + 1:]
    depth, count, some = 0, 0, False
    for c in inner:
        if c in '([<{':
            depth += 1
        elif c in ')]>}':
            if depth == 0:
                break
            depth -= 1
        elif c == ',' and depth == 0:
            count, some = count + 1, False
            continue
        if not c.isspace():
            some = True
    return count + (1 if some else 0)


def code_of(head):
    return head.split('requires')[0].split('ensures')[0]


def heads(files):
    flags, results, long, facts = [], [], [], {}
    for name, text in files:
        for fn, line, head in functions(text):
            code, place = code_of(head), f'{name}:{line} {fn}'
            if re.search(r'-> (?:bool|Result<bool, \w+>)', code) and '&mut [' in code:
                flags.append(place)
            if 'Result<bool>' in code:
                results.append(place)
            if parameters(head) > 6:
                long.append(place)
            for fact, pattern in FACTS:
                if re.search(pattern, head):
                    facts.setdefault(fact, []).append(place)
    yield '1', 'true or false for a result that leaves a row', flags
    yield '1', 'true or false in an io::Result', results
    yield '5', 'a function of more than six parameters', long
    for fact, places in sorted(facts.items()):
        yield '5', f'a head with `{fact}`', places


def main():
    args = [a for a in sys.argv[1:] if a != '-v']
    root = pathlib.Path(args[0] if args else '.')
    files = [(str(p.relative_to(root)), p.read_text()) for p in sorted(root.glob('crates/*/src/**/*.rt'))]
    if not files:
        sys.exit(f'design_count: no crates/*/src below {root}')
    rows = []
    for point, what, pattern in PATTERNS:
        found = re.compile(pattern, re.M)
        places = [f'{n}:{t.count(chr(10), 0, m.start()) + 1} {m.group(0).split(chr(10))[0].strip()}'
                  for n, t in files for m in found.finditer(t)]
        rows.append((point, what, places))
    rows += heads(files)
    for point, what, places in sorted(rows, key=lambda r: r[0]):
        print(f'{point}\t{len(places)}\t{what}')
        if '-v' in sys.argv:
            for place in places:
                print(f'\t\t{place}')


main()
