#!/usr/bin/env python3
"""Writes antt modules that hold the definitions of the crate plan against the oracle's answers and the figures of
docs/SPECIFICATION.md, section 13.

  make_cases.py ORACLE CASES RECORDS CRATES     plan/specs/Unit.antt, plan/specs/Edges.antt and cases/specs/Sample.antt below CRATES

ORACLE is the program that differential/build makes, which names the edge records; CASES the folder that `oracle --cases` writes; RECORDS the list of
crates/replay, in which the sample records stand after the worked cases and before the edge records. Every expected number comes from the oracle's output, and what the specification says of
its cases from SAID below. `differential/run cases` runs this, and `differential/run answers` holds the files against it.
"""
import subprocess, sys

SEVEN = 7

# SPECIFICATION 13.3 and 13.4 as 14.1 words them, and what they say besides L's plan, which is printed in 12.5 whole
SAID = {
    'L': ('"Case L: copy, image and frame 64 by 8 units at 0"', ['answers 0', 'entries 6', 'rects 1', 'words 8']),
    'A': ('"A: L at 1280 by 960, tmem_h 24, load_sh 24: 40 rectangles, 201 entries"', ['answers 0', 'rects 40', 'entries 201']),
    'B': ('"B: tmem_h and load_sh 28: 7 after one entry"', ['answers 7', 'entries 1']),
    'C': ('"C: L at 1024 by 36, tmem_h and load_sh 32: 64 × 8 = 512 words, accepted"', ['answers 0', 'words 512']),
    'D': ('"D: tmem_h and load_sh 36: 7"', ['answers 7']),
    'E': ('"E: scaled, 1280 by 960, both scales 1024: 239 lines, 40 rectangles, 123 entries"', ['answers 0', 'lines 239', 'rects 40', 'entries 123', 'drifts']),
    'G': ('"G: frame_h 3: three entries, no rectangle"', ['answers 0', 'entries 3', 'rects 0', 'drifts']),
    'H': ('"H: as E with scales 1000: 240 lines; line 6 begins strip 1, 144/1,024 ahead; line 239 strip 39, 616/1,024 ahead"', ['answers 0', 'lines 240', 'begins 6 1 144', 'begins 239 39 616', 'drifts']),
    'I': ('"I: scaled, siz 3, image 4096 by 8, image_x 22400, frame 1296 by 4, scales 1024, scissor right 1023: 8 after three entries"', ['answers 8', 'entries 3']),
    'J': ('"J: I at address 0: 9 after three"', ['answers 9', 'entries 3']),
    'O': ('"O: H with image_y and image_y_orig 16: 240 lines; line 6 begins strip 1, 368/1,024 behind; line 239 strip 39, 104/1,024 ahead"', ['answers 0', 'lines 240', 'lags 6 1 368', 'begins 239 39 104', 'drifts']),
}

def ask(oracle, record, room, count=40):
    out = subprocess.run([oracle, '--capacity', str(room), '--object-bytes', str(count), '--bank', '--bank-seed', '1'], input=record, capture_output=True, check=True).stdout.decode()
    entries, end, bank = [], None, []
    for line in out.splitlines():
        if line.startswith(' T'):
            bank.append([int(v) for v in line.split()[2:]])
            continue
        v = [int(x) for x in line.split()]
        if v[0] == 9: end = v[1:5]
        else: entries.append([x % 2**64 for x in v] + [0] * (11 - len(v)))
    return entries, end, bank

def listing(rows, indent):
    rows = [r for r in rows if r]
    if not rows: return '[]'
    return '(' + ('\n' + indent + '∷ ').join(' ∷ '.join(map(str, r)) for r in rows) + '\n' + indent + '∷ [])'

def row(oracle, record, count=40, room=None, said=None):
    if room is None:
        room = 11 * len(ask(oracle, record, 2**40, count)[0]) + 5
    entries, end, bank = ask(oracle, record, room, count)
    indent = '    '
    words = entries + [[SEVEN] * (room - 11 * len(entries))]
    start = 'given' if said is None else f'saying ({" ∷ ".join(said)} ∷ [])'
    return f'{start} 0x{record.hex()} {count} {room} (ends {" ".join(map(str, end))})\n{indent}{listing(words, indent)}\n{indent}{listing(bank, indent)}'

def initial(oracle):
    out = subprocess.run([oracle, '--bank-seed', '1', '--initial-bank'], capture_output=True, check=True).stdout.decode()
    return listing([[int(v) for v in line.split()[2:]] for line in out.splitlines()], '    ')

def module(oracle, path, title, groups, bank=None):
    """groups are (name, rows), rows (comment, row's text); bank is the module that has the first bank, if not this one"""
    crate = 'Rattle.plan.specs'
    said = any('saying ' in r for _, rows in groups for _, r in rows)
    with open(path, 'w') as f:
        f.write(f'-- {title} Written by tools/make_cases.py from the oracle\'s output.\n-- Assumes nothing.\n'
                f'use Rattle.std.specs.Prelude.{{List, [], ◌∷◌, {"" if bank else "ℕ, "}T}}\n'
                f'use {crate}.Check.{{Given, {"saying" if said else "given"}, ends, all_agree}}\n'
                + (f'use {crate}.Check.Figure.{{answers, entries, rects, words, lines, begins, lags, drifts}}\n' if said else '')
                + (f'use {crate}.{bank}.{{bank}}\n' if bank else f'\n-- the bank that every run starts from\nabbrev pub bank : List ℕ\nbank =\n    {initial(oracle)}\n'))
        for name, rows in groups:
            f.write(f'\nunfoldable pub {name} : List Given\n{name} =\n' + ''.join((f'    -- {c}\n' if c else '') + f'    {"" if i == 0 else "∷ "}{r}\n' for i, (c, r) in enumerate(rows)) + '    ∷ []\n'
                    f'\npub {name}_agree : T (all_agree bank {name})\nunfolding {name} all_agree\n{name}_agree = tt\n')

def records(path):
    """the 61 bytes of a case in each item of 64"""
    data = open(path, 'rb').read()
    return [data[i:i + 61] for i in range(0, len(data), 64)]

def edges(oracle):
    """(what it is for, bytes) of each edge record"""
    out = subprocess.run([oracle, '--edges'], capture_output=True, check=True).stdout.decode()
    lines = [line.split(' ', 1) for line in out.splitlines()]
    return [(what, bytes.fromhex(digits)) for digits, what in lines]

def main():
    oracle, cases, replayed, crates = sys.argv[1:]
    counts = dict(l.split() for l in open(f'{cases}/list.txt'))
    case = lambda name: ('D ' + SAID[name][0], row(oracle, open(f'{cases}/{name}.bin', 'rb').read(), int(counts[name]), said=SAID[name][1]))
    edge = edges(oracle)
    listed = records(replayed)[len(counts):]
    sample = listed[:listed.index(edge[0][1])]
    module(oracle, f'{crates}/plan/specs/Unit.antt', 'The worked cases L, A, B, C, D, E, G, H, I, J, O, in this order, as a unit: from the 61 bytes to the whole plan, the bank, and the figures of docs/SPECIFICATION.md, section 13, which the quotes call D.', [('unit', [case(c) for c in 'L A B C D E G H I J O'.split()])])
    module(oracle, f'{crates}/plan/specs/Edges.antt', 'Records at the edges of the rules.', [('edges', [(what, row(oracle, record)) for what, record in edge])], 'Unit')
    module(oracle, f'{crates}/cases/specs/Sample.antt', 'The sample records of crates/replay.', [('sample', [('', row(oracle, r)) for r in sample])], 'Unit')

main()
