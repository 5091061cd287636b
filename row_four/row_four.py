#!/usr/bin/env python3
"""How often a classed unit pads the row four below each block row's first: rows 4, 8, .., h.

    python3 row_four/row_four.py

A copy of the library, outside the repository, prints the number of each row that it pads. Over it runs units.txt, a Rattle program: units
of both classed operations, n (user sets) and p (pretrained sets), of every height, with and without borders below, whole and in advances
of 1 to 5 rows. `rt try` runs it without a proof, in two ways, and fails where they do not print the same. A line for each unit says how
often each of these rows was padded. The status is 1 where one was padded twice; where one that is padded anew was not (row h is, where
bit 8 or bit 32 of the edges is set; elsewhere an index leads to the row before it); or where a row was padded otherwise than by `pad_row`,
which prints the number.

Then each copy of WRONG, a library that does such a thing, has to be found out; where one is not, the status is 1 too. It is 2 where a copy
could not be made or did not run.
"""
import collections
import os
import re
import shutil
import subprocess
import sys
import tempfile

HERE = os.path.dirname(os.path.abspath(__file__))
ROOT = os.path.dirname(HERE)
SAVED_BELOW, PLANE_BELOW = 8, 32
ROWS_ABOVE = 4

# how long a copy may run: some minutes, one after the other
STEPS, SECONDS = '1000000000', '900'

# what `rt try` says of its runs, behind what the program prints
SAYS = re.compile(r'(interpreter|checked|run)[:=]')

# a change of a copy: a file, what stands in it once, and what takes its place
Change = collections.namedtuple('Change', 'file old new')

ROW = '        let row = self.padded_row(r);\n'
PUT = '        rows[at..at + ROW_BYTES].copy_from_slice(&row);\n'
FIVE = '        unit.pad_row(self.done + 9, &mut self.rows, 9);\n'
BEFORE = '        self.before_into(dst, left, sides.left, src[self.src_o]);\n'

# `pad_row` says which row it is about to pad, and the padding that it was done
PRINTS = [
    Change('crates/units/src/rows.rt', ROW,
           '        io::write_all(1, b"row ");\n        io::print_decimal(1, r as u64);\n        io::write_all(1, b"\\n");\n' + ROW),
    Change('crates/padding/src/backup_row.rt', BEFORE, '        io::write_all(1, b"padded\\n");\n' + BEFORE),
]
WRONG = {
    'row four padded again for the features': Change(
        'crates/units/src/classed.rt', FIVE,
        '        let four = self.indices[8];\n        unit.pad_row(self.done + 8, &mut self.rows, four);\n' + FIVE),
    'rows below the unit not padded anew': Change(
        'crates/units/src/rows.rt', '    r < g.h + border_of(op) + rows_below(op, g.edges)\n', '    r < g.h + border_of(op)\n'),
    'each row padded twice within pad_row': Change(
        'crates/units/src/rows.rt', PUT,
        PUT + '        let again = self.padded_row(r);\n        rows[at..at + ROW_BYTES].copy_from_slice(&again);\n'),
}


def stop(why):
    print('row_four: ' + why, file=sys.stderr)
    sys.exit(2)


def make(folder, change):
    path = os.path.join(folder, change.file)
    with open(path) as f:
        text = f.read()
    if text.count(change.old) != 1:
        stop('%s has %d times: %s' % (change.file, text.count(change.old), change.old.strip()))
    with open(path, 'w') as f:
        f.write(text.replace(change.old, change.new))


def write_crates(folder):
    """crates.txt of the copy: the padding and all above it print, and the program stands on the whole units."""
    with open(os.path.join(ROOT, 'crates.txt')) as f:
        crates = {name: on.split() for name, on in re.findall(r'^(\w+)(?: staticlib)?:(.*)$', f.read(), re.M)}
    for name, on in crates.items():
        if name == 'padding' or 'padding' in on:
            on += [d for d in ('io',) if d not in on]
    crates['row_four'] = crates['whole'] + ['whole']
    with open(os.path.join(folder, 'crates.txt'), 'w') as f:
        f.writelines('%s: %s\n' % (name, ' '.join(on)) for name, on in crates.items())


def run(folder):
    """What the program in the copy prints."""
    program = os.path.join(folder, 'crates', 'row_four')
    ran = subprocess.run(['rt', 'try', '--steps', STEPS, '--seconds', SECONDS], cwd=program, stdout=subprocess.PIPE, stderr=subprocess.PIPE, text=True)
    if ran.returncode != 0:
        stop('the copy did not run\n' + ran.stdout[-2000:] + ran.stderr[-2000:])
    return '\n'.join(line for line in ran.stdout.splitlines() if not SAYS.match(line))


def printed(changes):
    """What the program prints over a copy of the library with these changes."""
    with tempfile.TemporaryDirectory() as folder:
        shutil.copytree(os.path.join(ROOT, 'crates'), os.path.join(folder, 'crates'), ignore=shutil.ignore_patterns('out'))
        write_crates(folder)
        for change in changes:
            make(folder, change)
        source = os.path.join(folder, 'crates', 'row_four', 'src')
        os.makedirs(source)
        shutil.copy(os.path.join(HERE, 'units.txt'), os.path.join(source, 'main.rt'))
        return run(folder)


def counts(h, edges, lines):
    """How often each of rows 4, 8, .., h was padded, and what is wrong."""
    steps = [line for line in lines if line not in ('status 0', 'refused 9')]
    said = [step for step in steps if step != 'padded']
    for line in said:
        if not re.fullmatch(r'row \d+', line):
            stop('a call answered otherwise than it was to: ' + line)
    times = collections.Counter(int(line[4:]) - ROWS_ABOVE for line in said)
    wrong = []
    if steps != [step for line in said for step in (line, 'padded')]:
        wrong.append('a row padded otherwise than by pad_row')
    rows = range(4, h + 1, 4)
    wrong += ['row %d padded %d times' % (y, times[y]) for y in rows if times[y] > 1]
    anew = rows if edges & (SAVED_BELOW | PLANE_BELOW) else rows[:-1]
    wrong += ['row %d not padded' % y for y in anew if times[y] == 0]
    return {y: times[y] for y in rows}, wrong


def units(text):
    """Yields each unit's name, how often its rows were padded, and what is wrong."""
    for part in text.split('unit ')[1:]:
        head, *lines = part.splitlines()
        op, h, edges, way = head.split()
        name = '%s h=%s edges=%s %s' % (op, h, edges, 'whole' if way == '0' else 'by ' + way)
        yield (name, *counts(int(h), int(edges), lines))


def library():
    """Whether a unit of the library as it is has something wrong."""
    all_units = list(units(printed(PRINTS)))
    if not all_units:
        stop('no unit')
    for name, times, wrong in all_units:
        print('%s: %s%s' % (name, ' '.join('%d:%d' % yn for yn in times.items()), ''.join(', WRONG: ' + w for w in wrong)))
    every = collections.Counter(n for _, times, _ in all_units for n in times.values())
    bad = sum(1 for _, _, wrong in all_units if wrong)
    print('%d units; of their rows 4, 8, .., h %d padded once, %d not padded anew; %d units with one twice or missing' % (
        len(all_units), every[1], every[0], bad))
    return bad > 0


def not_found_out(what):
    """Whether a wrong copy passes."""
    all_units = list(units(printed([WRONG[what]] + PRINTS)))
    bad = ['%s: %s' % (name, wrong[0]) for name, _, wrong in all_units if wrong]
    print('a copy with %s: %s' % (what, 'found out by %d of %d units, the first being %s' % (len(bad), len(all_units), bad[0]) if bad else 'NOT FOUND OUT'))
    return not bad


def main():
    if not shutil.which('rt'):
        stop('there is no rt on the path')
    failed = library()
    for what in WRONG:
        failed |= not_found_out(what)
    sys.exit(1 if failed else 0)


main()
