#!/usr/bin/env python3
"""Draws the house in docs/ARCHITECTURE.md: the crates by floor, what each stands on, and its lines.

    tools/house.py            writes the table, between two marks
    tools/house.py --check    fails if the table is not up to date, and for what is wrong with crates.txt; last line 'N passed, M failed'

Read from crates.txt. A crate's floor is one more than the highest of those it depends on. It stands on those of them that none of the others depends
on, directly or not: an arrow for each use that is not implied. Wrong are a dependency that the crate's sources do not use, one that is not listed
before its user, and a crate that is listed twice or has no sources. The kit's crates are no part of the house, but must be used too.
"""
import pathlib
import re
import sys

ROOT = pathlib.Path(__file__).resolve().parent.parent
DOCUMENT = ROOT / 'docs' / 'ARCHITECTURE.md'
MARKS = ('<!-- written by tools/house.py -->', '<!-- end of what tools/house.py writes -->')
# The borrow checker wants to name the type of every value that it reaches, so a crate may need one that no source of it names.
REACHED = {('rule_actions', 'chains'), ('rule_decide', 'lock_word'), ('replay_program', 'lock_table'), ('replay_program', 'report_tally')}
PARTS = {'src': '*.rt', 'specs': '*.antt', 'proofs': '*.antt'}


def listed():
    """(crate, what it depends on) for each line of crates.txt."""
    lines = [line.partition(':') for line in (ROOT / 'crates.txt').read_text(encoding='utf-8').splitlines() if line and line[0] != '#']
    return [(name.split()[0], on.split()) for name, _, on in lines]


def of_kit(name):
    """Whether a dependency is none of the repository; rt itself refuses one that the kit has not either."""
    return not (ROOT / 'crates' / name).is_dir()


def files(crate, part):
    return sorted((ROOT / 'crates' / crate / part).rglob(PARTS[part]))


def lines_of(crate, part):
    return sum(len(path.read_text(encoding='utf-8').splitlines()) for path in files(crate, part))


def code_of(path):
    """The text of a file without its comments."""
    return re.sub(r'//.*|^\s*--.*', '', path.read_text(encoding='utf-8'), flags=re.M)


def uses(crate, other):
    """Whether a source of the crate names the other: `other::` in Rattle, or one of its modules in antt or in a contract."""
    form = re.compile(rf'\b{other}::|\bRattle\.{other}\.')
    return any(form.search(code_of(path)) for part in PARTS for path in files(crate, part))


def below(house):
    """For each crate, all those under it."""
    under = {}
    for crate, on in house:
        under[crate] = {other for name in on for other in {name, *under.get(name, ())}}
    return under


def stands_on(on, under):
    """Those of a crate's dependencies that no other of them has under it."""
    return [name for name in on if not any(name in under[other] for other in on)]


def block(house):
    own = [(crate, [name for name in on if not of_kit(name)]) for crate, on in house]
    under, floors = below(own), {}
    for crate, on in own:
        floors[crate] = 1 + max((floors[name] for name in on), default=-1)
    rows, total = [], dict.fromkeys(PARTS, 0)
    for floor in sorted(set(floors.values()), reverse=True):
        for crate, on in own:
            if floors[crate] == floor:
                counts = {part: lines_of(crate, part) for part in PARTS}
                total = {part: total[part] + counts[part] for part in PARTS}
                arrows = ', '.join(f'`{name}`' for name in sorted(stands_on(on, under), key=lambda name: -floors[name]))
                rows.append(f'| {floor} | `{crate}` | {arrows} | ' + ' | '.join(f'{count:,}' for count in counts.values()) + ' |')
    return '\n'.join([MARKS[0], '| Floor | Crate | Stands on | Lines of `src` | of `specs` | of `proofs` |', '|--:|---|---|--:|--:|--:|', *rows,
                      '| | all | | ' + ' | '.join(f'{count:,}' for count in total.values()) + ' |', MARKS[1]])


def order(house):
    """(what is wrong or None) for each crate and each dependency: that they are there, lower ones first."""
    seen = set()
    for crate, on in house:
        yield f'{crate} is listed twice' if crate in seen else None
        yield None if files(crate, 'src') else f'{crate} has no sources'
        for name in on:
            yield None if name in seen or of_kit(name) else f'{crate} depends on {name}, which is not listed before it'
        seen.add(crate)


def used(house):
    """(what is wrong or None) for each dependency: that a source uses it, or that values of it are reached, but not both."""
    for crate, on in house:
        for name in on:
            if (crate, name) in REACHED:
                yield f'{crate} uses {name}, so REACHED need not have it' if uses(crate, name) else None
            else:
                yield None if uses(crate, name) else f'{crate} does not use {name}'
    for crate, name in sorted(REACHED):
        yield None if name in dict(house).get(crate, []) else f'{crate} does not depend on {name}, so REACHED must not have it'


def document(house):
    """The text of the document as it is, and as it has to be; None for the second where a mark is missing."""
    text = DOCUMENT.read_text(encoding='utf-8')
    if any(text.count(mark) != 1 for mark in MARKS):
        return text, None
    before, rest = text.split(MARKS[0])
    return text, before + block(house) + rest.split(MARKS[1])[1]


def main():
    house = listed()
    results = list(order(house))
    if any(results):
        finish(results)
    text, new = document(house)
    if sys.argv[1:] == ['--check']:
        current = None if new == text else 'the table in docs/ARCHITECTURE.md is not up to date; tools/house.py writes it'
        finish([*results, *used(house), current])
    if new is None:
        finish(['docs/ARCHITECTURE.md has not each mark once'])
    DOCUMENT.write_text(new, encoding='utf-8')


def finish(results):
    wrong = [result for result in results if result]
    for result in wrong:
        print(f'house: {result}')
    print(f'{len(results) - len(wrong)} passed, {len(wrong)} failed')
    sys.exit(1 if wrong else 0)


if __name__ == '__main__':
    main()
