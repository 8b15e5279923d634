#!/usr/bin/env python3
"""Lists in docs/ARCHITECTURE.md which definitions a reader has to believe of demand 3, which of six steps besides, which of the dispatcher besides both,
which of demand 2, and which of the report besides both demands.

    tools/believed.py            writes the list, between two marks
    tools/believed.py --check    fails if the list is not up to date; last line 'N passed, M failed'

From a statement, follows every name that its definition uses, through the `use` lines, and lists the files of specs/ in which the definitions stand.
Demand 3, six steps and the dispatcher's claims are about the engine's begin, step and tick, so these are not followed there: the code computes them, and
the claims bound what they do. Demand 2 is what they say. The report counts what steps do, so its promise stands on both demands.
"""
import pathlib
import re
import sys

ROOT = pathlib.Path(__file__).resolve().parent.parent
DOCUMENT = ROOT / 'docs' / 'ARCHITECTURE.md'
MARKS = ('<!-- written by tools/believed.py -->', '<!-- end of what tools/believed.py writes -->')
CLAIM = [(('lock_schedule', 'Demand'), 'DemandThree')]
STEPS = [(('step_bounds', 'SixSteps'), 'SixSteps'), (('lock_schedule', 'StepsByStart'), 'StepsByStart')]
DISPATCHER = [(('dispatch_rules', 'Claims'), claim) for claim in ('RunsEnd', 'RunsFair', 'NobodyLeft', 'RunsAreSchedules', 'RunsClaim')]
DISPATCHER += [(('lock_dispatch', 'Lent'), 'RefusedLeavesSlice')]
ENGINE = [(('lock_engine', 'Handle'), 'handle')]
REPORT = [(('report_counts', 'Report'), 'ReportRight')]

HEAD = re.compile(r'^(?:unfoldable |abbrev )*(?:pub )?(?:record |data )?(\S+)(?: .*)? :(?: |$)')
INNER = re.compile(r'^  (?:unfoldable |abbrev )*(?:pub )?(\S+)(?: .*)? :(?: |$)')
IMPORT = re.compile(r'^use (\S+?)\.\{([^}]*)\}', re.M)


class Specs:
    """A file of specs/: where each imported name comes from, the lines of each definition, and which definition makes a name. A module with parameters
    is one definition, which makes all names that are defined in it."""

    def __init__(self, crate, file):
        text = (ROOT / 'crates' / crate / 'specs' / f'{file}.antt').read_text(encoding='utf-8')
        self.lines = len(text.splitlines())
        self.imports, self.definitions, self.owner = {}, {}, {}
        for module, names in IMPORT.findall(text):
            for name in filter(None, map(str.strip, names.split(','))):
                path, _, local = name.partition(' as ')
                inner, _, original = path.rpartition('.')
                self.imports[local or original] = ('.'.join(filter(None, (module, inner))), original)
        self.code = [line for line in IMPORT.sub('', text).splitlines() if line.strip() and not line.strip().startswith('--')]
        self._define()

    def _define(self):
        current, data = None, False
        for line in self.code:
            head, inner = HEAD.match(line), INNER.match(line)
            if head:
                current, data = head.group(1), ' data ' in f' {line}'
                self.owner[current] = current
            elif inner and current == 'module':
                self.owner[inner.group(1)] = current
            self.definitions.setdefault(current, []).append(line)
            constructors = re.match(r'^  ((?:\S+ )+):', line)
            if data and constructors:
                self.owner.update(dict.fromkeys(constructors.group(1).split(), current))

    def words(self, name):
        """What a definition uses; fields, written with a dot before them, belong to types that it names."""
        text = re.split(r'[\s(){};,]+', ' '.join(self.definitions[name]))
        return {word.partition('.')[0] for word in text if word and not word.startswith('.')}


def place_of(module):
    """(crate, file) of a module of specs/; a type of the code, `declared.record.Table` of record.rt, has the file `src/record.rt`; None for the kit's."""
    found = re.match(r'^Rattle\.(\w+)\.specs\.(.*)$', module)
    if not found or not (ROOT / 'crates' / found.group(1)).is_dir():
        return None
    crate, inner = found.groups()
    if inner.startswith('declared.'):
        parts = inner.removesuffix('.TheVariants').split('.')
        return crate, f'src/{parts[1] if len(parts) > 2 else "lib"}.rt'
    return crate, inner


def reached(starts, stops=()):
    """Every definition that is met from these, as {(crate, file): names}."""
    files, met, pending = {}, {}, list(starts)
    while pending:
        place, name = pending.pop()
        if place is None or place in stops:
            continue
        if place[1].startswith('src/'):
            met.setdefault(place, set()).add(name)
            continue
        if place not in files:
            files[place] = Specs(*place)
        specs = files[place]
        name = specs.owner[name]
        if name not in met.setdefault(place, set()):
            met[place].add(name)
            for word in specs.words(name):
                if word in specs.imports:
                    module, original = specs.imports[word]
                    pending.append((place_of(module), original))
                elif word in specs.owner:
                    pending.append((place, word))
    return files, met


def described(files, met):
    """Counts of lines, and a row for each crate."""
    counts = [sum(specs.lines for specs in files.values()), sum(len(specs.code) for specs in files.values()),
              sum(len(files[place].definitions[name]) for place in files for name in met[place])]
    crates = [re.split('[ :]', line)[0] for line in (ROOT / 'crates.txt').read_text().splitlines() if line and line[0] != '#']
    rows = []
    for crate in sorted({place[0] for place in met}, key=crates.index, reverse=True):
        names = [', '.join(sorted(file.removeprefix('src/') for owner, file in met if owner == crate and file.startswith('src/') == types))
                 for types in (False, True)]
        rows.append(f'| `{crate}` | {names[0]} | {names[1]} |')
    return counts, rows


def besides(starts, files, met, stops=()):
    """What is met from these and not among those: how much it is, and a row for each crate. Adds it to those."""
    more_files, more_met = reached(starts, stops)
    more_files = {place: specs for place, specs in more_files.items() if place not in files}
    more_met = {place: names for place, names in more_met.items() if place not in met}
    (lines, code, used), rows = described(more_files, more_met)
    files.update(more_files)
    met.update(more_met)
    return f'{len(more_files)} files of {lines} lines, {code} without comments, imports and blank lines, {used} used.', rows


def block():
    engine_files = {place for place, _ in ENGINE}
    files, met = reached(CLAIM, engine_files)
    (lines, code, used), rows = described(files, met)
    claim = (f'{len(files)} files of {lines} lines, {code} of them without comments, imports and blank lines; '
             f'the definitions that it uses are {used} of these.')
    claimed, claimed_met = dict(files), dict(met)
    steps, steps_rows = besides(STEPS, claimed, claimed_met, engine_files)
    dispatcher, dispatcher_rows = besides(DISPATCHER, claimed, claimed_met, engine_files)
    engine, engine_rows = besides(ENGINE, files, met)
    report, report_rows = besides(REPORT, files, met)
    table = ['| Crate | Files of `specs/` | Types of the code in |', '|---|---|---|']
    return '\n'.join([
        MARKS[0],
        f'Demand 3: {claim}',
        '', *table, *rows, '',
        f'Six steps (document 02, L5), on these besides: {steps}',
        '', *table, *steps_rows, '',
        f'The dispatcher (document 02, L6), on these and those of demand 3 besides: {dispatcher}',
        '', *table, *dispatcher_rows, '',
        f'Demand 2, that the steps are document 01\'s, on those of demand 3 besides: {engine}',
        '', *table, *engine_rows, '',
        f'The report (document 02, L4), on those of both demands besides: {report}',
        '', *table, *report_rows,
        MARKS[1]])


def main():
    text = DOCUMENT.read_text(encoding='utf-8')
    if any(text.count(mark) != 1 for mark in MARKS):
        print('believed: docs/ARCHITECTURE.md has not each mark once')
        print('0 passed, 1 failed')
        sys.exit(1)
    before, rest = text.split(MARKS[0])
    new = before + block() + rest.split(MARKS[1])[1]
    if sys.argv[1:] == ['--check']:
        if new != text:
            print('believed: the list in docs/ARCHITECTURE.md is not up to date; tools/believed.py writes it')
        print('1 passed, 0 failed' if new == text else '0 passed, 1 failed')
        sys.exit(new != text)
    DOCUMENT.write_text(new, encoding='utf-8')


if __name__ == '__main__':
    main()
