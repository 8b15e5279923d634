#!/usr/bin/env python3
"""Tries each place of a must-fail edit by itself, and beside it a harmless twin, and keeps what was seen.

A place is a pair of lines `old:` and `new:` of an edit. Three lines that `rt must-fail` passes over say more of a pair:

    twin: TEXT      behind `new:`: TEXT in place of the old text is harmless, the same value written another way
    same place:     before `old:`: the pair belongs to the place before it, as where two texts are exchanged
    every place:    before `old:`: the pair goes with every place and every twin, as a name that a `use` line must bring in

A place is good if the crate with it alone is refused and, where it has a twin, the crate with the twin alone is proved. The first shows that no
other place of the edit hides this one, the second that it is refused on a fact, and not because a proof names a form.

    tools/edit_places.py [CRATE | CRATE/EDIT]..   tries the places that are not stored yet, of these or of all edits, and stores what it saw
    tools/edit_places.py --again CRATE..          tries those that are stored too
    tools/edit_places.py --check                  compares the stored lines with the edits and with the text around their places; tries nothing

It tries them by `rt must-fail` in a temporary repository, which begins with what `rt check` keeps of this one, all places of a crate by one call; RT_JOBS
says how many at a time. A stored line begins with the edit, the place
and a digest of the place's text and of the paragraph that it stands in, so it is out of date when one of them changes. An edit with one place and no
twin has no line: `rt must-fail` tries it by itself.
Last line: 'N passed, M failed', one for each place.
"""
import dataclasses
import hashlib
import os
import pathlib
import re
import shutil
import subprocess
import sys
import tempfile

ROOT = pathlib.Path(__file__).resolve().parent.parent
STORED = ROOT / 'tests' / 'edit_places.txt'
SHOWN = 110


@dataclasses.dataclass
class Pair:
    file: str
    old: str
    new: str = ''
    twin: str = ''
    part: str = ''


@dataclasses.dataclass
class Place:
    edit: str
    number: int
    pairs: list
    shared: list
    only: bool = False

    @property
    def label(self):
        return f'{self.edit.split("/")[1]}.{self.number}'

    @property
    def twin(self):
        return any(pair.twin for pair in self.pairs)


def edit_files():
    return sorted(ROOT.glob('crates/*/must-fail/*.edit'))


def name_of(path):
    return f'{path.parent.parent.name}/{path.stem}'


def pairs_of(path):
    """The pairs of an edit, read as `rt must-fail` reads them."""
    found, file, part = [], '', ''
    for line in path.read_text(encoding='utf-8').split('\n'):
        if line.startswith('file: '):
            file = line[6:]
        elif line in ('same place:', 'every place:'):
            part = line
        elif line.startswith('old: '):
            found.append(Pair(file, line[5:], part=part))
            part = ''
        elif line.startswith('new:'):
            found[-1].new = line[4:].removeprefix(' ')
        elif line.startswith('twin: '):
            found[-1].twin = line[6:]
    return found


def places_of(path):
    """The places of an edit, and the pairs that go with each of them."""
    places, shared = [], []
    for pair in pairs_of(path):
        if pair.part == 'every place:':
            shared.append(pair)
        elif pair.part == 'same place:' and places:
            places[-1].pairs.append(pair)
        else:
            places.append(Place(name_of(path), len(places) + 1, [pair], shared))
    for place in places:
        place.only = len(places) == 1
    return places


def paragraph(crate, pair):
    """The lines around the old text, up to the next empty ones; nothing where another pair has to make that text first."""
    file = ROOT / 'crates' / crate / pair.file
    text = file.read_text(encoding='utf-8') if file.is_file() else ''
    return next((part for part in re.split(r'\n\s*\n', text) if pair.old in part), '')


def digest(place):
    crate = place.edit.split('/')[0]
    parts = [(pair.file, pair.old, pair.new, pair.twin, paragraph(crate, pair)) for pair in place.pairs]
    parts += [(pair.file, pair.old, pair.new) for pair in place.shared]
    return hashlib.sha256(repr(parts).encode()).hexdigest()[:12]


def edit_text(place, twin):
    """An edit with this place alone, or with its twin in its place."""
    lines = [f'# {place.edit}, place {place.number}']
    for pair in place.shared + place.pairs:
        new = pair.twin if twin and pair in place.pairs else pair.new
        if pair in place.pairs and twin and not pair.twin:
            continue
        lines += [f'file: {pair.file}', f'old: {pair.old}', f'new: {new}']
    return '\n'.join(lines) + '\n'


def scratch(crate, folder):
    """A repository with all crates and no other edits than those that will be put into this one. rt finds by itself what is proved of them elsewhere."""
    for name in ('crates.txt', 'HANDLES'):
        if (ROOT / name).is_file():
            shutil.copy(ROOT / name, folder)
    shutil.copytree(ROOT / 'crates', folder / 'crates', ignore=shutil.ignore_patterns('must-fail', 'out'))
    (folder / 'crates' / crate / 'must-fail').mkdir()


def shortened(line):
    line = re.sub(r'^(note: )?(\./)?', '', line).replace(': error: ', ': ')
    line = re.sub(r'\s+', ' ', line.replace('|', '/'))
    return line if len(line) <= SHOWN else line[:SHOWN].rstrip() + '..'


def verdict(said, crate, label):
    """What rt must-fail says of an edit: `refused:` and on what, `passes`, or what else came of it, as where only a name is missing."""
    found = re.search(rf'^rt: must-fail {crate}/{re.escape(label)}\.edit: (.*)$', said, re.M)
    if not found:
        return 'not tried'
    refused = re.match(r'refused, as it must be(?:: (.*))?$', found.group(1))
    if refused:
        return 'refused: ' + shortened(refused.group(1) or '')
    return 'passes' if found.group(1).startswith('NOT REFUSED') else found.group(1).replace('|', '/')[:SHOWN]


def tried(places):
    """(place, what came of it, what came of its twin) for some places of one crate."""
    crate = places[0].edit.split('/')[0]
    with tempfile.TemporaryDirectory() as name:
        folder = pathlib.Path(name)
        scratch(crate, folder)
        for place in places:
            (folder / 'crates' / crate / 'must-fail' / f'{place.label}.edit').write_text(edit_text(place, False), encoding='utf-8')
            if place.twin:
                (folder / 'crates' / crate / 'must-fail' / f'{place.label}.twin.edit').write_text(edit_text(place, True), encoding='utf-8')
        said = subprocess.run(['rt', 'must-fail', crate], cwd=folder, capture_output=True, text=True, errors='replace', check=False).stdout
        for place in places:
            twin = verdict(said, crate, f'{place.label}.twin') if place.twin else 'none'
            yield place, verdict(said, crate, place.label), twin


def read_stored():
    """(edit, place) to (digest, verdict, twin)."""
    stored = {}
    for line in STORED.read_text(encoding='utf-8').split('\n') if STORED.is_file() else []:
        if line and not line.startswith('#'):
            head, seen, twin = line.split(' | ')
            edit, number, key = head.split(' ')
            stored[edit, int(number)] = (key, seen, twin.removeprefix('twin '))
    return stored


def write_stored(stored):
    lines = ['# Written by tools/edit_places.py: what came of each place of each must-fail edit when it was tried alone, and of its harmless twin.']
    lines += [f'{edit} {number} {key} | {seen} | twin {twin}' for (edit, number), (key, seen, twin) in sorted(stored.items())]
    STORED.write_text('\n'.join(lines) + '\n', encoding='utf-8')


def alone(place):
    """Whether the gate itself tries this place by itself, so that without a twin there is nothing to store."""
    return place.only and not place.twin


def fault(place, stored):
    """What is wrong with the stored line of a place, or None."""
    if alone(place):
        return None
    shown = f'crates/{place.edit.split("/")[0]}/must-fail/{place.edit.split("/")[1]}.edit, place {place.number}'
    key, seen, twin = stored.get((place.edit, place.number), ('', '', ''))
    if not key:
        return f'{shown}: not tried by itself'
    if key != digest(place):
        return f'{shown}: the edit or the text around it changed since it was tried'
    if not seen.startswith('refused: '):
        return f'{shown}: {seen}'
    return None if twin in ('passes', 'none') else f'{shown}: its twin: {twin}'


def report(places, stored):
    faults = [(place, fault(place, stored)) for place in places]
    for _, wrong in faults:
        if wrong:
            print(f'edit_places: {wrong}')
    known = {(place.edit, place.number) for place in places if not alone(place)}
    gone = [key for key in sorted(stored) if key not in known]
    for edit, number in gone:
        print(f'edit_places: stored, and there is no such place: {edit} {number}')
    without = sum(not place.twin for place in places)
    print(f'edit_places: {len(places)} places in {len(edit_files())} edits, {without} of them without a twin')
    failed = sum(1 for _, wrong in faults if wrong) + len(gone)
    print(f'{len(places) + len(gone) - failed} passed, {failed} failed')
    return failed == 0


def wanted(path, words):
    return not words or path.parent.parent.name in words or name_of(path) in words


def store(seen):
    """Adds what was seen of some places to what is stored by now, and drops what is stored of places that are gone."""
    stored = read_stored()
    for place, verdict_of, twin in seen:
        print(f'{place.edit} {place.number}: {verdict_of}; twin {twin}', flush=True)
        stored[place.edit, place.number] = (digest(place), verdict_of, twin)
    known = {(place.edit, place.number) for path in edit_files() for place in places_of(path) if not alone(place)}
    write_stored({key: value for key, value in stored.items() if key in known})


def try_all(words, again):
    stored, by_crate = read_stored(), {}
    for path in edit_files():
        places = [place for place in places_of(path) if not alone(place)]
        places = [place for place in places if again or stored.get((place.edit, place.number), [''])[0] != digest(place)]
        if places and wanted(path, words):
            by_crate.setdefault(path.parent.parent.name, []).extend(places)
    for crate, places in by_crate.items():
        subprocess.run(['rt', 'check'], cwd=ROOT / 'crates' / crate, stdout=subprocess.DEVNULL, check=True)
        store(list(tried(places)))


def unknown(words):
    known = {name_of(path) for path in edit_files()} | {path.parent.parent.name for path in edit_files()}
    return [word for word in words if word not in known]


def main():
    words = sys.argv[1:]
    os.environ.setdefault('RT_JOBS', '1')
    if words != ['--check']:
        names = [word for word in words if word != '--again']
        if unknown(names):
            sys.exit(f'edit_places: no crate with edits and no edit: {" ".join(unknown(names))}; the first lines of this file say what it takes')
        try_all(names, '--again' in words)
    places = [place for path in edit_files() for place in places_of(path)]
    return 0 if report(places, read_stored()) else 1


if __name__ == '__main__':
    sys.exit(main())
