#!/usr/bin/env python3
"""Checks that what the documents point to is there.

- every `path/to/file:name` in PROMISES, ARCHITECTURE, DECISIONS, PROOFS and CHANGING names a file of the repository in which that name is declared;
- every path in backquotes, must-fail edits among them, and every link names a file, and a link's heading is one of that file;
- every must-fail edit is named in PROMISES, and says in its first line which claim it shows;
- PROMISES has a row for each of K1 to K9, with as many rows of the table of cases as that file has;
- returned numbers and phases have in REFERENCE the numbers and names that the header gives them.

Last line: 'N passed, M failed', one for each place, edit, case and number.
"""
import pathlib
import re
import sys

ROOT = pathlib.Path(__file__).resolve().parent.parent
NAMING = ['PROMISES.md', 'ARCHITECTURE.md', 'DECISIONS.md', 'PROOFS.md', 'CHANGING.md']
FOLDERS = 'crates|tests|tools|docs|examples|bench|include|rust'


def documents():
    return [path for path in sorted(ROOT.glob('*.md')) + sorted(ROOT.glob('*/*.md')) if path.parent.name != 'target']


def declared(path, name):
    """Whether the file declares the name: a definition or law of antt, a Rattle or Rust item, a heading or a target."""
    if not path.is_file():
        return False
    text = path.read_text(encoding='utf-8')
    plain = re.escape(name)
    forms = [rf'^\s*(unfoldable |abbrev )*(pub )?(data |record )?{plain}( |$)', rf'\b(fn|struct|enum|const|mod|impl|type) {plain}\b', rf'^# {plain}$']
    return any(re.search(form, text, re.M) for form in forms)


def anchors(path):
    headings = re.findall(r'^#+ (.*)$', path.read_text(encoding='utf-8'), re.M)
    return {re.sub(r'[^\w\- ]', '', heading.lower()).replace(' ', '-') for heading in headings}


def places():
    """(what is wrong or None) for each name, path and link of the documents."""
    for document in documents():
        text = document.read_text(encoding='utf-8')
        shown = document.relative_to(ROOT)
        if document.name in NAMING:
            for file, name in sorted(set(re.findall(r'`([\w./-]+\.\w+):([^`\s]+)`', text))):
                yield None if declared(ROOT / file, name) else f'{shown}: {file} declares no {name}'
        for path in sorted(set(re.findall(rf'`((?:{FOLDERS})/[\w./-]+|\w+/(?:src|specs|proofs)/[\w./-]+)`', text))):
            if not re.search('NAME|CRATE|FILE', path):
                yield None if any((top / path).exists() for top in (ROOT, ROOT / 'crates', document.parent)) else f'{shown}: there is no {path}'
        for target in sorted(set(re.findall(r'\]\(([^)\s]+)\)', text))):
            yield None if linked(document, target) else f'{shown}: no {target}'


def linked(document, target):
    file, _, heading = target.partition('#')
    path = document.parent / file if file else document
    return path.exists() and (not heading or heading in anchors(path))


def edits():
    """(what is wrong or None) for each must-fail edit, twice: its first line, and its name in PROMISES."""
    promises = (ROOT / 'docs' / 'PROMISES.md').read_text(encoding='utf-8')
    for edit in sorted(ROOT.glob('crates/*/must-fail/*.edit')):
        shown = edit.relative_to(ROOT)
        first = edit.read_text(encoding='utf-8').split('\n')[0]
        yield None if re.match(r'^# \w', first) else f'{shown}: its first line names no claim'
        yield None if f'`{shown}`' in promises else f'docs/PROMISES.md: no row names {shown}'


def cases():
    """(what is wrong or None) for each of K1 to K9."""
    text = (ROOT / 'docs' / 'PROMISES.md').read_text(encoding='utf-8')
    rows = {int(case): (int(number), file) for case, number, file in re.findall(r'^\| K(\d) \|.*\| (\d+) in `([^`]+)` \|$', text, re.M)}
    for case in range(1, 10):
        number, file = rows.get(case, (0, ''))
        path = ROOT / file
        found = len(re.findall(rf'number = {case};', path.read_text(encoding='utf-8'))) if path.is_file() else 0
        yield None if 0 < number == found else f'docs/PROMISES.md: K{case} has {number} rows, {found} found in {file or "no file"}'


def numbers():
    """(what is wrong or None) for each returned number and phase of the header."""
    text = (ROOT / 'docs' / 'REFERENCE.md').read_text(encoding='utf-8')
    header = (ROOT / 'include' / 'duskclamp.h').read_text(encoding='utf-8')
    returned = header[header.index('/* The returned numbers'):]
    for name, number in re.findall(r'^#define DUSKCLAMP_(\w+) (\d+) ', returned, re.M):
        yield None if f'| {number} | `{name}` |' in text else f'docs/REFERENCE.md: {name} is {number} in the header'
    for name, number in re.findall(r'^#define DUSKCLAMP_PHASE_(\w+) (\d+) ', header, re.M):
        name = name.lower().replace('_', ' ')
        yield None if f'| {number} | {name} |' in text else f'docs/REFERENCE.md: phase {number} is {name} in the header'


def main():
    results = [*places(), *edits(), *cases(), *numbers()]
    wrong = [result for result in results if result]
    for result in wrong:
        print(f'promises: {result}')
    print(f'{len(results) - len(wrong)} passed, {len(wrong)} failed')
    sys.exit(1 if wrong else 0)


if __name__ == '__main__':
    main()
