#!/usr/bin/env python3
"""Compares a picture of tools/report_chart.py with the report that it is of.

    tests/chart_facts.py REPORT PICTURE

Prints how many bars there are, how many of them are empty and the least difference between the greys of two ways, in hundredths; or what is wrong.
"""
import itertools
import pathlib
import sys
import xml.etree.ElementTree as ElementTree

SPACE = '{http://www.w3.org/2000/svg}'
NAMES = ['anonymous reservation', 'reserved store', 'free word', 'nesting in a flat word', 'through the monitor (phases 4, 6, 7)']
EMPTY = 'no enters'


def ensure(condition, what):
    if not condition:
        sys.exit(f'wrong: {what}')


def texts(part):
    return [text.text for text in part.iter(SPACE + 'text')]


def place(box):
    return [float(box.get(key)) for key in ('x', 'y', 'width', 'height')]


def stack(bar):
    """The segments of a bar, each with its way."""
    boxes = [box for box in bar.iter(SPACE + 'rect') if box.get('fill').startswith('url(#way-')]
    return [(int(box.get('fill')[len('url(#way-'):-1]), *place(box)) for box in boxes]


def compare(bar, name, figures, ends):
    """One bar: its labels, and segments that follow each other from one end of the axis to the other, each as long as its share."""
    enters = sum(figures)
    expected = [name, *([] if enters else [EMPTY]), f'{enters:,}']
    ensure(texts(bar) == expected, f'bar {name} says {texts(bar)}')
    segments = stack(bar)
    ensure([way for way, *_ in segments] == [way for way, figure in enumerate(figures, 1) if figure], f'bar {name} has the ways {segments}')
    left = ends[0]
    for way, x, _, width, _ in segments:
        ensure(abs(x - left) < 0.001, f'bar {name} has a hole before way {way}')
        ensure(abs(width - (ends[1] - ends[0]) * figures[way - 1] / enters) < 0.011, f'bar {name}: way {way} is {width} long')
        left = x + width
    ensure(not enters or abs(left - ends[1]) < 0.001, f'bar {name} ends at {left}')


def covers(left, top, width, height, x, y):
    return left <= x < left + width and top <= y < top + height


def grey(pattern):
    """The mean grey of a tile, 0 black to 1 white, by the middle of each pixel: shapes end between pixels."""
    size = int(pattern.get('width'))
    shades = []
    for x, y in itertools.product([step + 0.5 for step in range(size)], repeat=2):
        over = [box.get('fill') for box in pattern if covers(*place(box), x, y)]
        red, green, blue = (int(over[-1][start:start + 2], 16) for start in (1, 3, 5))
        shades.append((0.299 * red + 0.587 * green + 0.114 * blue) / 255)
    return sum(shades) / len(shades)


def within(picture):
    """Bars do not touch each other, and nothing stands outside the picture."""
    width, height = float(picture.get('width')), float(picture.get('height'))
    rows = [place(next(bar.iter(SPACE + 'rect'))) for bar in bars(picture)]
    ensure(all(above[1] + above[3] < below[1] for above, below in zip(rows, rows[1:])), 'bars touch each other')
    for box in picture.iter(SPACE + 'rect'):
        x, y, wide, high = place(box)
        ensure(0 <= x and 0 <= y and x + wide <= width and y + high <= height, f'a box at {x}, {y} is not inside')


def bars(picture):
    return [group for group in picture.iter(SPACE + 'g') if group.get('class').split()[0] == 'bar']


def main(report, picture):
    lines = [list(map(int, line.split())) for line in pathlib.Path(report).read_text(encoding='ascii').splitlines()]
    picture = ElementTree.parse(picture).getroot()
    groups = {group.get('class'): group for group in picture.iter(SPACE + 'g')}
    ensure(texts(groups['legend']) == NAMES, f'the legend says {texts(groups["legend"])}')
    said = texts(groups['axis'])
    ensure(all(f'{quarter} %' in said for quarter in (0, 25, 50, 75, 100)) and 'object' in said and 'enters' in said, f'the axis says {said}')
    ensure('Enters by the way in which they finished' in texts(picture), 'there is no title')
    ruled = [float(line.get('x1')) for line in groups['axis'].iter(SPACE + 'line')]
    ensure(len(bars(picture)) == len(lines), f'{len(bars(picture))} bars for {len(lines)} lines')
    for bar, line in zip(bars(picture), [lines[-1], *lines[:-1]]):
        compare(bar, str(line[0] or 'all'), line[1:6], (min(ruled), max(ruled)))
    within(picture)
    greys = sorted(map(grey, picture.iter(SPACE + 'pattern')))
    nearest = min(darker - lighter for lighter, darker in zip(greys, greys[1:]))
    print(f'{len(lines)} bars, {sum(not any(line[1:6]) for line in lines)} empty, {len(greys)} greys {100 * nearest:.0f} apart')


main(*sys.argv[1:])
