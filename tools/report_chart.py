#!/usr/bin/env python3
"""Draws what ./report prints: one SVG with a stacked bar for each object, by the ways in which its enters finished.

    ./report FILE | tools/report_chart.py > report.svg
    tools/report_chart.py REPORT > report.svg

Bars are shares, all of one length. Objects are uneven: one is entered a thousand times as often as another, and bars of counts would leave most
objects a line that nobody can read. How much an object counts for is said beside its bar, by the number of its enters and a thin bar of that length.
The row for all objects stands apart, above the others. The five ways differ in hatching and in grey, so print and eyes need no colour.

Status 1, and a message, where the input is no report; 2 where it cannot be read, and for other arguments.
"""
import re
import sys
from xml.sax.saxutils import escape

# In the report's order: name, ground and ink, the ink's shapes in a tile (x, y, width, height), the tile's size and how it is turned. No two have
# greys nearer to each other than a sixth of the way from black to white, since any two may be neighbours where those between are 0.
WAYS = [
    ('anonymous reservation', '#ffffff', '#444444', [(3, 3, 2, 2)], 8, 45),
    ('reserved store', '#589bd0', '#589bd0', [], 8, 0),
    ('free word', '#ffffff', '#2e8b57', [(0, 0, 3, 7)], 7, 45),
    ('nesting in a flat word', '#e69f00', '#3a2400', [(0, 0, 2, 6), (0, 0, 6, 2)], 6, 0),
    ('through the monitor (phases 4, 6, 7)', '#1f2430', '#1f2430', [], 8, 0),
]
TITLE = 'Enters by the way in which they finished'
EDGE = {'stroke': '#222222', 'stroke_width': 0.6}
MOST_OBJECTS = 64
WHOLE = 10_000

# Places in pixels. A hundredth of BAR can still be seen; COLUMN is wider than the longest name but the last, which has nothing behind it.
NUMBERS, LEFT, BAR, COUNTS, THIN, WIDTH = 66, 84, 600, 752, (762, 110), 892
ROW, HIGH, FONT = 17, 12, 12
LEGEND, COLUMN, TOTAL, FIRST = 64, 215, 148, 184


class NoReport(Exception):
    """The input is not what the report prints."""


def number(word):
    if not re.fullmatch('0|[1-9][0-9]{0,9}', word):
        raise NoReport(f'{word[:20]!r} is no number of a report')
    return int(word)


def row(line, expected):
    """The five figures of a line with this object number, after a look at whether its shares and remainders are theirs."""
    words = line.split(' ')
    if len(words) != 16:
        raise NoReport(f'a line of {len(words)} fields, where a report has 16: {line[:60]!r}')
    found, *values = map(number, words)
    figures, shares, remainders = values[:5], values[5:10], values[10:]
    if found != expected:
        raise NoReport(f'a line for object {found}, where that for {expected} should be')
    enters = sum(figures)
    if list(zip(shares, remainders)) != [divmod(WHOLE * figure, enters) if enters else (0, 0) for figure in figures]:
        raise NoReport(f'the shares in the line for object {found} are not those of its figures')
    return figures


def rows(text):
    """The figures of each object, and those of all."""
    if text == '24\n':
        raise NoReport('24 is no report: its input had more than 60,000 lines')
    if not text.endswith('\n'):
        raise NoReport('a report ends with a whole line')
    *objects, last = text[:-1].split('\n')
    if len(objects) > MOST_OBJECTS:
        raise NoReport(f'{len(objects)} objects, where a report has at most {MOST_OBJECTS}')
    figures = [row(line, place) for place, line in enumerate(objects, 1)]
    total = row(last, 0)
    if total != [sum(column) for column in zip([0] * len(WAYS), *figures)]:
        raise NoReport('the line for all objects is not their sum')
    return figures, total


def element(name, text=None, **attributes):
    inside = ''.join(f' {key.rstrip("_").replace("_", "-")}="{escape(str(value), {chr(34): "&quot;"})}"' for key, value in attributes.items())
    return f'<{name}{inside}/>' if text is None else f'<{name}{inside}>{text}</{name}>'


def label(x, y, text, **attributes):
    return element('text', escape(text), x=x, y=y, **attributes)


def box(x, y, width, height, **attributes):
    return element('rect', attributes.pop('text', None), x=x, y=y, width=width, height=height, **attributes)


def beside(y, height):
    """Where a line of text stands that is as high as the box at y."""
    return y + height // 2 + 4


def pixels(hundredths):
    """A length without rounding by the machine's arithmetic, so that the picture is the same everywhere."""
    return f'{hundredths // 100}.{hundredths % 100:02}'


def patterns():
    for place, (_, ground, ink, shapes, size, turn) in enumerate(WAYS, 1):
        inside = box(0, 0, size, size, fill=ground) + ''.join(box(*shape, fill=ink) for shape in shapes)
        yield element('pattern', inside, id=f'way-{place}', width=size, height=size, patternUnits='userSpaceOnUse',
                      patternTransform=f'rotate({turn})')


def legend():
    """The ways in the order of the stack, three in the first line."""
    for place, (name, *_) in enumerate(WAYS):
        x, y = LEFT + place % 3 * COLUMN, LEGEND + place // 3 * 20
        yield box(x, y, 28, HIGH, fill=f'url(#way-{place + 1})', **EDGE)
        yield label(x + 34, beside(y, HIGH), name)


def axis(bottom):
    """A line for each quarter behind the bars, and what it says above and below them."""
    for quarter in range(5):
        x = LEFT + BAR * quarter // 4
        yield element('line', x1=x, y1=TOTAL - 8, x2=x, y2=bottom, stroke='#bbbbbb', stroke_width=1)
        for y in (TOTAL - 13, bottom + 15):
            yield label(x, y, f'{25 * quarter} %', text_anchor='middle')
    yield label(LEFT + BAR // 2, TOTAL - 29, "share of the row's finished enters", text_anchor='middle')
    yield label(NUMBERS, TOTAL - 13, 'object', text_anchor='end')
    yield label(COUNTS, TOTAL - 13, 'enters', text_anchor='end')


def segments(figures, y, height, whose):
    """The stacked bar of a row; without enters it is an empty box that says so."""
    enters, before = sum(figures), 0
    if not enters:
        yield box(LEFT, y, BAR, height, fill='#ffffff', stroke='#777777', stroke_width=0.6, stroke_dasharray='3 3', class_='none')
        yield label(LEFT + 8, beside(y, height), 'no enters', font_size=11, fill='#555555')
    for place, figure in enumerate(figures, 1):
        start, end = (100 * BAR * part // max(enters, 1) for part in (before, before + figure))
        before += figure
        if figure:
            share = WHOLE * figure // enters
            said = element('title', escape(f'{whose}, {WAYS[place - 1][0]}: {figure:,} of {enters:,} enters, {share // 100}.{share % 100:02} %'))
            yield box(pixels(100 * LEFT + start), y, pixels(end - start), height, fill=f'url(#way-{place})', text=said, **EDGE)


def bar(name, figures, y, height, most):
    """A row: its name, its stack, the number of enters, and as a thin bar what part of `most` they are; none where that is 0."""
    whose = f'object {name}' if name.isdecimal() else f'{name} objects'
    yield label(NUMBERS, beside(y, height), name, text_anchor='end')
    yield from segments(figures, y, height, whose)
    yield label(COUNTS, beside(y, height), f'{sum(figures):,}', text_anchor='end')
    if most and sum(figures):
        yield box(THIN[0], y + height // 2 - 2, pixels(100 * THIN[1] * sum(figures) // most), 4, fill='#666666')


def group(name, parts):
    return element('g', '\n' + '\n'.join(parts) + '\n', class_=name)


def counted(number, thing):
    return f'{number:,} {thing}{"" if number == 1 else "s"}'


def chart(figures, total):
    most = max(map(sum, figures), default=0)
    bottom = FIRST + ROW * len(figures)
    height = bottom + 28
    about = f'{counted(len(figures), "object")}, {counted(sum(total), "enter")}'
    parts = [element('title', f'{TITLE}: {about}'), element('defs', '\n' + '\n'.join(patterns()) + '\n'), box(0, 0, WIDTH, height, fill='#ffffff'),
             label(LEFT, 28, TITLE, font_size=17, font_weight='bold'),
             label(LEFT, 48, f'{about}; bars are shares, the numbers and thin bars beside them count enters'),
             group('legend', legend()), group('axis', axis(bottom)), group('bar all', bar('all', total, TOTAL, HIGH + 6, 0)),
             element('line', x1=20, y1=FIRST - 9, x2=WIDTH - 20, y2=FIRST - 9, stroke='#222222', stroke_width=1)]
    parts += [group('bar', bar(str(place), five, FIRST + ROW * (place - 1), HIGH, most)) for place, five in enumerate(figures, 1)]
    picture = element('svg', '\n' + '\n'.join(parts) + '\n', xmlns='http://www.w3.org/2000/svg', width=WIDTH, height=height,
                      viewBox=f'0 0 {WIDTH} {height}', font_family='sans-serif', font_size=FONT, role='img')
    return f'<!-- The picture of a report, made by tools/report_chart.py -->\n{picture}'


def failed(why, status):
    print(f'report_chart: {why}', file=sys.stderr)
    sys.exit(status)


def main():
    if sys.argv[1:] in (['--help'], ['-h']):
        print(__doc__)
        return
    if len(sys.argv) > 2 or sys.argv[-1].startswith('-'):
        failed('usage: tools/report_chart.py [REPORT]', 2)
    try:
        with open(sys.argv[1] if len(sys.argv) == 2 else 0, encoding='ascii', errors='replace', newline='') as report:
            text = report.read(1 << 20)
    except OSError as error:
        failed(error, 2)
    try:
        picture = chart(*rows(text))
    except NoReport as error:
        failed(error, 1)
    print(picture)


if __name__ == '__main__':
    main()
