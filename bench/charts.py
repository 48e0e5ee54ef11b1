#!/usr/bin/env python3
"""Judges charts of sessions and of nodes' records, written as SVG.

    charts.py              those that the program stored_runs prints, as they stand in its file `stdout`
    charts.py --to FOLDER  the same, and writes them into a folder, each with a PNG beside it
    charts.py SVG ..       these, each with a PNG beside it

It tells of texts that overlap, of what lies outside the picture, of identities that stand twice, of rows that lack their
name, and of bands that don't go on where their last span ended. The status is 1 where there is any, and where there is no
chart. Texts are judged and a PNG is made as by plans.py."""
import pathlib
import sys
import xml.etree.ElementTree as tree

from plans import NAMESPACE, TOP, box, outside, overlap, pieces, render, tell

STORED = TOP / 'crates/stored_runs/stdout'
# Where the bands of a row begin and end. One that begins at the end is a unit long.
LEFT, RIGHT = 190, (1570, 1571)
ROWS = ('signal', 'point', 'section', 'route', 'link', 'node')


def marks(group, tag):
    return list(group.iter(NAMESPACE + tag))


def ends_of_bands(spans, anywhere):
    """Where each band of a row ends, or where a span begins elsewhere than behind the one before it. That of a node's record
    begins where something is told first."""
    ends = []
    for begin, end in spans:
        if ends and ends[-1] == begin:
            ends[-1] = end
        elif begin == LEFT or anywhere:
            ends.append(end)
        else:
            yield f'a span begins at {begin}'
    yield from (f'a band ends at {end}' for end in ends if end not in RIGHT)


def row_faults(group, anywhere):
    """What is wrong in a row."""
    kind, _, name = group.get('id').partition('.')
    if kind not in ROWS:
        return
    if [text.text for text in marks(group, 'text') if text.get('class') == 'name'] != [name]:
        yield 'lacks its name'
    lines = [line for line in marks(group, 'line') if line.get('class').startswith('band ')]
    yield from ends_of_bands([(int(line.get('x1')), int(line.get('x2'))) for line in lines], anywhere)


def judge(root, anywhere):
    groups = marks(root, 'g')
    ids = [group.get('id') for group in groups]
    texts = [box(text) for text in marks(root, 'text')]
    lines = [line for mark in marks(root, 'line') + marks(root, 'polygon') for line in pieces(mark)]
    faults = [f'two elements have the identity {name}' for name in sorted(set(ids)) if ids.count(name) > 1]
    for place, one in enumerate(texts):
        faults += [f'{one[4]} lies over {other[4]}' for other in texts[place + 1:] if overlap(one, other)]
    faults += outside(texts, lines, [], root)
    return faults + [f'{group.get("id")}: {fault}' for group in groups for fault in row_faults(group, anywhere)]


def stored():
    """The names and the texts of the charts that are printed: each stands behind the line that asks for it."""
    asked, lines = None, []
    for line in STORED.read_text().splitlines(keepends=True):
        if line.startswith(('chart ', 'chart-node ')):
            asked = '-'.join(word.split('/')[-1].split('.')[0] for word in line.split()[1:] if word != '-')
            asked += '-node' * line.startswith('chart-node ')
        elif asked and (line.startswith('<svg') or lines):
            lines.append(line)
            if line == '</svg>\n':
                yield asked, ''.join(lines)
                asked, lines = None, []


def main(words):
    folder = pathlib.Path(words[1]) if words[:1] == ['--to'] else None
    files = [] if folder else list(map(pathlib.Path, words))
    charts = [(file, file.read_text()) for file in files] or list(stored())
    found = 0 if charts else 1
    for name, text in charts:
        anywhere = str(name).removesuffix('.svg').endswith('-node')
        found += tell(name, judge(tree.fromstring(text), anywhere))
        if folder:
            (folder / f'{name}.svg').write_text(text)
            render(folder / f'{name}.svg')
        elif files:
            render(name)
    return 1 if found else 0


if __name__ == '__main__':
    sys.exit(main(sys.argv[1:]))
