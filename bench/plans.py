#!/usr/bin/env python3
"""Judges plans of layouts, written as SVG.

    plans.py              those that the program stored_runs prints, as they stand in its file `stdout`; and tells where a
                          plan of the folder examples is another one than is printed
    plans.py --to FOLDER  the same, and writes them into a folder, each with a PNG beside it
    plans.py --examples   writes those anew that stand in the folder examples
    plans.py SVG ..       these, each with a PNG beside it

It tells of texts that overlap, of lines that run through a text, of circles over one, of identities that stand twice, of
what lies outside the picture, and of names that aren't written. The status is 1 where there is any. Texts are judged by
boxes of a fixed advance of 6 units. A PNG is made by rsvg-convert (of the Debian package librsvg2-bin) or by chromium,
whichever is there."""
import collections
import pathlib
import shutil
import subprocess
import sys
import xml.etree.ElementTree as tree

TOP = pathlib.Path(__file__).resolve().parent.parent
STORED = TOP / 'crates/stored_runs/stdout'
NAMESPACE = '{http://www.w3.org/2000/svg}'
ADVANCE, ABOVE, BELOW = 6, 8, 2
# What may lie under a text: the tint of a section.
UNDER = ('band', 'sample')
# What has a number in it.
AROUND = ('ring',)
# What is written with its name.
NAMED = ('section', 'track', 'point', 'border', 'signal', 'detector')


def box(element):
    words = element.text or ''
    x, y, width = int(element.get('x')), int(element.get('y')), len(words) * ADVANCE
    left = {'start': x, 'middle': x - width // 2, 'end': x - width}[element.get('text-anchor')]
    return left, y - ABOVE, left + width, y + BELOW, words


def pieces(element):
    """The straight lines of an element."""
    tag = element.tag.removeprefix(NAMESPACE)
    if tag == 'line':
        yield tuple(int(element.get(name)) for name in ('x1', 'y1', 'x2', 'y2'))
    if tag in ('polyline', 'polygon'):
        spots = [tuple(map(int, spot.split(','))) for spot in element.get('points').split()]
        for one, other in zip(spots, spots[1:]):
            yield one + other


def runs_through(line, text):
    x1, y1, x2, y2 = line
    left, top, right, bottom, _ = text
    for step in range(41):
        x, y = x1 + (x2 - x1) * step / 40, y1 + (y2 - y1) * step / 40
        if left < x < right and top + 1 < y < bottom - 1:
            return True
    return False


def overlap(one, other):
    return one[0] < other[2] and other[0] < one[2] and one[1] < other[3] and other[1] < one[3]


def round_box(circle):
    x, y, radius = (int(circle.get(name)) for name in ('cx', 'cy', 'r'))
    return x - radius, y - radius, x + radius, y + radius


def frame(element):
    left, top, width, height = map(int, element.get('viewBox').split())
    return left, top, left + width, top + height


def lies_in(box, frames):
    return any(left <= box[0] and top <= box[1] and box[2] <= right and box[3] <= bottom for left, top, right, bottom in frames)


def shown(root):
    """What of the plane is seen: the picture, or its strips, which all lie in the picture."""
    strips = root.findall(NAMESPACE + 'svg')
    return [frame(strip) for strip in strips] if strips else [frame(root)]


def strips_outside(root):
    _, _, right, bottom = frame(root)
    for strip in root.findall(NAMESPACE + 'svg'):
        x, y, width, height = (int(strip.get(name)) for name in ('x', 'y', 'width', 'height'))
        if x < 0 or y < 0 or right < x + width or bottom < y + height:
            yield f'the strip at {x},{y} leaves the picture'


def names_lacking(root):
    """The elements of which the name isn't written. A long name stands on two lines. A section may have no track."""
    for group in root.iter(NAMESPACE + 'g'):
        kind, dot, name = (group.get('id') or '').partition('.')
        if kind not in NAMED or not list(group.iter(NAMESPACE + 'line')) + list(group.iter(NAMESPACE + 'text')):
            continue
        texts = [text.text or '' for text in group.iter(NAMESPACE + 'text') if text.get('class') in ('name', 'label')]
        words = ''.join(texts).removeprefix(' ')
        if not words.startswith(name):
            yield f'{kind} {name} has no name'


def outside(texts, lines, circles, root):
    """What isn't seen whole anywhere. A line may go on from one strip to the next: there its ends have to be seen."""
    frames = shown(root)
    for words in [text[4] for text in texts if not lies_in(text, frames)]:
        yield f'{words} lies outside'
    for x1, y1, x2, y2 in lines:
        if not all(lies_in((x, y, x, y), frames) for x, y in ((x1, y1), (x2, y2))):
            yield f'a line from {x1},{y1} to {x2},{y2} leaves the picture'
    for circle in circles:
        if not lies_in(circle, frames):
            yield f'a circle at {circle[0]},{circle[1]} leaves the picture'


def judge(root):
    texts, lines, circles, ids = [], [], [], collections.Counter()
    for element in root.iter():
        if element.get('id'):
            ids[element.get('id')] += 1
        kind = (element.get('class') or '').split(' ')[0]
        if element.tag == NAMESPACE + 'text':
            texts.append(box(element))
        elif element.tag == NAMESPACE + 'circle' and kind not in AROUND:
            circles.append(round_box(element))
        elif kind not in UNDER:
            lines += pieces(element)
    faults = [f'two elements have the identity {name}' for name, count in ids.items() if count > 1]
    for place, one in enumerate(texts):
        faults += [f'{one[4]} lies over {other[4]}' for other in texts[place + 1:] if overlap(one, other)]
        faults += [f'a line runs through {one[4]}' for line in lines if runs_through(line, one)]
        faults += [f'a circle lies over {one[4]}' for circle in circles if overlap(one, circle)]
    faults += outside(texts, lines, circles, root)
    faults += strips_outside(root)
    faults += names_lacking(root)
    if frame(root)[2] - frame(root)[0] > 1600:
        faults.append('the picture is too wide')
    return faults


def render(file):
    picture = file.with_suffix('.png')
    if shutil.which('rsvg-convert'):
        subprocess.run(['rsvg-convert', '-z', '1.5', file, '-o', picture], check=True)
    elif shutil.which('chromium'):
        subprocess.run(['chromium', '--headless', '--no-sandbox', f'--screenshot={picture}', file], check=True)


def stored():
    """The names and the texts of the plans that are printed: each stands behind the line that asks for it."""
    asked, lines = None, []
    for line in STORED.read_text().splitlines(keepends=True):
        if lines or (asked and line.startswith('<svg')):
            lines.append(line)
            if line == '</svg>\n':
                yield asked, ''.join(lines)
                asked, lines = None, []
        else:
            kind, *words = line.split() or ['']
            asked = '-'.join(pathlib.Path(word).stem for word in words if word != '-') if kind == 'plan' else None


def is_same(name, text):
    """Whether the plan of an example, if there is one of this name, is the one that is printed."""
    example = TOP / 'examples' / f'{name}.svg'
    return not example.exists() or example.read_text() == text


def tell(name, faults):
    print(f'{name}: {len(faults)} faults')
    for fault in faults:
        print(f'  {fault}')
    return len(faults)


def tell_stored(folder):
    found = 0
    for name, text in stored():
        found += tell(name, judge(tree.fromstring(text)))
        if not is_same(name, text):
            found += 1
            print(f'  examples/{name}.svg is another plan')
        if folder:
            file = folder / f'{name}.svg'
            file.write_text(text)
            render(file)
    return found


def write_examples():
    for name, text in stored():
        example = TOP / 'examples' / f'{name}.svg'
        if example.exists():
            example.write_text(text)
    return 0


def tell_files(files):
    found = 0
    for file in files:
        found += tell(file, judge(tree.fromstring(file.read_text())))
        render(file)
    return found


def main(words):
    if words == ['--examples']:
        return write_examples()
    if words[:1] == ['--to']:
        return 1 if tell_stored(pathlib.Path(words[1])) else 0
    return 1 if (tell_files(map(pathlib.Path, words)) if words else tell_stored(None)) else 0


if __name__ == '__main__':
    sys.exit(main(sys.argv[1:]))
