#!/usr/bin/env python3
"""Whether pages of tools/report.py are shown without horizontal scrolling: the widest row of each source, in pixels, beside the room that a window of 1,280 pixels leaves.

    python3 bench/page_width.py [PAGE..]

Without pages, those of examples/heat.f and examples/relief.f, a program of eight modules, from their stored texts. No browser is needed: widths are taken from the style of the page. A character of code takes 0.602 of its height,
as in DejaVu Sans Mono, and one of other text at most 0.62. Whatever else is wide wraps or shrinks by the style: conditions, names, drawings. The status is 1 where a row is wider than its room.
"""
import os
import subprocess
import sys
import tempfile
from html.parser import HTMLParser

from reference import TOP

WINDOW, SCROLL_BAR, BODY = 1280, 16, 1240
# paddings of the body, borders of the source, paddings of a row
AROUND = 2 * 24 + 2 * 1 + 2 * 12
CODE, PLAIN = 14 * 0.602, 13 * 0.62
FOLD, NUMBER, BAR, BARS, BADGE = 16, 5 * CODE + 10, 8, 10, 12 + 20
EXAMPLES = ('heat', 'relief')


class Rows(HTMLParser):
    """The widths of the rows of a source."""

    def __init__(self):
        super().__init__()
        self.widths, self.open, self.wide = [], [], 0.0

    def handle_starttag(self, tag, attrs):
        classes = (dict(attrs).get('class') or '').split()
        if 'row' in classes:
            self.widths.append(FOLD + NUMBER + BARS)
            self.open = []
        if self.widths and tag == 'i':
            self.widths[-1] += BAR
        if self.widths and 'mark' in classes:
            self.widths[-1] += BADGE
        if tag in ('span', 'a', 'div', 'summary', 'details', 'code', 'table', 'p'):
            self.open.append(classes)

    def handle_endtag(self, tag):
        if self.open and tag in ('span', 'a', 'div', 'summary', 'details', 'code', 'table', 'p'):
            self.open.pop()

    def handle_data(self, data):
        inside = {name for classes in self.open for name in classes}
        if self.widths and 'row' in inside:
            self.widths[-1] += len(data) * (CODE if 'text' in inside else PLAIN if 'mark' in inside else 0)


def widest(page):
    """The width of the widest row of a page."""
    rows = Rows()
    with open(page, encoding='utf-8') as file:
        text = file.read()
    rows.feed(text[text.index('<body>'):])
    return max(rows.widths, default=0)


def made(name, room):
    """The page of an example, from its stored text."""
    page = os.path.join(room, f'{name}.html')
    words = ['tools/report.py', '--written', f'examples/{name}.out', f'examples/{name}.f', '-o', page]
    subprocess.run([sys.executable, *words], cwd=TOP, stdout=subprocess.DEVNULL, check=True)
    return page


def main():
    room = min(BODY, WINDOW - SCROLL_BAR) - AROUND
    with tempfile.TemporaryDirectory() as folder:
        pages = sys.argv[1:] or [made(name, folder) for name in EXAMPLES]
        widths = [(page, widest(page)) for page in pages]
    for page, width in widths:
        print(f'{os.path.basename(page)}: {width:.0f} of {room} pixels')
    return int(any(width > room for _, width in widths))


if __name__ == '__main__':
    sys.exit(main())
