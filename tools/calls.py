"""Who calls whom, as a drawing: an SVG with a box for each module, callers to the left of what they call."""
from html import escape
from typing import Dict, List, Tuple

from written import Module

# The sizes of the drawing, in pixels.
CHARACTER, BOX, ROW, GAP, EDGE = 8.5, 44, 62, 70, 8


def levels(modules: List[Module]) -> Dict[str, int]:
    """The column of each module: one more than the last of its callers. Calls have no cycle."""
    column = {module.name: 0 for module in modules}
    for _ in modules:
        for module in modules:
            for callee in module.calls:
                if callee in column:
                    column[callee] = max(column[callee], column[module.name] + 1)
    return column


def columns(modules: List[Module]) -> List[List[Module]]:
    """The modules of each column, each near the callers in the columns before it."""
    level, row = levels(modules), {}
    found: List[List[Module]] = []
    for number in range(max(level.values()) + 1):
        here = [module for module in modules if level[module.name] == number]
        here.sort(key=lambda module: mean([row[it.name] for it in modules if module.name in it.calls and it.name in row]))
        row.update({module.name: place for place, module in enumerate(here)})
        found.append(here)
    return found


def mean(numbers: List[int]) -> float:
    return sum(numbers) / len(numbers) if numbers else 0.0


def about(module: Module) -> str:
    """The second line of a box."""
    parallel = sum(loop.private is not None for loop in module.loops)
    return f'{parallel} of {len(module.loops)} parallel' if module.loops else 'no loops'


def width_of(module: Module) -> float:
    return max(len(module.name) * CHARACTER * 1.1, len(about(module)) * CHARACTER * 0.8) + 24


def places(modules: List[Module]) -> Tuple[Dict[str, Tuple[float, float, float]], float, float]:
    """The left edge, the middle and the width of each box, and the size of the whole. A column is in the middle of the height."""
    found: Dict[str, Tuple[float, float, float]] = {}
    drawn = columns(modules)
    height = max(len(column) for column in drawn) * ROW
    left = float(EDGE)
    for column in drawn:
        top = (height - len(column) * ROW) / 2
        width = max(width_of(module) for module in column)
        for place, module in enumerate(column):
            found[module.name] = (left, top + place * ROW + ROW / 2, width)
        left += width + GAP
    return found, left - GAP + EDGE, height


def line(start: Tuple[float, float, float], end: Tuple[float, float, float], arrow: str) -> str:
    """The line of a call, from the right of the caller to the left of what it calls."""
    x, y, across = start[0] + start[2], start[1], end[0]
    bend = (across - x) / 2
    return f'<path class="call" d="M{x:.0f},{y:.0f} C{x + bend:.0f},{y:.0f} {across - bend:.0f},{end[1]:.0f} {across - 6:.0f},{end[1]:.0f}" marker-end="url(#{arrow})"/>'


def box(module: Module, place: Tuple[float, float, float], anchor: str) -> str:
    left, middle, width = place
    center = left + width / 2
    return (f'<a href="#{anchor}"><rect class="box" x="{left:.0f}" y="{middle - BOX / 2:.0f}" width="{width:.0f}" height="{BOX}" rx="6"/>'
            f'<text class="name" x="{center:.0f}" y="{middle - 3:.0f}">{escape(module.name)}</text>'
            f'<text class="about" x="{center:.0f}" y="{middle + 14:.0f}">{about(module)}</text></a>')


def drawing(modules: List[Module], anchors: Dict[str, str], word: str) -> str:
    """The drawing of the calls between these modules, each with its link. Names in the drawing begin with a word of its own."""
    place, width, height = places(modules)
    head = f'{word}-arrow'
    lines = [line(place[module.name], place[callee], head) for module in modules for callee in module.calls if callee in place]
    boxes = [box(module, place[module.name], anchors[module.name]) for module in modules]
    arrow = f'<defs><marker id="{head}" viewBox="0 0 8 8" refX="6" refY="4" markerWidth="8" markerHeight="8" orient="auto"><path class="head" d="M0,0 L8,4 L0,8 z"/></marker></defs>'
    return (f'<svg class="calls" viewBox="0 0 {width:.0f} {height:.0f}" width="{width:.0f}" height="{height:.0f}" role="img" aria-label="calls between modules">'
            f'{arrow}{"".join(lines)}{"".join(boxes)}</svg>')
