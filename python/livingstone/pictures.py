"""Pictures of a plant as SVG: parts as boxes in their modes, joined by the laws of the system."""

from __future__ import annotations

from dataclasses import dataclass, field
from typing import Dict, FrozenSet, List, Sequence, Tuple
from xml.sax.saxutils import escape, quoteattr

from .layout import joints, places
from .plant import Plant

_LETTER = 7.3
_MOST_LETTERS = 30
_LINE = 17
_GAP_X, _GAP_Y, _MARGIN, _TOP = 70, 34, 30, 64
_MOST_OUTLINES = 4
_OUTLINES = ("#8e44ad", "#d68910", "#117a65", "#2e4053")
# The fill and the border of a box.
_COLOURS = {
    "still": ("#f7f7f7", "#707070"),
    "step": ("#d9f2d9", "#2e7d32"),
    "fault": ("#fadbd8", "#b03a2e"),
    "command": ("#d6eaf8", "#2471a3"),
}
_LEGEND = (("step", "makes a step"), ("fault", "fails"), ("command", "is commanded"), ("still", "stays"))


@dataclass
class Box:
    """A part in a picture: its lines of text below its name, and why it is coloured."""

    lines: List[str]
    colour: str = "still"


@dataclass
class Scene:
    """What a picture shows: a title, each part's box, and conflicts as sets of parts."""

    title: str
    boxes: Dict[str, Box]
    conflicts: List[Tuple[str, FrozenSet[str]]] = field(default_factory=list)
    note: str = ""


@dataclass
class _Frame:
    """The rectangle of a box."""

    x: float
    y: float
    width: float
    height: float

    @property
    def middle(self) -> Tuple[float, float]:
        return self.x + self.width / 2, self.y + self.height / 2


def draw(plant: Plant, scene: Scene) -> str:
    """The picture as SVG."""
    frames = _frames(plant, scene)
    width = max((frame.x + frame.width for frame in frames.values()), default=0) + _GAP_X
    width = max(width, 720, len(scene.title) * 8.4 + 2 * _MARGIN)
    bottom = max((frame.y + frame.height for frame in frames.values()), default=0) + _MARGIN
    body = [_joint(frames, parts, laws) for parts, laws in joints(plant).items()]
    body += _outlines(frames, scene)
    body += [_box(plant, name, scene.boxes[name], frame) for name, frame in frames.items()]
    legend, height = _legend(scene, bottom, int((width - 3 * _MARGIN) / _LETTER))
    return "\n".join([
        f'<svg xmlns="http://www.w3.org/2000/svg" width="{width:.0f}" height="{height:.0f}" '
        f'viewBox="0 0 {width:.0f} {height:.0f}" font-family="DejaVu Sans Mono, monospace" font-size="12">',
        '<rect width="100%" height="100%" fill="white"/>',
        _text(_MARGIN, 34, scene.title, 'font-size="14" font-weight="bold"'),
        *body, *legend, "</svg>", "",
    ])


def _frames(plant: Plant, scene: Scene) -> Dict[str, _Frame]:
    letters = [min(_MOST_LETTERS, len(line)) for box in scene.boxes.values() for line in box.lines]
    letters += [min(_MOST_LETTERS, len(_head(plant, name))) for name in plant.parts]
    width = max(90.0, max(letters) * _LETTER + 20)
    most = max(len(box.lines) for box in scene.boxes.values()) + 1
    height = most * _LINE + 14
    found = places(plant)
    tops, top = [], float(_TOP)
    for band in range(1 + max(place.band for place in found.values())):
        tops.append(top)
        rows = max(place.row for place in found.values() if place.band == band)
        top += (rows + 1) * (height + _GAP_Y) + _GAP_Y
    frames = {}
    for name in plant.parts:
        place = found[name]
        own = (len(scene.boxes[name].lines) + 1) * _LINE + 14
        y = tops[place.band] + place.row * (height + _GAP_Y) + (height - own) / 2
        frames[name] = _Frame(_MARGIN + place.column * (width + _GAP_X), y, width, own)
    return frames


def _head(plant: Plant, name: str) -> str:
    return f"{name} : {plant.parts[name].type.name}"


def _short(text: str) -> str:
    return text if len(text) <= _MOST_LETTERS else text[: _MOST_LETTERS - 2] + ".."


def _text(x: float, y: float, text: str, more: str = "") -> str:
    return f'<text x="{x:.1f}" y="{y:.1f}" {more}>{escape(text)}</text>'


def _box(plant: Plant, name: str, box: Box, frame: _Frame) -> str:
    fill, border = _COLOURS[box.colour]
    heavy = 1 if box.colour == "still" else 2.5
    lines = [
        f"<g><title>{escape(_head(plant, name) + chr(10) + chr(10).join(box.lines))}</title>",
        f'<rect x="{frame.x:.1f}" y="{frame.y:.1f}" width="{frame.width:.1f}" height="{frame.height:.1f}" rx="5" '
        f"fill={quoteattr(fill)} stroke={quoteattr(border)} stroke-width={quoteattr(str(heavy))}/>",
        _text(frame.x + 10, frame.y + 20, _short(_head(plant, name)), 'font-weight="bold"'),
    ]
    for number, line in enumerate(box.lines, 1):
        lines.append(_text(frame.x + 10, frame.y + 20 + number * _LINE, _short(line)))
    return "\n".join([*lines, "</g>"])


def _joint(frames: Dict[str, _Frame], parts: FrozenSet[str], laws: Sequence[str]) -> str:
    """A line between two parts, or lines from a dot to three or more."""
    title = f"<title>{escape(chr(10).join(laws))}</title>"
    style = 'fill="none" stroke="#9aa5b1" stroke-width="1.5"'
    ends = sorted((frames[part] for part in parts), key=lambda frame: (frame.x, frame.y))
    if len(ends) == 2:
        return f'<path d="{_curve(ends[0], ends[1])}" {style}>{title}</path>'
    # The dot stands in the gap before the last column that it joins, or behind the only one.
    last = ends[-1].x
    x = last - _GAP_X / 2 if ends[0].x < last else last + ends[-1].width + _GAP_X / 2
    y = sum(frame.middle[1] for frame in ends) / len(ends)
    sides = [(frame.x + frame.width if frame.x < x else frame.x, frame.middle[1]) for frame in ends]
    spokes = " ".join(f"M {x:.1f} {y:.1f} L {side:.1f} {middle:.1f}" for side, middle in sides)
    dot = f'<circle cx="{x:.1f}" cy="{y:.1f}" r="4" fill="#9aa5b1"/>'
    return f'<g>{title}<path d="{spokes}" {style}/>{dot}</g>'


def _curve(left: _Frame, right: _Frame) -> str:
    """From the right side of one box to the left side of the other; in one column straight down to the next box, or
    round the side to one farther away."""
    start_x, start_y = left.x + left.width, left.middle[1]
    end_y = right.middle[1]
    if abs(left.x - right.x) < 1 and right.y - left.y - left.height < 3 * _GAP_Y:
        return f"M {left.middle[0]:.1f} {left.y + left.height:.1f} L {left.middle[0]:.1f} {right.y:.1f}"
    if abs(left.x - right.x) < 1:
        side = start_x + _GAP_X * 0.6
        bow = f"C {side:.1f} {start_y:.1f} {side:.1f} {end_y:.1f} {start_x:.1f} {end_y:.1f}"
        return f"M {start_x:.1f} {start_y:.1f} {bow}"
    end_x = right.x
    bend = max(30.0, (end_x - start_x) / 2)
    return (
        f"M {start_x:.1f} {start_y:.1f} C {start_x + bend:.1f} {start_y:.1f} "
        f"{end_x - bend:.1f} {end_y:.1f} {end_x:.1f} {end_y:.1f}"
    )


def _outlines(frames: Dict[str, _Frame], scene: Scene) -> List[str]:
    found = []
    for number, (text, parts) in enumerate(scene.conflicts[:_MOST_OUTLINES]):
        away = 5 + 4 * number
        for part in sorted(parts):
            frame = frames[part]
            found.append(
                f'<rect x="{frame.x - away:.1f}" y="{frame.y - away:.1f}" width="{frame.width + 2 * away:.1f}" '
                f'height="{frame.height + 2 * away:.1f}" rx="8" fill="none" stroke="{_OUTLINES[number]}" '
                f'stroke-width="1.6" stroke-dasharray="6 3"><title>{escape(text)}</title></rect>'
            )
    return found


def _legend(scene: Scene, top: float, letters: int) -> Tuple[List[str], float]:
    lines, x = [], float(_MARGIN)
    for colour, words in _LEGEND:
        fill, border = _COLOURS[colour]
        lines.append(f'<rect x="{x:.1f}" y="{top:.1f}" width="16" height="12" fill="{fill}" stroke="{border}"/>')
        lines.append(_text(x + 22, top + 11, words))
        x += 40 + len(words) * _LETTER
    if scene.note:
        top += 24
        lines.append(_text(_MARGIN, top + 11, scene.note[:letters]))
    for number, (text, _) in enumerate(scene.conflicts[:_MOST_OUTLINES]):
        top += 24
        lines.append(
            f'<rect x="{_MARGIN}" y="{top:.1f}" width="16" height="12" fill="none" stroke="{_OUTLINES[number]}" '
            'stroke-width="1.6" stroke-dasharray="6 3"/>'
        )
        lines.append(_text(_MARGIN + 22, top + 11, text if len(text) <= letters else text[: letters - 2] + ".."))
    if len(scene.conflicts) > _MOST_OUTLINES:
        top += 24
        more = len(scene.conflicts) - _MOST_OUTLINES
        lines.append(_text(_MARGIN, top + 11, f"and {more} more conflict{'s' if more > 1 else ''}"))
    return lines, top + 34
