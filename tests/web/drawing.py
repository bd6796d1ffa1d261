"""What is drawn on a canvas, read back: every call of its pen since the frame began, with the colour that it was made with; and its pixels."""

from __future__ import annotations

from typing import Any, Iterator, NamedTuple

#: Has a canvas keep the calls of its last frame. Every frame begins by clearing the sheet.
RECORD = """
const canvas = arguments[0], pen = canvas.getContext('2d'), own = Object.getPrototypeOf(pen);
let calls = [], path = [];
const after = (name, keep) => { pen[name] = (...given) => { keep(...given); return own[name].apply(pen, given) } };
const filled = () => ({colour: pen.fillStyle, alpha: pen.globalAlpha}), drawn = () => ({colour: pen.strokeStyle, alpha: pen.globalAlpha});
after('clearRect', () => { calls = []; path = [] });
after('beginPath', () => { path = [] });
for (const name of ['moveTo', 'lineTo']) after(name, (x, y) => path.push([x, y]));
after('arc', (x, y, radius) => path.push([x, y, radius]));
after('stroke', () => calls.push({kind: 'line', points: path, width: pen.lineWidth, dashes: pen.getLineDash(), ...drawn()}));
after('fill', () => calls.push({kind: 'shape', points: path, ...filled()}));
after('fillRect', (x, y, width, height) => calls.push({kind: 'rect', x, y, width, height, ...filled()}));
after('strokeRect', (x, y, width, height) => calls.push({kind: 'box', x, y, width, height, ...drawn()}));
after('fillText', (words, x, y) => calls.push({kind: 'text', words, x, y, align: pen.textAlign, font: pen.font, ...filled()}));
canvas.calls = () => calls;
"""

#: The calls of the last frame, the size of the sheet, and the colours that the page's style names, as a pen says them.
DRAWN = """
const canvas = arguments[0], view = canvas.ownerDocument.defaultView, style = view.getComputedStyle(canvas);
const pen = document.createElement('canvas').getContext('2d');
const colour = (name) => { pen.fillStyle = style.getPropertyValue(`--${name}`).trim(); return pen.fillStyle };
const names = ['surface', 'ink', 'muted', 'line', 'band', 'accent', 'held', 'heldfill', 'danger', 'tolerance', 'chosen', 'changed', 'now'];
const box = canvas.getBoundingClientRect();
return [canvas.calls(), box.width, box.height, Object.fromEntries(names.map((name) => [name, colour(name)]))];
"""

#: The colours at places of a canvas, as #rrggbb; a place that nothing was drawn at has none.
PIXELS = """
const [canvas, places] = arguments, copy = Object.assign(document.createElement('canvas'), {width: canvas.width, height: canvas.height});
const pen = copy.getContext('2d', {willReadFrequently: true});
pen.drawImage(canvas, 0, 0);
const data = pen.getImageData(0, 0, canvas.width, canvas.height).data;
return places.map(([x, y]) => {
  const at = 4 * (Math.floor(y) * canvas.width + Math.floor(x));
  return data[at + 3] === 0 ? '' : '#' + Array.from(data.subarray(at, at + 3), (each) => each.toString(16).padStart(2, '0')).join('');
});
"""


class Scale(NamedTuple):
    """From places to values, by two labels of an axis."""

    zero: float
    per: float

    def value(self, place: float) -> float:
        return self.zero + self.per * place

    def place(self, value: float) -> float:
        return (value - self.zero) / self.per


def scale(marks: list[tuple[float, float]]) -> Scale:
    """The axis of labels, each a place and its value, which must stand in a line."""
    (a, first), (b, last) = marks[0], marks[-1]
    per = (last - first) / (b - a)
    found = Scale(first - a * per, per)
    for place, value in marks:
        assert abs(found.value(place) - value) < 0.02 * max(1, abs(last - first)), (marks, place, value)
    return found


def whole(value: float, within: float = 0.02) -> int:
    nearest = round(value)
    assert abs(value - nearest) < within, value
    return nearest


class Sheet:
    """One frame of a canvas."""

    def __init__(self, calls: list[dict[str, Any]], width: float, height: float, colours: dict[str, str]) -> None:
        self.calls, self.width, self.height, self.colours = calls, width, height, colours

    def of(self, kind: str, colour: str = "", **wanted: Any) -> Iterator[dict[str, Any]]:
        """The calls of a kind, of a colour by its name in the style, and with these values."""
        for call in self.calls:
            if call["kind"] == kind and (not colour or call["colour"] == self.colours[colour]) and all(call[key] == value for key, value in wanted.items()):
                yield call

    def text(self, words: str) -> dict[str, Any]:
        """The one call that writes these words."""
        (found,) = self.of("text", words=words)
        return found

    def size(self, text: dict[str, Any]) -> float:
        """The size of its letters."""
        return float(next(word for word in text["font"].split() if word.endswith("px"))[:-2])


def frame(test: Any, window: str = "window") -> None:
    """Waits until what was asked for is drawn in a window."""
    test.browser.execute_async_script(f"const done = arguments[0], view = {window}; view.requestAnimationFrame(() => view.requestAnimationFrame(() => done()))")


def recorded(test: Any, canvas: str) -> None:
    test.js(RECORD.replace("arguments[0]", canvas, 1))


def sheet(test: Any, canvas: str, window: str = "window") -> Sheet:
    frame(test, window)
    return Sheet(*test.js(DRAWN.replace("arguments[0]", canvas, 1)))


def pixels(test: Any, canvas: str, places: list[tuple[float, float]]) -> list[str]:
    colours: list[str] = test.js(PIXELS.replace("[canvas, places] = arguments", f"canvas = {canvas}, [places] = arguments", 1), places)
    return colours
