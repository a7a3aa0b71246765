"""Draws who sent what to whom in a network, as an SVG.

Use: python3 examples/messages.py PROGRAM SCRIPT | python3 examples/draw.py > PICTURE

It reads what messages.py prints: the steps, and in a few words what `forces show` tells of the messages that they send. Time runs downward, and each
delivery has a row of its own: an arrow from who sent the message to whom it came to. A message that never came has a broken arrow that ends at a
cross, in the row behind what has sent it. All other steps have their text at the left. The columns of control elements are dark while they run.
"""
import re
import sys
from html import escape

ROW, LEFT, COLUMN, TOP = 17, 150, 168, 44
MESSAGE = re.compile(r"  ([0-9]+) from (.+) to (.+): (.+)")
COLOURS = [("TRCOMP", "#1a7f37"), ("ABT", "#cf222e"), ("refusal", "#cf222e"), ("SOT", "#0550ae"), ("MOT", "#0550ae"), ("EOT", "#8250df"), ("claim", "#953800")]


class Row:
    """A row of the picture: the step, and the arrow in it, if there is one."""

    def __init__(self, step, message=None, came=True):
        self.step, self.message, self.came = step, message, came


def read(lines):
    """The steps, each with the messages that it sends, by number: who sent each, to whom, and what it is."""
    steps = []
    for line in lines:
        found = MESSAGE.fullmatch(line.rstrip("\n"))
        if found:
            steps[-1][1].append((int(found[1]), found[2], found[3], found[4]))
        else:
            steps.append((line.rstrip("\n"), []))
    return steps


def rows_of(steps):
    """One row for each step, and one for each message that never came."""
    came = {int(step.split()[1]) for step, _ in steps if step.startswith("deliver ")}
    known = {}
    for step, sent in steps:
        if step.startswith("deliver "):
            yield Row(step, known[int(step.split()[1])])
        else:
            yield Row(step)
        for message in sent:
            known[message[0]] = message
            if message[0] not in came:
                yield Row("", message, came=False)


def columns_of(steps):
    """The columns: one control element at the left, then the elements, and all other control elements at the right."""
    names = {name for _, sent in steps for _, source, target, _ in sent for name in (source, target)}
    by_number = lambda name: int(name.split()[-1])
    controls = sorted((name for name in names if name.startswith("control")), key=by_number)
    elements = sorted(names - set(controls), key=by_number)
    order = controls[:1] + elements + controls[1:]
    return {name: LEFT + COLUMN // 2 + at * COLUMN for at, name in enumerate(order)}


def colour_of(words):
    return next((colour for word, colour in COLOURS if words.startswith(word)), "#57606a")


def arrow(row, y, columns):
    number, source, target, words = row.message
    start, end = columns[source], columns[target]
    side = 1 if end > start else -1
    colour = colour_of(words)
    label = f"{number} {words}" if row.came else f"{number} {words}, lost"
    if row.came:
        yield f'<path d="M{start} {y}H{end - 2 * side}" stroke="{colour}"/><path d="M{end} {y}l{-7 * side} -3.5v7z" fill="{colour}"/>'
    else:
        end = start + side * COLUMN * 7 // 8
        yield f'<path d="M{start} {y}H{end}" stroke="{colour}" stroke-dasharray="4 3"/><path d="M{end - 4} {y - 4}l8 8m0 -8l-8 8" stroke="{colour}" fill="none"/>'
    # the words stand beside the sender, within its own column and the next
    anchor = "start" if side > 0 else "end"
    yield f'<text x="{start + 8 * side}" y="{y - 3}" text-anchor="{anchor}" fill="{colour}">{escape(label)}</text>'


def lives(rows, columns, bottom):
    """The lines of the columns, and when each control element runs."""
    for name, x in columns.items():
        yield f'<path d="M{x} {TOP}V{bottom}" stroke="#d0d7de"/>'
        number = name.split()[-1]
        begun = None
        for at, row in enumerate(rows):
            words = row.step.split()
            if name.startswith("control") and words[:1] == ["start"] and words[1] == number:
                begun = at
            if begun is not None and (words == ["stop", number] or at == len(rows) - 1):
                yield f'<path d="M{x} {TOP + (begun + 1) * ROW}V{TOP + (at + 1) * ROW}" stroke="#24292f" stroke-width="3"/>'
                begun = None


def picture(steps):
    rows, columns = list(rows_of(steps)), columns_of(steps)
    width, bottom = LEFT + COLUMN * len(columns) + 20, TOP + (len(rows) + 1) * ROW
    yield f'<svg xmlns="http://www.w3.org/2000/svg" viewBox="0 0 {width} {bottom + 10}" width="{width}" height="{bottom + 10}" font-family="sans-serif" font-size="11" fill="none">'
    yield f'<rect width="{width}" height="{bottom + 10}" fill="#ffffff"/>'
    for name, x in columns.items():
        yield f'<text x="{x}" y="{TOP - 16}" text-anchor="middle" font-weight="bold" font-size="13" fill="#24292f">{escape(name)}</text>'
    yield from lives(rows, columns, bottom)
    for at, row in enumerate(rows, 1):
        y = TOP + at * ROW
        if row.step and not row.step.startswith("deliver "):
            yield f'<text x="10" y="{y}" font-weight="bold" fill="#24292f">{escape(row.step)}</text>'
        if row.message:
            yield from arrow(row, y, columns)
    yield "</svg>"


def main():
    if len(sys.argv) != 1:
        sys.exit(__doc__)
    print("\n".join(picture(read(sys.stdin))))


if __name__ == "__main__":
    main()
