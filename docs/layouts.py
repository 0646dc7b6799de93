"""Draws layouts.svg: two layouts of one object side by side, read off the images themselves.

    python3 docs/layouts.py OBJECT IMAGE IMAGE > docs/layouts.svg

Each column is one image. On the left stand its segments, at the height of their addresses; on the right is its code segment,
enlarged, with the pieces of functions where their bytes are found. `checks/picture.sh` draws it anew and compares.
"""

import struct
import sys

NAMES = ["main", "start", "putchar", "getchar", "exit", "memcpy", "memset"]
COLOURS = ["#3b6ea5", "#c0504d", "#8aa64f", "#7f63a3", "#4ba3b5", "#d68b3c", "#9c8a5a"]
SLOTS, CODE, CODE_END = 0x10000000, 0x40000000, 0x50000000
STACK, STACK_END = 0x9FFFF000, 0xC0000000


def without_goals(code):
    """Code with None where a branch or a link is filled in: the four bytes behind `E9` and behind `0F 80` to `0F 8F`."""
    shown = list(code)
    for at in range(len(code) - 5):
        if code[at] == 0xE9:
            shown[at + 1 : at + 5] = [None] * 4
        elif code[at] == 0x0F and 0x80 <= code[at + 1] <= 0x8F:
            shown[at + 2 : at + 6] = [None] * 4
    return shown


def pieces_of(path):
    """The pieces of an object's functions, each with its function's number and its bytes."""
    with open(path, "rb") as file:
        data = file.read()
    count = struct.unpack_from("<I", data, 24)[0]
    at, pieces = 40, []
    for number in range(count):
        _, length, links, cuts = struct.unpack_from("<IIII", data, at)
        code = without_goals(data[at + 16 : at + 16 + length])
        at += 16 + length + 8 * links
        ends = [0, *struct.unpack_from(f"<{cuts}I", data, at), length]
        at += 4 * cuts
        pieces += [(number, code[first:last]) for first, last in zip(ends, ends[1:])]
    return pieces


def segments_of(path):
    """Address, bytes and rights of each segment of an image."""
    with open(path, "rb") as file:
        data = file.read()
    segments = []
    for n in range(struct.unpack_from("<H", data, 56)[0]):
        _, rights, offset, address, _, size = struct.unpack_from("<IIQQQQ", data, 64 + 56 * n)
        segments.append((address, data[offset : offset + size], rights))
    return segments


def stands_at(code, segment, start):
    part = segment[start : start + len(code)]
    return len(part) == len(code) and all(want is None or want == got for want, got in zip(code, part))


def places_of(pieces, segment):
    """Where each piece starts in a code segment; equal pieces take their places in order."""
    taken, places = set(), {}
    for n in sorted(range(len(pieces)), key=lambda n: -len(pieces[n][1])):
        code = pieces[n][1]
        for start in range(0, len(segment), 16):
            if not taken & set(range(start, start + len(code))) and stands_at(code, segment, start):
                taken |= set(range(start, start + len(code)))
                places[n] = start
                break
    return places


def box(x, y, width, height, fill, stroke="#333333"):
    return f'<rect x="{x:.1f}" y="{y:.1f}" width="{width:.1f}" height="{height:.1f}" fill="{fill}" stroke="{stroke}"/>'


def text(x, y, words, anchor="start", size=12):
    return f'<text x="{x:.1f}" y="{y:.1f}" text-anchor="{anchor}" font-size="{size}">{words}</text>'


def column(left, title, pieces, segments):
    """One image: its address space, and its code enlarged."""
    top, height = 60, 420
    scale = height / STACK_END
    parts = [text(left + 190, 34, title, "middle", 15)]
    parts.append(box(left + 100, top, 70, height, "#ffffff"))
    stack = (STACK_END - STACK) * scale
    for address, size, name, fill in [(SLOTS, 10, "slots", "#555555"), (0x20000000, 10, "data", "#bbbbbb"), (STACK, stack, "stack", "#dddddd")]:
        y = top + height - address * scale
        parts += [box(left + 100, y - size, 70, size, fill), text(left + 94, y, f"{name} {address:x}", "end", 11)]
    address, code, _ = segments[-1]
    y = top + height - address * scale
    span = (CODE_END - CODE) * scale
    parts.append(box(left + 100, top + height - CODE_END * scale, 70, span, "#fdf3e0", "#d8b878"))
    parts += [box(left + 100, y - 4, 70, 4, "#c0504d"), text(left + 94, y + 12, f"code {address:x}", "end", 11)]
    zoom = height / len(code)
    for end in (top, top + height):
        parts.append(f'<line x1="{left + 170}" y1="{y - 2:.1f}" x2="{left + 215}" y2="{end}" stroke="#c0504d" stroke-dasharray="3 3"/>')
    parts.append(box(left + 215, top, 80, height, "#f2f2f2"))
    label = top
    for n, start in sorted(places_of(pieces, code).items(), key=lambda place: -place[1]):
        number, piece = pieces[n]
        size = max(len(piece) * zoom, 3)
        y = top + height - start * zoom - size
        label = max(y + size, label + 11)
        parts += [box(left + 215, y, 80, size, COLOURS[number % len(COLOURS)]), text(left + 301, label, NAMES[number], "start", 11)]
    return parts


def main():
    pieces = pieces_of(sys.argv[1])
    images = [segments_of(path) for path in sys.argv[2:4]]
    parts = ['<svg xmlns="http://www.w3.org/2000/svg" width="800" height="520" font-family="sans-serif">', box(0, 0, 800, 520, "#ffffff", "#ffffff")]
    for n, segments in enumerate(images):
        parts += column(20 + 390 * n, f"layout {'AB'[n]}", pieces, segments)
    parts.append(text(400, 508, "One object, two layouts: what can be read stands at the same places, code elsewhere and in another order.", "middle", 12))
    print("\n".join([*parts, "</svg>"]))


if __name__ == "__main__":
    main()
