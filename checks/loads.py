"""Files of images, well formed and not: `run` names the first rule that a second reader names, written from docs/image-format.md, or starts the image."""

import os
import random
import struct
import subprocess
import sys
import tempfile

IDENT = b"\x7fELF\x02\x01\x01" + bytes(9)
LOW, HIGH, MOST = 0x10000, 0x90000000, 268435456


def first_rule(file):
    """The number of the first rule that fails, or None."""
    if len(file) < 64 or file[:16] != IDENT:
        return 1
    kind, machine, version, _, phoff = struct.unpack_from("<HHIQQ", file, 16)
    phentsize, phnum = struct.unpack_from("<HH", file, 54)
    if (kind, machine, version) != (2, 62, 1):
        return 2
    if phoff != 64 or phentsize != 56 or not 1 <= phnum <= 8 or 64 + 56 * phnum > len(file):
        return 3
    # type, flags, offset, vaddr, paddr, filesz, memsz, align
    headers = [struct.unpack_from("<IIQQQQQQ", file, 64 + 56 * i) for i in range(phnum)]
    rules = [
        (4, lambda h: h[0] == 1 and 1 <= h[1] <= 7 and h[7] == 4096),
        (5, lambda h: h[5] == h[6] and h[5] >= 1),
        (6, lambda h: h[3] % 4096 == 0 and h[2] % 4096 == 0 and h[3] >= LOW and h[3] + h[5] <= HIGH),
    ]
    for number, holds in rules:
        if not all(holds(h) for h in headers):
            return number
    if any(b[3] < a[3] + a[5] for a, b in zip(headers, headers[1:])):
        return 7
    if any(h[2] + h[5] > len(file) for h in headers):
        return 8
    return 9 if sum(h[5] for h in headers) > MOST else None


def image(segments):
    """A file of these segments: address, rights, bytes."""
    header = IDENT + struct.pack("<HHIQQQIHHHHHH", 2, 62, 1, segments[0][0], 64, 0, 0, 64, 56, len(segments), 0, 0, 0)
    at, headers, body = 4096, b"", b""
    for start, rights, content in segments:
        headers += struct.pack("<IIQQQQQQ", 1, rights, at, start, start, len(content), len(content), 4096)
        padded = content.ljust(-(-len(content) // 4096) * 4096, b"\0")
        at, body = at + len(padded), body + padded
    return (header + headers).ljust(4096, b"\0") + body


def files(rng):
    """A name for each file, and its bytes."""
    whole = image([(0x10000000, 1, b"\x0f\x0b"), (0x30000000, 6, b"AB"), (0x40000000, 1, bytes(5000))])
    yield "whole", whole
    for size in [*range(0, 70), 119, 120, 121, 175, 176, 231, 232, 233, 4095, 4096, 4097, 4098, 8193, 8194, 17191, 17192, len(whole) - 1]:
        yield f"its first {size} bytes", whole[:size]
    for at in range(232):
        for value in rng.sample([0, 1, 2, 7, 8, 16, 62, 64, 127, 128, 255], 2):
            yield f"byte {at} as {value}", whole[:at] + bytes([value]) + whole[at + 1 :]
    fields = [(32, 8), (54, 2), (56, 2)] + [(64 + 56 * i + at, 8) for i in range(3) for at in (8, 16, 32, 40, 48)]
    for at, size in fields:
        for value in (0, 1, 4095, 4096, 8192, LOW - 4096, LOW, HIGH - 4096, HIGH, MOST + 1, 2**63, 2**64 - 4096, 2**64 - 1):
            yield f"field {at} as {value}", whole[:at] + (value % 256**size).to_bytes(size, "little") + whole[at + size :]
    lone = image([(LOW, 5, b"\x0f\x0b")])[:4098]
    for size in range(len(lone)):
        yield f"the first {size} bytes of one segment's", lone[:size]
    yield "eight segments", image([(LOW + 4096 * i, 4, b"x") for i in range(8)])
    yield "nine segments", image([(LOW + 4096 * i, 4, b"x") for i in range(9)])
    yield "segments that touch", image([(LOW, 4, bytes(4096)), (LOW + 4096, 4, b"x")])
    yield "segments out of order", image([(LOW + 4096, 4, b"x"), (LOW, 4, b"x")])
    yield "up to the end", image([(HIGH - 4096, 4, bytes(4096))])
    yield "past the end", image([(HIGH - 4096, 4, bytes(4097))])


def main():
    program, rng = sys.argv[1], random.Random(int(sys.argv[2]))
    count = failed = 0
    with tempfile.TemporaryDirectory() as work:
        path = os.path.join(work, "image")
        for name, content in files(rng):
            with open(path, "wb") as file:
                file.write(content)
            rule = first_rule(content)
            want = (21, b"going\n") if rule is None else (6, b"image %d\n" % rule)
            ran = subprocess.run([program, "run", path, "--steps", "0"], stdin=subprocess.DEVNULL, stdout=subprocess.PIPE, stderr=subprocess.PIPE, check=False)
            count += 1
            if (ran.returncode, ran.stderr) != want or ran.stdout:
                print(f"{name}: {ran.returncode} {ran.stderr!r} in place of {want}")
                failed += 1
    print(f"{count} files of images, {failed} differences")
    return 1 if failed else 0


if __name__ == "__main__":
    sys.exit(main())
