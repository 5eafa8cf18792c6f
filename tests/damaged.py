#!/usr/bin/env python3
"""Writes the lines that the program `damaged` reads, and what it has to answer.

The answers come from the rules of docs/FORMATS.md and docs/REFUSALS.md as they are written out here, and not from the
program. Run from any folder; it writes crates/damaged/stdin and crates/damaged/stdout.
"""
import pathlib

WIDTHS = {"list": 4, "tag": 32}
OPERANDS = {1: 13, 2: 4, 3: 0, 4: 18, 5: 21}


def number(data):
    return int.from_bytes(data, "big")


def identifier(numbers):
    padded = numbers + [0] * (4 - len(numbers))
    return bytes([len(numbers)]) + b"".join(n.to_bytes(2, "big") for n in padded)


def numbers_of(data):
    """The numbers of an identifier, or None where the bytes are none."""
    depth, numbers = data[0], [number(data[1 + 2 * i : 3 + 2 * i]) for i in range(4)]
    if not 1 <= depth <= 4 or any(numbers[depth:]):
        return None
    return numbers[:depth]


def allowed(byte, operands):
    """Whether the operands of a command keep their rules. A key may be anything."""
    if byte == 1:
        return numbers_of(operands[:9]) is not None
    if byte == 4:
        return numbers_of(operands[9:]) is not None
    if byte == 5:
        return numbers_of(operands[:9]) is not None and number(operands[9:11]) <= 65534 and operands[11] <= 15
    return True


def block_answer(block, at, seals):
    if len(block) < 44:
        return "refused 2 0"
    chain, height, previous, count = numbers_of(block[:9]), number(block[9:11]), block[11:43], block[43]
    if chain is None or height > 65534 or (height == 0 and any(previous)) or count > 16:
        return "refused 2 0"
    position, shown = 44, []
    for place in range(count):
        byte = block[position] if position < len(block) else None
        operands = block[position + 1 : position + 1 + OPERANDS.get(byte, 0)]
        if byte not in OPERANDS or len(operands) < OPERANDS[byte] or not allowed(byte, operands):
            return f"refused 3 {place}"
        shown.append(f" {byte}@{at + position + 1}")
        position += 1 + OPERANDS[byte]
    if position != len(block):
        return "refused 2 0"
    return f"ok {' '.join(map(str, chain))} height {height} seals {seals}{''.join(shown)}"


def answer(kind, scheme, frame):
    width, letters = WIDTHS[scheme], {"request": b"AUTH", "certificate": b"CERT"}[kind]
    if frame[:4] != letters or len(frame) < 6:
        return "refused 1 0"
    length = number(frame[4:6])
    if length > 396:
        return "refused 1 0"
    end = 6 + length
    if kind == "request":
        if len(frame) != end + width:
            return "refused 1 0"
        return block_answer(frame[6:end], 6, 1)
    if len(frame) <= end or frame[end] > 16 or len(frame) != end + 1 + frame[end] * (1 + width):
        return "refused 1 0"
    return block_answer(frame[6:end], 6, frame[end])


def with_length(letters, block, rest, change=0):
    return letters + (len(block) + change).to_bytes(2, "big") + block + rest


def cases():
    head = identifier([2, 7]) + (7).to_bytes(2, "big") + bytes(range(32))
    commands = [
        bytes([1]) + identifier([2, 7, 7]) + bytes.fromhex("0a0b0c0d"),
        bytes([2]) + bytes.fromhex("00000001"),
        bytes([4, 1]) + (-12).to_bytes(8, "big", signed=True) + identifier([1]),
        bytes([5]) + identifier([1, 2, 3, 4]) + (65534).to_bytes(2, "big") + bytes([15, 1]) + (-500).to_bytes(8, "big", signed=True),
        bytes([3]),
    ]
    block = head + bytes([len(commands)]) + b"".join(commands)
    first = identifier([0]) + bytes(2 + 32 + 1)
    longest = head + bytes([16]) + commands[3] * 16
    request = with_length(b"AUTH", block, b"\x00\x00\x00\x01")
    certificate = with_length(b"CERT", first, b"\x02" + b"\x00\x00\x00\x00\x05" + b"\x03\x00\x00\x00\x06")
    for kind, frame in (("request", request), ("certificate", certificate)):
        yield kind, "list", frame
        yield kind, "tag", frame
        for end in range(len(frame)):
            yield kind, "list", frame[:end]
        for i in range(len(frame)):
            for change in (1, 255):
                yield kind, "list", frame[:i] + bytes([(frame[i] + change) % 256]) + frame[i + 1 :]
        yield kind, "list", frame + b"\x00"
    for letters, kind in ((b"AUTH", "request"), (b"CERT", "certificate")):
        for scheme, width in WIDTHS.items():
            seals = bytes(width) if kind == "request" else b"\x01\x00" + bytes(width)
            for change in (-1, 0, 1):
                yield kind, scheme, with_length(letters, longest, seals, change)
                yield kind, scheme, with_length(letters, first, seals[: len(seals) + change] if change < 1 else seals + b"\x00")
            yield kind, scheme, with_length(letters, longest + b"\x03", seals)
            yield kind, scheme, with_length(letters, b"", seals)
    for count in (0, 15, 16, 17, 255):
        yield "certificate", "list", with_length(b"CERT", first, bytes([count]) + bytes(5) * count)
        yield "request", "list", with_length(b"AUTH", head + bytes([count]) + b"\x03" * count, bytes(4))


def main():
    folder = pathlib.Path(__file__).resolve().parent.parent / "crates" / "damaged"
    rows = list(cases())
    (folder / "stdin").write_text("".join(f"{kind} {scheme} {frame.hex()}".rstrip() + "\n" for kind, scheme, frame in rows))
    (folder / "stdout").write_text("".join(answer(*row) + "\n" for row in rows))


if __name__ == "__main__":
    main()
