#!/usr/bin/env python3
"""Writes the lines that the program `member` reads in its test, and what it has to answer.

The answers come from the rules of docs/FORMATS.md and docs/REFUSALS.md as they are written out here and in damaged.py, and
not from the program. Run from any folder; it writes crates/member/stdin and crates/member/stdout.
"""
import hashlib
import hmac
import pathlib

from damaged import OPERANDS, WIDTHS, answer, identifier, number, numbers_of, with_length

FIRST = "6cc473f0b7832314170f9022928392d354afac9be4722d622ea58677e51e7d5d"

SECRET = "07" * 32


def tag(secret, digest):
    return hmac.new(bytes.fromhex(secret), bytes.fromhex(digest), "sha256").hexdigest()


LINES = f"""\
# A shift on the machine of chain 2.7: three rings in its first block, sent on to the yard's chain 1.
ring 2.7 0 - 1 -12 0 12

# The next block names the digest of the one before it.
compose 2.7 1 {FIRST} change:0a0b0c0d receive:1:65534:15:1:-500 close
compose 2 7 {FIRST} open:2.7:00000005
compose 1 0 -
compose 1.2.3.4 65535 -
compose 1 1 - receive:1:65535:0:1:0
compose 1 0 {FIRST}
ring 1 1 - 2 0 0 0 0 0 0 0 0 0 0 0 0 0 0 0 0 0

# Lines that are not understood.
rings 1 0 -
ring 1.2.3.4.5 0 - 1
compose 1 0 - open:1
ring 1 0
ring 1 0 - 1 twelve
compose 1 0 0123
request seal 00
request list 0
tally 1 one
stock cast
stock burn:5
tag 00000009 0707 - 00
tag 00000009 {SECRET} - 0

# Tallies: of rings, with one too far off, and of a stock, with more taken than is there.
tally -12 0 12
tally -500 500 501 0
tally
stock cast:40 send:10 delivered:4 ordered:30 order:5
stock cast:3 send:4 cast:1
stock cast:1001
stock cast:1000 delivered:0

# Tags: the right one, of another secret, and one byte short.
tag 00000009 {SECRET} {FIRST} {tag(SECRET, FIRST)}
tag 00000009 {FIRST} {FIRST} {tag(SECRET, FIRST)}
tag 00000009 {SECRET} {FIRST} {tag(SECRET, FIRST)[:62]}

# Frames.
"""

FAULTS = {
    1: "the frame's letters, lengths or seal count are wrong, or its block is too long",
    2: "the block's head is cut short or outside its rules, or bytes are left over",
    3: "command {place} is missing or unknown, or its operands are cut short or outside their rules",
}
NO_COMMAND = "a command is open:ID:KEY, change:KEY, close, execute:CODE:ARGUMENT:ID or receive:ID:HEIGHT:INDEX:CODE:VALUE"
NO_IDENTIFIER = "an identifier is one to four numbers from 0 to 65535, joined by dots"
NO_STEP = "a step is cast:N, send:N, order:N, delivered:N or ordered:N"
NO_FRAME = "a frame is in hexadecimal, two digits a byte, or a file's name behind @"


class NotUnderstood(Exception):
    pass


def dotted(numbers):
    return ".".join(map(str, numbers))


def parse_identifier(text):
    numbers = text.split(".")
    if not 1 <= len(numbers) <= 4 or not all(n.isdigit() and int(n) < 65536 for n in numbers):
        raise NotUnderstood(NO_IDENTIFIER)
    return [int(n) for n in numbers]


def parse_digest(text):
    if text == "-":
        return bytes(32)
    if len(text) != 64:
        raise NotUnderstood("a digest is 64 hexadecimal digits in lower case, or -")
    return bytes.fromhex(text)


def parse_command(text):
    """The bytes of a command, and whether its values keep the rules."""
    word, *operands = text.split(":")
    if len(operands) != {"open": 2, "change": 1, "close": 0, "execute": 3, "receive": 5}.get(word):
        raise NotUnderstood(NO_COMMAND)
    signed = lambda value: int(value).to_bytes(8, "big", signed=True)
    if word == "open":
        return bytes([1]) + identifier(parse_identifier(operands[0])) + bytes.fromhex(operands[1]), True
    if word == "change":
        return bytes([2]) + bytes.fromhex(operands[0]), True
    if word == "close":
        return bytes([3]), True
    if word == "execute":
        return bytes([4, int(operands[0])]) + signed(operands[1]) + identifier(parse_identifier(operands[2])), True
    sender, height, index, code, value = operands
    name = identifier(parse_identifier(sender)) + int(height).to_bytes(2, "big") + bytes([int(index)])
    return bytes([5]) + name + bytes([int(code)]) + signed(value), int(height) <= 65534 and int(index) <= 15


def block_lines(chain, height, previous, commands):
    if height > 65534 or len(commands) > 16 or not all(ok for _, ok in commands) or (height == 0 and any(previous)):
        return ["  refused, number 25: a value is outside the block's rules"]
    block = identifier(chain) + height.to_bytes(2, "big") + previous + bytes([len(commands)]) + b"".join(c for c, _ in commands)
    return [f"  block of {len(block)} bytes: {block.hex()}", f"  digest: {hashlib.sha256(block).hexdigest()}"]


def offset(value):
    if value == 0:
        return "on the axis"
    return f"{abs(value)} mm {'left' if value < 0 else 'right'} of the axis"


def command_words(byte, data):
    signed = lambda value: int.from_bytes(value, "big", signed=True)
    if byte == 1:
        return f"open chain {dotted(numbers_of(data[:9]))} with key {data[9:].hex()}"
    if byte == 2:
        return f"change the owner to key {data.hex()}"
    if byte == 3:
        return "close the chain"
    if byte == 4:
        return f"execute {data[0]} with {signed(data[1:9])}, target chain {dotted(numbers_of(data[9:]))}"
    name = f"sent by chain {dotted(numbers_of(data[:9]))} at height {number(data[9:11])}, command {data[11]}"
    return f"receive {data[12]} with {signed(data[13:])}, {name}"


def frame_lines(kind, scheme, frame):
    lines = [f"{kind.capitalize()} of {len(frame)} bytes:"]
    verdict = answer(kind, scheme, frame)
    if verdict.startswith("refused"):
        _, refusal, place = verdict.split()
        return lines + [f"  refused, number {refusal}: {FAULTS[int(refusal)].format(place=place)}"]
    width, end = WIDTHS[scheme], 6 + number(frame[4:6])
    block = frame[6:end]
    lines.append(f"  block {number(block[9:11])} of chain {dotted(numbers_of(block[:9]))}, at 6, commands: {block[43]}")
    position = 44
    for place in range(block[43]):
        operands = block[position + 1 : position + 1 + OPERANDS[block[position]]]
        lines.append(f"  command {place}, operands at {7 + position}: {command_words(block[position], operands)}")
        position += 1 + len(operands)
    if kind == "request":
        return lines + [f"  the owner's seal, at {end}: {frame[end:].hex()}"]
    for place in range(frame[end]):
        at = end + 1 + place * (1 + width)
        lines.append(f"  member {frame[at]}'s seal, at {at + 1}: {frame[at + 1 : at + 1 + width].hex()}")
    return lines


def signed_number(text):
    try:
        return int(text)
    except ValueError:
        raise NotUnderstood("a number is missing, or out of its range") from None


def ring_lines(offsets):
    rings = left = 0
    refused = []
    for place, value in enumerate(offsets):
        if not -500 <= value <= 500:
            refused = [f"  record {place} is refused, number 2: the offset is outside -500 to 500 mm"]
            break
        rings, left = rings + 1, left + (value < 0)
    return [f"Tally of ring records: rings {rings}, left of the axis {left}"] + refused


def stock_lines(steps):
    here = arrived = 0
    refused = []
    for place, (word, n) in enumerate(steps):
        taken = word in ("send", "ordered")
        if not 1 <= n <= 1000:
            refused = [f"  step {place} is refused, number 2: the number of segments is outside 1 to 1000"]
            break
        if taken and here < n:
            refused = [f"  step {place} is refused, number 3: fewer segments are here than are taken"]
            break
        here += {"cast": n, "delivered": n, "order": 0}.get(word, -n)
        arrived += n if word == "delivered" else 0
    return [f"Tally of the stock: segments here {here}, arrived {arrived}"] + refused


def parse_step(text):
    word, colon, n = text.partition(":")
    if not colon:
        raise NotUnderstood(NO_STEP)
    n = signed_number(n)
    if word not in ("cast", "send", "order", "delivered", "ordered"):
        raise NotUnderstood(NO_STEP)
    return word, n


def tag_lines(key, secret, digest, seal):
    if len(secret) != 64:
        raise NotUnderstood("a secret is 64 hexadecimal digits in lower case")
    over = parse_digest(digest).hex()
    if len(seal) % 2:
        raise NotUnderstood("a seal is in hexadecimal, two digits a byte")
    return [f"The tag of key {key} over digest {over} is {'right' if seal == tag(secret, over) else 'wrong'}"]


def answer_lines(words):
    kind = words[0]
    if kind not in ("ring", "compose", "request", "certificate", "tally", "stock", "tag"):
        raise NotUnderstood("the first word is none of ring, compose, request, certificate, tally, stock and tag")
    if kind == "tally":
        return ring_lines([signed_number(word) for word in words[1:]])
    if kind == "stock":
        return stock_lines([parse_step(word) for word in words[1:]])
    if kind == "tag" and len(words) == 5:
        return tag_lines(*words[1:])
    if len(words) < {"ring": 5, "compose": 4, "tag": 5}.get(kind, 3):
        raise NotUnderstood("a word is missing")
    if kind in ("request", "certificate"):
        if words[1] not in WIDTHS:
            raise NotUnderstood("a scheme of seals is tag or list")
        if len(words[2]) % 2:
            raise NotUnderstood(NO_FRAME)
        return frame_lines(kind, words[1], bytes.fromhex(words[2]))
    if kind == "ring":
        target = parse_identifier(words[4])
    chain, height, previous = parse_identifier(words[1]), int(words[2]), parse_digest(words[3])
    if kind == "compose":
        commands = [parse_command(word) for word in words[4:]]
        return [f"Block {height} of chain {words[1]}, commands: {len(commands)}"] + block_lines(chain, height, previous, commands)
    offsets = [signed_number(word) for word in words[5:]]
    commands = [parse_command(f"execute:1:{value}:{dotted(target)}") for value in offsets]
    first = f"Ring records of chain {words[1]}, block {height}, sent on to chain {words[4]}:"
    return [first] + [f"  ring {offset(value)}" for value in offsets] + block_lines(chain, height, previous, commands)


def lines():
    block = identifier([2, 7]) + (1).to_bytes(2, "big") + bytes.fromhex(FIRST) + bytes([5])
    for text in ("open:2.7.1:00000005", "change:0a0b0c0d", "execute:1:-12:1", "receive:1:65534:15:1:-500", "close"):
        block += parse_command(text)[0]
    request = with_length(b"AUTH", block, b"\x00\x00\x00\x09")
    certificate = with_length(b"CERT", block, b"\x02" + b"\x00" + b"\x11" * 32 + b"\x02" + b"\x22" * 32)
    frames = [("request", "list", request), ("request", "tag", request), ("request", "list", request[:4] + b"\x00\x2b" + request[6:49] + bytes(4)),
              ("request", "list", request.replace(b"\xff\xfe\x0f", b"\xff\xff\x0f")), ("certificate", "tag", certificate)]
    return (LINES + "".join(f"{kind} {scheme} {frame.hex()}\n" for kind, scheme, frame in frames)).splitlines()


def main():
    folder = pathlib.Path(__file__).resolve().parent.parent / "crates" / "member"
    asked, answered = lines(), []
    for place, line in enumerate(asked, 1):
        words = line.split()
        if not words or words[0].startswith("#"):
            continue
        try:
            answered += answer_lines(words)
        except NotUnderstood as reason:
            answered.append(f"error in line {place}: {reason}")
    (folder / "stdin").write_text("".join(line + "\n" for line in asked))
    (folder / "stdout").write_text("".join(line + "\n" for line in answered))


if __name__ == "__main__":
    main()
