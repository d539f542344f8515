"""Traces made by chance, the same from the same seed: plausible exchanges, and hostile cases for comparing ledgers.

python3 traces.py SEED BYTES > TRACE   an exchange of so many bytes or up to a line more, which is accepted where the list has room
"""

import random
import sys

# By CID, the bytes of the payload, down and up.
LENGTHS = {0x02: (2, 0), 0x03: (4, 1), 0x04: (1, 0), 0x05: (4, 1), 0x06: (0, 2), 0x07: (5, 1), 0x08: (1, 0), 0x09: (1, 0), 0x0A: (4, 1), 0x0D: (5, 0)}

# The device asks these, and the network the others.
ASKED_UP = (0x02, 0x0D)
ASKED_DOWN = tuple(cid for cid in LENGTHS if cid not in ASKED_UP)

# By CID, an answer's byte that says yes, and some that say no.
YES = {0x03: 0x07, 0x05: 0x07, 0x07: 0x03, 0x0A: 0x03}
NO = {0x03: (0x00, 0x03, 0x06, 0x0F, 0x87), 0x05: (0x00, 0x05, 0x0F), 0x07: (0x00, 0x01, 0x02, 0x07), 0x0A: (0x00, 0x01, 0x02, 0xFE)}

# What is no CID in either direction.
UNKNOWN = (0x00, 0x01, 0x0B, 0x0C, 0x0E, 0x10, 0x80, 0xFF)

FREQUENCIES = (bytes.fromhex("184F84"), bytes.fromhex("E85684"), bytes.fromhex("B85E84"), bytes.fromhex("D2AD84"), bytes(3))

# A frame's options have 15 bytes, a frame's payload has 242, and a line's stream 255.
SIZES = (15,) * 12 + (51, 242, 255)


def line(frame, direction, stream):
    return b"%d\t%s\t%s\n" % (frame, direction, stream.hex().upper().encode() or b"-")


def request(rng, cid):
    """A request whose values come again often, so that settings stay unchanged."""
    any_byte = rng.randrange(256)
    if cid == 0x03:
        mask = rng.choice((b"\xFF\x00", b"\x07\x00", b"\xFF\xFF", b"\x00\x07"))
        payload = bytes([rng.choice((0x50, 0x51, 0x05, any_byte))]) + mask + bytes([rng.choice((0x01, 0x81, 0x61, any_byte))])
    elif cid == 0x05:
        payload = bytes([rng.choice((0x00, 0x80, 0x23, any_byte))]) + rng.choice(FREQUENCIES)
    elif cid in (0x07, 0x0A):
        payload = bytes([rng.choice((rng.randrange(21), rng.randrange(3, 8)))]) + rng.choice(FREQUENCIES)
        payload += bytes([rng.choice((0x50, 0x77))]) if cid == 0x07 else b""
    elif cid in (0x04, 0x08, 0x09):
        payload = bytes([rng.choice((0x00, 0x10, 0x01, 0x25, 0x35, any_byte))])
    else:
        payload = b""
    return bytes([cid]) + payload


def answer(rng, cid):
    if cid in YES:
        says = rng.choice(NO[cid]) if rng.random() < 0.2 else YES[cid]
        if cid == 0x0A and rng.random() < 0.1:
            says |= 0xF0
        return bytes([cid, says])
    return bytes([cid]) + rng.randbytes(LENGTHS[cid][0 if cid in ASKED_UP else 1])


class Exchange:
    """A network and a device that talk."""

    def __init__(self, rng, strays=0.02, stops=0.01):
        self.rng, self.strays, self.stops = rng, strays, stops
        # By the side that is to answer, the CIDs of the open requests, in the order of asking.
        self.open = {b"U": [], b"D": []}
        self.frames = {side: rng.choice((0, rng.randrange(70_000), rng.randrange(2**32), 2**32 - 20)) for side in self.open}

    def line(self):
        side = self.rng.choice((b"U", b"D"))
        # One in ten is sent again in the frame before.
        if self.rng.random() < 0.9:
            self.frames[side] = (self.frames[side] + 1) % 2**32
        return line(self.frames[side], side, self.stream(side))

    def stream(self, side):
        rng = self.rng
        if rng.random() < 0.05:
            return b""
        most = rng.choice(SIZES)
        stream = b""
        for command in self.commands(side, most):
            if len(stream) + len(command) > most:
                break
            stream += command
            self.said(side, command[0])
        if rng.random() < self.strays:
            stream += self.stray(side)
        if rng.random() < self.stops:
            stream += self.stop(side)
        return stream[:255]

    def commands(self, side, most):
        """Answers to what is open, all or not, and then requests: the network's in most frames, the device's now and then."""
        rng = self.rng
        if rng.random() < 0.7:
            for cid in self.open[side][: rng.choice((None, None, 2))]:
                yield answer(rng, cid)
        if side == b"U" and rng.random() < 0.7:
            return
        for _ in range(rng.randrange(3 if most == 15 else 12)):
            cid = rng.choice(ASKED_UP if side == b"U" else ASKED_DOWN)
            # LinkADRReq often comes in blocks. No side asks while eight are open.
            for _ in range(rng.choice((1, 1, 2, 3)) if cid == 0x03 else 1):
                if self.open[other(side)].count(cid) < 8:
                    yield request(rng, cid)

    def said(self, side, cid):
        if (cid in ASKED_UP) == (side == b"U"):
            self.open[other(side)].append(cid)
        else:
            self.open[side].remove(cid)

    def stray(self, side):
        """An answer to nothing, where there is one."""
        strays = [cid for cid in (ASKED_UP if side == b"D" else ASKED_DOWN) if cid not in self.open[side]]
        return answer(self.rng, self.rng.choice(strays)) if strays else b""

    def stop(self, side):
        """A byte that is no CID with some behind it, or a command without its last byte."""
        rng = self.rng
        if rng.random() < 0.5:
            return bytes([rng.choice(UNKNOWN)]) + rng.randbytes(rng.randrange(4))
        return request(rng, rng.choice((0x03, 0x07)))[:-1] if side == b"D" else b"\x03"


def other(side):
    return b"D" if side == b"U" else b"U"


def exchange(seed, size):
    made = Exchange(random.Random(seed))
    lines, length = [], 0
    while length < size:
        lines.append(made.line())
        length += len(lines[-1])
    return b"".join(lines)


def few_lines(rng):
    """A short exchange, with strays and stops in plenty."""
    made = Exchange(rng, strays=rng.choice((0, 0.3)), stops=rng.choice((0, 0.2)))
    return [made.line() for _ in range(rng.randrange(1, 25))]


def one_cid(rng):
    """Requests of one CID, about eight open, and some answers."""
    cid = rng.choice(tuple(LENGTHS))
    asking, answering = (b"U", b"D") if cid in ASKED_UP else (b"D", b"U")
    lines = []
    for _ in range(rng.randrange(1, 12)):
        if rng.random() < 0.6:
            lines.append(line(rng.randrange(9), asking, b"".join(request(rng, cid) for _ in range(rng.randrange(1, 6)))))
        else:
            lines.append(line(rng.randrange(9), answering, b"".join(answer(rng, cid) for _ in range(rng.randrange(1, 5)))))
    return lines


def half_way(rng):
    """Behind a short exchange, lines that can be refused in their midst: about nine requests of one CID, answers between them, and maybe a stop."""
    made = Exchange(rng, strays=0, stops=0)
    lines = [made.line() for _ in range(rng.randrange(9))]
    for _ in range(rng.randrange(1, 4)):
        side = rng.choice((b"U", b"D"))
        asked, answered = (ASKED_UP, ASKED_DOWN) if side == b"U" else (ASKED_DOWN, ASKED_UP)
        cid = rng.choice(asked)
        commands = [request(rng, cid) for _ in range(rng.randrange(5, 11))]
        commands += [answer(rng, rng.choice(answered)) for _ in range(rng.randrange(4))]
        rng.shuffle(commands)
        if rng.random() < 0.5:
            commands.append(bytes([rng.choice(UNKNOWN)]))
        lines.append(line(rng.randrange(9), side, b"".join(commands)))
    return lines


def any_bytes(rng):
    """Streams of bytes by chance, most of them CIDs and answers."""
    some = tuple(LENGTHS) + (0x03, 0x07, 0x07, 0x10, 0x13)
    lines = []
    for _ in range(rng.randrange(1, 12)):
        stream = bytes(rng.choice(some) if rng.random() < 0.95 else rng.randrange(256) for _ in range(rng.choice((3, 8, 20, 255))))
        lines.append(line(rng.randrange(2**32), rng.choice((b"U", b"D")), stream))
    return lines


def bad_line(rng):
    """A line without the form, or at its very edge."""
    frame, side = b"%d" % rng.randrange(100), rng.choice((b"U", b"D"))
    good = line(int(frame), side, request(rng, rng.choice(ASKED_DOWN)))
    return rng.choice((
        b"\n",
        b"-\n",
        b"\t\t\n",
        good[:-1],
        good[:-1] + b"\r\n",
        good[:-1] + b" \n",
        good[:-1] + b"\t\n",
        b" " + good,
        good.lower(),
        good.replace(b"\t", b" "),
        good.replace(b"\t", b"\t\t"),
        good[:-2] + b"\n",
        frame + b"\t" + side + b"\t06a6\n",
        frame + b"\t" + side + b"\t0G\n",
        frame + b"\t" + side + b"\t0/0:0@0`\n",
        frame + b"\t" + side + b"\t\n",
        frame + b"\t" + side + b"\n",
        frame + b"\t" + side + b"\t--\n",
        frame + b"\t" + side + b"\t-06\n",
        frame + b"\t" + side + b"\t06-\n",
        frame + b"\t" + side + b"\t" + b"06" * rng.choice((254, 255, 256, 257)) + b"\n",
        frame + b"\t" + side + b"\t" + b"00" * rng.choice((254, 255, 256, 300)) + b"\n",
        frame + b"\t" + rng.choice((b"u", b"d", b"X", b"UD", b"", b"u")) + b"\t06\n",
        b"0" + good,
        b"00\t" + side + b"\t06\n",
        b"\t" + side + b"\t06\n",
        rng.choice((b"+", b"-", b"0x", b"1_", b"1.", b"A")) + good,
        b"%d\t%s\t-\n" % (rng.choice((2**32 - 1, 2**32, 2**32 + 1, 2**64, 10**10 - 1, 10**10, 2**64 + 1, 10**40)), side),
        b"0\t" + side + b"\t-\n",
        b"\xEF\xBB\xBF" + good,
        "\u0661".encode() + good,
        bytes(rng.randrange(256) for _ in range(rng.randrange(1, 9))) + b"\n",
    ))


def mutated(rng, text):
    """With a few bytes changed, put in, left out or doubled; or cut."""
    text = bytearray(text)
    for _ in range(rng.randrange(1, 4)):
        at = rng.randrange(len(text)) if text else 0
        byte = rng.choice((rng.choice(b"0123456789ABCDEF"), rng.choice(b"\t\n-UD \r"), rng.randrange(256)))
        change = rng.randrange(5)
        if change == 0:
            text[at : at + 1] = [byte]
        elif change == 1:
            text.insert(at, byte)
        elif change == 2:
            del text[at : at + 1]
        elif change == 3:
            text[at:at] = text[at : at + rng.randrange(40)]
        elif rng.random() < 0.3:
            del text[at:]
    return bytes(text)


def all_answered():
    """Eight times yes to every CID: by what is set and what is a stray, it shows which requests were open."""
    up = b"".join(bytes([cid]) + bytes([YES.get(cid, 0)] * LENGTHS[cid][1]) for cid in ASKED_DOWN)
    down = b"".join(bytes([cid]) + bytes(LENGTHS[cid][0]) for cid in ASKED_UP)
    return line(0, b"U", 8 * up) + line(0, b"D", 8 * down)


def hostile(rng):
    """A case: the numbers of a lent list, four to an entry, and a text."""
    lines = rng.choice((few_lines, few_lines, one_cid, half_way, any_bytes))(rng)
    harm = rng.randrange(3)
    if harm == 0:
        lines.insert(rng.randrange(len(lines) + 1), bad_line(rng))
    text = b"".join(lines)
    if harm == 1:
        text = mutated(rng, text)
    if rng.random() < 0.5:
        text += all_answered()
    return rng.choice((0, rng.randrange(16), rng.randrange(40), 80, 4000, 4001, 4002, 4003)), text


def case(rng):
    if rng.random() < 0.05:
        return 40_000, exchange(rng.randrange(2**32), rng.randrange(1, 6000))
    return hostile(rng)


if __name__ == "__main__":
    if len(sys.argv) != 3 or not (sys.argv[1] + sys.argv[2]).isdecimal():
        sys.exit(__doc__)
    sys.stdout.buffer.write(exchange(int(sys.argv[1]), int(sys.argv[2])))
