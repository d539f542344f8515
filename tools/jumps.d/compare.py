"""The port's entries of a stream and its jump by them, beside a few lines that know the command table, the request and the form of the answers alone. The
streams are those sent down, which the crate exports is for.

python3 compare.py LIBRARY SEED COUNT   LIBRARY is the crate exports as a shared library; streams made by chance, the same from the same seed
python3 compare.py LIBRARY long         streams about 4,294,967,295 bytes long
"""

import array
import ctypes
import itertools
import mmap
import random
import sys

# By CID, the bytes of the payload of a command sent down.
DOWN = {0x02: 2, 0x03: 4, 0x04: 1, 0x05: 4, 0x06: 0, 0x07: 5, 0x08: 1, 0x09: 1, 0x0A: 4, 0x0D: 5}
CIDS = tuple(DOWN)
UNKNOWN = tuple(byte for byte in range(256) if byte not in DOWN)

# The most that a number holds, and the most bytes of a stream that entries are made of.
MOST = 0xFFFFFFFF

# What no entry covers, though a part of its bits may be a command's number.
HUGE = (MOST, 1 << 32, 1 << 36, (1 << 36) + 17, 1 << 63, (1 << 63) + 16, (1 << 64) - 16, (1 << 64) - 1)

# Numbers before and behind those that are lent.
AROUND = 4


def walk(stream, at):
    """The offset of each command from an offset on, up to the stop or the end."""
    while at < len(stream) and stream[at] in DOWN and at + DOWN[stream[at]] < len(stream):
        yield at
        at += 1 + DOWN[stream[at]]


def made(stream, room):
    """What the making answers, and the entries that it writes."""
    entries = list(walk(stream, 0))[::16]
    if room < len(entries):
        return 4 << 32, []
    if len(stream) > MOST:
        return 5 << 32, []
    return len(entries), entries


def jumped(stream, entries, n):
    """What the port must answer to the question for command n."""
    if n // 16 >= len(entries):
        return 4
    if entries[n // 16] > len(stream):
        return 5
    at = next(itertools.islice(walk(stream, entries[n // 16]), n % 16, None), None)
    return 19 if at is None else at * 65536 + stream[at] * 256 + DOWN[stream[at]]


def address(memory):
    return ctypes.addressof(ctypes.c_char.from_buffer(memory))


def difference(stream, call, script, port):
    return len(stream), f"{call}\n  script {script}\n  port   {port}\n  stream of {len(stream)} bytes: {bytes(stream[:65536]).hex()}"


def making(port, stream, start, rng):
    """The making with numbers lent fewer, just enough and more than needed; start is the stream's address."""
    needed = len(list(walk(stream, 0))[::16])
    for room in sorted({0, max(needed - 1, 0), needed, needed + 1, rng.randrange(needed + 1), needed + rng.randrange(40)}):
        held = array.array("I", rng.randbytes(4 * (AROUND + room + AROUND)))
        answer, entries = made(stream, room)
        after = held[:AROUND] + array.array("I", entries) + held[AROUND + len(entries):]
        said = port.nazhdivar_entries(start, len(stream), address(held) + 4 * AROUND, room)
        if (said, held) != (answer, after):
            call = f"entries, {room} numbers lent, with {AROUND} around them"
            yield difference(stream, call, (answer, after.tolist()), (said, held.tolist()))


def asking(port, stream, start, entries, questions):
    held = array.array("I", [0] * AROUND + entries + [0] * AROUND)
    before = held[:]
    for n in questions:
        answer = jumped(stream, entries, n)
        said = port.nazhdivar_jump(start, len(stream), address(held) + 4 * AROUND, len(entries), n)
        if said != answer:
            yield difference(stream, f"jump to {n} by entries {entries}", answer, said)
    if held != before:
        yield difference(stream, f"jump, the entries afterwards, with {AROUND} numbers around them", before.tolist(), held.tolist())


def around_each(rng, entries):
    """Questions for each entry and for two that are not there: its first, its last and another one."""
    return [16 * k + step for k in range(len(entries) + 2) for step in (0, 15, rng.randrange(16))] + [*HUGE]


def command(rng, cid):
    """A command whose payload's bytes may look like commands."""
    return bytes([cid, *(rng.choice(CIDS) if rng.random() < 0.8 else rng.randrange(256) for _ in range(DOWN[cid]))])


def commands(rng, cids, count):
    return b"".join(command(rng, rng.choice(cids)) for _ in range(count))


def some(rng):
    """How many commands: often about a multiple of 16, seldom thousands."""
    chance = rng.random()
    if chance < 0.4:
        return rng.choice((15, 16, 17, 31, 32, 33))
    return rng.randrange(41 if chance < 0.7 else 400) if chance < 0.99 else rng.randrange(1000, 5000)


def by_chance(rng):
    """A stream, and what is behind it in the memory and would be read as commands."""
    cids = rng.choice((CIDS, CIDS, rng.sample(CIDS, 2), rng.sample(CIDS, 1)))
    whole, more, behind = commands(rng, cids, some(rng)), commands(rng, CIDS, rng.randrange(20)), commands(rng, CIDS, 20)
    ending = rng.randrange(8)
    if ending == 0:
        return bytes(rng.choices(range(14), k=rng.randrange(60))), behind
    if ending < 3:
        return whole + bytes([rng.choice((0x00, 0x01, 0x0B, 0x0C, 0x0E, rng.choice(UNKNOWN)))]) + more, behind
    if ending < 5:
        last = command(rng, rng.choice([cid for cid in CIDS if DOWN[cid]]))
        cut = rng.randrange(1, len(last))
        return whole + last[:cut], last[cut:] + behind
    return whole, behind


def other_entries(rng, stream, own, many):
    """Entries by chance: in the stream, at commands, in payloads, at its end and past it; among them some as they were made."""
    offsets = list(walk(stream, 0)) or [0]
    end = len(stream)

    def entry(k):
        place = rng.choice(offsets)
        near = (rng.randrange(end + 1), place, min(place + rng.randrange(6), end), max(end - rng.randrange(8), 0), end)
        past = (end + 1, end + rng.randrange(1, 1 << 24), 1 << 31, MOST)
        return rng.choice((*near, own[k] if k < len(own) else 0, rng.choice(past)))

    return [entry(k) for k in range(many)]


def one(port, rng):
    """The differences on one stream."""
    stream, behind = by_chance(rng)
    memory = bytearray(stream + behind)
    start = address(memory)
    count, own = len(list(walk(stream, 0))), made(stream, MOST)[1]
    yield from making(port, stream, start, rng)
    yield from asking(port, stream, start, own, [*range(count + 41), *HUGE])
    fewer = own[:rng.randrange(len(own) + 1)]
    yield from asking(port, stream, start, fewer, around_each(rng, fewer))
    for many in (len(own), len(own) + rng.randrange(1, 4), rng.randrange(len(own) + 1)):
        entries = other_entries(rng, stream, own, many)
        yield from asking(port, stream, start, entries, around_each(rng, entries))
    if memory != stream + behind:
        yield difference(stream, "the memory afterwards", (stream + behind).hex(), memory.hex())


def long(port):
    """The differences on streams of zeros with commands in front, and about the offset 4,294,967,296."""
    rng = random.Random(0)
    memory = mmap.mmap(-1, MOST + (1 << 16), flags=mmap.MAP_PRIVATE | mmap.MAP_ANONYMOUS)
    start = address(memory)
    for count, length in itertools.product((0, 1, 16, 17, 33), (MOST - 1, MOST, MOST + 1, MOST + 2, len(memory))):
        front, far = commands(rng, CIDS, count), commands(rng, CIDS, 30)
        memory[:256] = front.ljust(256, b"\0")
        memory[MOST - 40:MOST + 216] = far.ljust(256, b"\0")
        with memoryview(memory) as lent, lent[:length] as stream:
            yield from making(port, stream, start, rng)
            entries = [0, *(at for at in walk(stream, MOST - 40) if at < MOST - 1), MOST - 1, MOST]
            yield from asking(port, stream, start, entries, [*range(16 * len(entries) + 2), *HUGE])


def main(words):
    if words[1:] != ["long"] and (len(words) != 3 or not (words[1] + words[2]).isdecimal()):
        sys.exit(__doc__)
    port = ctypes.CDLL(words[0])
    port.nazhdivar_entries.argtypes = [ctypes.c_void_p, ctypes.c_size_t] * 2
    port.nazhdivar_jump.argtypes = [ctypes.c_void_p, ctypes.c_size_t] * 2 + [ctypes.c_size_t]
    port.nazhdivar_entries.restype = port.nazhdivar_jump.restype = ctypes.c_uint64
    if words[1] == "long":
        found = long(port)
    else:
        rng = random.Random(int(words[1]))
        found = itertools.chain.from_iterable(one(port, rng) for _ in range(int(words[2])))
    smallest = min(found, default=None)
    if smallest:
        sys.exit(smallest[1])


if __name__ == "__main__":
    main(sys.argv[1:])
