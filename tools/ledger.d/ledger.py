"""The ledger of parents, replayed by a script of its own: which request set each radio setting of a device. Written from the documents, for
comparing; it keeps every parent that a setting ever had."""

import re

# CID, then name and bytes of payload, down and up.
TABLE = [
    (0x02, "LinkCheckAns", 2, "LinkCheckReq", 0),
    (0x03, "LinkADRReq", 4, "LinkADRAns", 1),
    (0x04, "DutyCycleReq", 1, "DutyCycleAns", 0),
    (0x05, "RXParamSetupReq", 4, "RXParamSetupAns", 1),
    (0x06, "DevStatusReq", 0, "DevStatusAns", 2),
    (0x07, "NewChannelReq", 5, "NewChannelAns", 1),
    (0x08, "RXTimingSetupReq", 1, "RXTimingSetupAns", 0),
    (0x09, "TXParamSetupReq", 1, "TXParamSetupAns", 0),
    (0x0A, "DlChannelReq", 4, "DlChannelAns", 1),
    (0x0D, "DeviceTimeAns", 5, "DeviceTimeReq", 0),
]
COMMANDS = {
    "D": {cid: (name, length) for cid, name, length, _, _ in TABLE},
    "U": {cid: (name, length) for cid, _, _, name, length in TABLE},
}

CHANNELS = 16
SETTINGS = [
    "rate", "power", "mask", "redundancy", "duty cycle", "RX1 offset", "RX2 rate", "RX2 frequency", "delay",
    "downlink dwell", "uplink dwell", "power limit",
] + [(what, channel) for what in ("frequency", "rate range", "downlink frequency") for channel in range(CHANNELS)]

POWER_LIMITS = [8, 10, 12, 13, 14, 16, 18, 20, 21, 24, 26, 27, 29, 30, 33, 36]

# The kinds of entries.
HIGH_CHANNEL, STRAY, STOP = 1, 2, 3

# The refusals.
ACCEPTED, BUFFER_TOO_SHORT, PENDING_FULL, BAD_TRACE_LINE = 0, 4, 17, 18

MOST_OPEN = 8


class Refused(Exception):
    def __init__(self, number):
        self.number = number


class State:
    def __init__(self):
        self.lines = 0
        # By CID, the open requests, the earliest first: (line, frame, offset, name, payload).
        self.open = {cid: [] for cid, *_ in TABLE}
        # By setting, all its parents in the order of their answers: (line, frame, offset, value).
        self.parents = {setting: [] for setting in SETTINGS}
        # (kind, line, frame, offset)
        self.entries = []

    @property
    def listed(self):
        return len(self.entries)


FORM = re.compile(rb"(0|[1-9][0-9]{0,9})\t([UD])\t(-|(?:[0-9A-F]{2}){1,255})\n")


def read_line(line):
    """Frame, direction and stream of a line, its newline included."""
    form = FORM.fullmatch(line)
    if form is None or int(form[1]) > 4_294_967_295:
        raise Refused(BAD_TRACE_LINE)
    return int(form[1]), form[2].decode(), b"" if form[3] == b"-" else bytes.fromhex(form[3].decode())


def walk(direction, stream):
    """Each command as (offset, CID, name, payload); and a stop, where there is one, as (offset, None, None, None)."""
    at = 0
    while at < len(stream):
        name, length = COMMANDS[direction].get(stream[at], (None, 0))
        payload = stream[at + 1 : at + 1 + length]
        if name is None or len(payload) < length:
            yield at, None, None, None
            return
        yield at, stream[at], name, payload
        at += 1 + length


def says_yes(name, payload):
    if name in ("LinkADRAns", "RXParamSetupAns"):
        return payload[0] == 0x07
    if name == "NewChannelAns":
        return payload[0] == 0x03
    if name == "DlChannelAns":
        return payload[0] & 0x03 == 0x03
    return True


def low_first(payload):
    return int.from_bytes(payload, "little")


def channel_of(name, payload):
    """The channel that a request is for, if it is for one."""
    return payload[0] if name in ("NewChannelReq", "DlChannelReq") else None


def writes(name, payload):
    """What a request says of each setting that it writes."""
    if name == "LinkADRReq":
        return {
            "rate": payload[0] >> 4,
            "power": payload[0] & 0x0F,
            "mask": low_first(payload[1:3]),
            "redundancy": payload[3],
        }
    if name == "DutyCycleReq":
        return {"duty cycle": payload[0] & 0x0F}
    if name == "RXParamSetupReq":
        return {
            "RX1 offset": payload[0] >> 4 & 0x07,
            "RX2 rate": payload[0] & 0x0F,
            "RX2 frequency": low_first(payload[1:4]) * 100,
        }
    if name == "RXTimingSetupReq":
        # In seconds; a code of 0 is one of them.
        return {"delay": payload[0] & 0x0F or 1}
    if name == "TXParamSetupReq":
        return {
            "downlink dwell": payload[0] >> 5 & 1,
            "uplink dwell": payload[0] >> 4 & 1,
            "power limit": POWER_LIMITS[payload[0] & 0x0F],
        }
    if name == "NewChannelReq" and payload[0] < CHANNELS:
        return {
            ("frequency", payload[0]): low_first(payload[1:4]) * 100,
            ("rate range", payload[0]): payload[4],
        }
    if name == "DlChannelReq" and payload[0] < CHANNELS:
        return {("downlink frequency", payload[0]): low_first(payload[1:4]) * 100}
    return {}


def replay_line(text, state, room):
    """Takes one line, or raises Refused with the state as it was."""
    line = state.lines + 1
    frame, direction, stream = read_line(text)
    waiting = {cid: list(requests) for cid, requests in state.open.items()}
    effects = []
    entries = []

    def enter(*entry):
        if room <= state.listed + len(entries):
            raise Refused(BUFFER_TOO_SHORT)
        entries.append(entry)

    for offset, cid, name, payload in walk(direction, stream):
        if cid is None:
            enter(STOP, line, frame, offset)
        elif name.endswith("Req"):
            if len(waiting[cid]) == MOST_OPEN:
                raise Refused(PENDING_FULL)
            waiting[cid].append((line, frame, offset, name, payload))
        elif not waiting[cid]:
            enter(STRAY, line, frame, offset)
        else:
            request = waiting[cid].pop(0)
            if says_yes(name, payload):
                channel = channel_of(*request[3:])
                if channel is not None and channel >= CHANNELS:
                    enter(HIGH_CHANNEL, *request[:3])
                effects.append(request)

    state.lines = line
    state.open = waiting
    state.entries += entries
    for *place, name, payload in effects:
        for setting, value in writes(name, payload).items():
            state.parents[setting].append((*place, value))


def replay(text, state, room):
    """Takes the lines of a text up to the first that is refused. The lent list has room for so many entries, those of earlier texts counted.
    Answers the refusal's number and the line's, or 0 and 0."""
    for line in lines_of(text):
        try:
            replay_line(line, state, room)
        except Refused as refusal:
            return refusal.number, state.lines + 1
    return ACCEPTED, 0


def lines_of(text):
    """The lines, each with its newline; the last may lack it."""
    *whole, rest = text.split(b"\n")
    return [line + b"\n" for line in whole] + ([rest] if rest else [])


def settings(state):
    """By setting: none, or line, frame and offset of its parent, what that says, and whether the parent before it said the same."""
    return {setting: held(parents) for setting, parents in state.parents.items()}


def held(parents):
    if not parents:
        return None
    return (*parents[-1], len(parents) > 1 and parents[-2][3] == parents[-1][3])
