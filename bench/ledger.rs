//! The ledger of parents in plain Rust, as a program would write it: it replays a recorded exchange, and tells which request set each radio setting.

/// The refusals.
pub const BUFFER_TOO_SHORT: u8 = 4;
const PENDING_FULL: u8 = 17;
const BAD_TRACE_LINE: u8 = 18;

/// The kinds of entries.
const HIGH_CHANNEL: u64 = 1;
const STRAY: u64 = 2;
const STOP: u64 = 3;

const CHANNELS: usize = 16;

/// So many requests of one CID can be open.
const MOST_OPEN: usize = 8;

/// The most bytes of a stream.
const MOST_BYTES: usize = 255;

/// Every CID is below this.
const CIDS: usize = 16;

/// In place of a length: this is no CID.
const NONE: u8 = 0xFF;

/// The bytes of each CID's payload, by direction.
const DOWN: [u8; CIDS] = [NONE, NONE, 2, 4, 1, 4, 0, 5, 1, 1, 4, NONE, NONE, 5, NONE, NONE];
const UP: [u8; CIDS] = [NONE, NONE, 0, 1, 0, 1, 2, 1, 0, 0, 1, NONE, NONE, 0, NONE, NONE];

/// The worth of each hex digit, in capitals; `NONE` for every other byte.
const DIGITS: [u8; 256] = {
    let mut worth = [NONE; 256];
    let mut digit = 0;
    while digit < 16 {
        worth[b"0123456789ABCDEF"[digit] as usize] = digit as u8;
        digit += 1;
    }
    worth
};

const POWER_LIMITS: [u8; 16] = [8, 10, 12, 13, 14, 16, 18, 20, 21, 24, 26, 27, 29, 30, 33, 36];

#[derive(Clone, Copy, PartialEq)]
enum Direction {
    Up,
    Down,
}

impl Direction {
    fn lengths(self) -> &'static [u8; CIDS] {
        match self {
            Direction::Up => &UP,
            Direction::Down => &DOWN,
        }
    }

    /// Whether a command is a request; otherwise it is an answer. Two of them are asked by the device.
    fn asks(self, cid: u8) -> bool {
        (self == Direction::Up) == matches!(cid, 0x02 | 0x0D)
    }
}

/// What stands at an offset of a stream.
enum Event<'a> {
    Command { offset: u8, cid: u8, payload: &'a [u8] },
    Stop { offset: u8 },
}

/// A stream's commands, and then its stop, where it has one.
struct Walk<'a> {
    lengths: &'static [u8; CIDS],
    stream: &'a [u8],
    at: usize,
}

impl<'a> Iterator for Walk<'a> {
    type Item = Event<'a>;

    #[inline(always)]
    fn next(&mut self) -> Option<Event<'a>> {
        let &cid = self.stream.get(self.at)?;
        let offset = self.at as u8;
        let len = self.lengths.get(cid as usize).copied().unwrap_or(NONE) as usize;
        // No stream is so long that the length of what is no CID has room in it.
        match self.stream.get(self.at + 1..self.at + 1 + len) {
            Some(payload) => {
                self.at += 1 + len;
                Some(Event::Command { offset, cid, payload })
            }
            None => {
                self.at = self.stream.len();
                Some(Event::Stop { offset })
            }
        }
    }
}

/// A line of the trace, whose stream stands in memory of its own.
struct Line<'a> {
    frame: u32,
    direction: Direction,
    stream: &'a [u8],
}

impl<'a> Line<'a> {
    /// The first line of a text, and how many bytes of the text it has; none if it has not the form.
    fn read(text: &[u8], stream: &'a mut [u8; MOST_BYTES]) -> Option<(Line<'a>, usize)> {
        let (frame, digits) = decimal(text)?;
        let direction = match text.get(digits..digits + 3)? {
            b"\tU\t" => Direction::Up,
            b"\tD\t" => Direction::Down,
            _ => return None,
        };
        let third = &text[digits + 3..];
        let (len, width) = match third.first()? {
            b'-' => (0, 1),
            _ => match hex(third, stream) {
                0 => return None,
                len => (len, 2 * len),
            },
        };
        if *third.get(width)? != b'\n' {
            return None;
        }
        Some((Line { frame, direction, stream: &stream[..len] }, digits + 3 + width + 1))
    }

    fn walk(&self) -> Walk<'a> {
        Walk { lengths: self.direction.lengths(), stream: self.stream, at: 0 }
    }
}

/// The number in front of a text, and how many digits it has; none if it has extra zeros or more than 32 bits.
fn decimal(text: &[u8]) -> Option<(u32, usize)> {
    let mut number = 0u32;
    let mut digits = 0;
    while let Some(byte @ b'0'..=b'9') = text.get(digits) {
        number = number.checked_mul(10)?.checked_add(u32::from(byte - b'0'))?;
        digits += 1;
    }
    let extra = digits > 1 && text[0] == b'0';
    (digits > 0 && !extra).then_some((number, digits))
}

/// Reads pairs of digits into bytes, as long as there are both, and answers how many.
fn hex(text: &[u8], bytes: &mut [u8; MOST_BYTES]) -> usize {
    let mut len = 0;
    for (byte, pair) in bytes.iter_mut().zip(text.chunks_exact(2)) {
        let (high, low) = (DIGITS[pair[0] as usize], DIGITS[pair[1] as usize]);
        if high == NONE || low == NONE {
            break;
        }
        *byte = high << 4 | low;
        len += 1;
    }
    len
}

/// A request, and where it stands.
#[derive(Clone, Copy, Default)]
struct Request {
    line: u64,
    frame: u32,
    offset: u8,
    payload: [u8; 5],
}

impl Request {
    /// A frequency in Hz, from its three bytes behind the first.
    fn frequency(&self) -> u32 {
        u32::from_le_bytes([self.payload[1], self.payload[2], self.payload[3], 0]) * 100
    }
}

/// The open requests of a CID, in a ring.
#[derive(Clone, Copy, Default)]
struct Queue {
    requests: [Request; MOST_OPEN],
    first: usize,
    count: usize,
}

impl Queue {
    /// The request with so many before it.
    fn get(&self, n: usize) -> Option<&Request> {
        (n < self.count).then(|| &self.requests[(self.first + n) % MOST_OPEN])
    }

    /// There is room for it.
    fn push(&mut self, request: Request) {
        self.requests[(self.first + self.count) % MOST_OPEN] = request;
        self.count += 1;
    }

    fn pop(&mut self) -> Option<Request> {
        let request = *self.get(0)?;
        self.first = (self.first + 1) % MOST_OPEN;
        self.count -= 1;
        Some(request)
    }
}

/// The last parent of settings that one command writes together, and the one before.
#[derive(Clone, Copy, Default)]
struct Parents {
    last: Option<Request>,
    before: Option<Request>,
}

impl Parents {
    fn take(&mut self, request: Request) {
        self.before = self.last.replace(request);
    }
}

#[derive(Clone, Copy)]
enum Setting {
    Rate,
    Power,
    Mask,
    Redundancy,
    DutyCycle,
    Rx1Offset,
    Rx2Rate,
    Rx2Frequency,
    Delay,
    DownlinkDwell,
    UplinkDwell,
    PowerLimit,
    /// Of a channel from 0 to 15, as the two below.
    Frequency(usize),
    RateRange(usize),
    DownlinkFrequency(usize),
}

impl Setting {
    /// By the number that the port has for it.
    fn by(number: u8, channel: u8) -> Option<Setting> {
        use Setting::*;
        let radio = [Rate, Power, Mask, Redundancy, DutyCycle, Rx1Offset, Rx2Rate, Rx2Frequency, Delay, DownlinkDwell, UplinkDwell, PowerLimit];
        let of_channel = [Frequency, RateRange, DownlinkFrequency].map(|of| of(channel.into()));
        radio.into_iter().chain(of_channel).nth(number.into())
    }
}

/// A setting's parent, what it says of the setting, and whether the parent before it said the same.
#[derive(Default)]
struct Held {
    line: u64,
    frame: u32,
    offset: u8,
    value: u32,
    unchanged: bool,
}

#[derive(Default)]
struct Ledger {
    lines: u64,
    listed: usize,
    open: [Queue; CIDS],
    /// By the CID of the request, what is not a channel's.
    radio: [Parents; CIDS],
    channels: [Parents; CHANNELS],
    downlinks: [Parents; CHANNELS],
}

impl Ledger {
    /// Takes the lines of a text up to the first that is refused. In the lent list an entry is four numbers:
    /// kind, line, frame and offset. Answers the refusal's number and the line's, or 0 and 0.
    fn replay(&mut self, text: &[u8], list: &mut [u64]) -> (u8, u64) {
        let (entries, _) = list.as_chunks_mut::<4>();
        let mut stream = [0; MOST_BYTES];
        let mut at = 0;
        while at < text.len() {
            let Some((line, len)) = Line::read(&text[at..], &mut stream) else {
                return (BAD_TRACE_LINE, self.lines + 1);
            };
            if let Err(refusal) = self.judge(&line, entries.len()) {
                return (refusal, self.lines + 1);
            }
            self.take(&line, entries);
            at += len;
        }
        (0, 0)
    }

    /// Whether a line can be taken. Of one CID it has requests or answers, never both: so its commands are
    /// counted by CID, and the ledger need not change meanwhile.
    fn judge(&self, line: &Line, room: usize) -> Result<(), u8> {
        let mut seen = [0; CIDS];
        let mut left = room.saturating_sub(self.listed);
        for event in line.walk() {
            let listed = match event {
                Event::Stop { .. } => true,
                Event::Command { cid, payload, .. } => {
                    let queue = &self.open[cid as usize];
                    let n = seen[cid as usize];
                    seen[cid as usize] += 1;
                    if line.direction.asks(cid) {
                        if queue.count + n >= MOST_OPEN {
                            return Err(PENDING_FULL);
                        }
                        false
                    } else {
                        let request = queue.get(n);
                        request.is_none_or(|request| for_high_channel(cid, request) && says_yes(cid, payload))
                    }
                }
            };
            if listed {
                left = left.checked_sub(1).ok_or(BUFFER_TOO_SHORT)?;
            }
        }
        Ok(())
    }

    /// Takes a line that is judged.
    fn take(&mut self, line: &Line, entries: &mut [[u64; 4]]) {
        self.lines += 1;
        for event in line.walk() {
            match event {
                Event::Stop { offset } => self.enter(entries, STOP, self.lines, line.frame, offset),
                Event::Command { offset, cid, payload } if line.direction.asks(cid) => {
                    let mut request = Request { line: self.lines, frame: line.frame, offset, payload: [0; 5] };
                    request.payload[..payload.len()].copy_from_slice(payload);
                    self.open[cid as usize].push(request);
                }
                Event::Command { offset, cid, payload } => match self.open[cid as usize].pop() {
                    None => self.enter(entries, STRAY, self.lines, line.frame, offset),
                    Some(request) => {
                        if says_yes(cid, payload) {
                            self.effect(entries, cid, request);
                        }
                    }
                },
            }
        }
    }

    /// A request was answered yes.
    fn effect(&mut self, entries: &mut [[u64; 4]], cid: u8, request: Request) {
        if for_high_channel(cid, &request) {
            return self.enter(entries, HIGH_CHANNEL, request.line, request.frame, request.offset);
        }
        match cid {
            0x07 => self.channels[request.payload[0] as usize].take(request),
            0x0A => self.downlinks[request.payload[0] as usize].take(request),
            0x03 | 0x04 | 0x05 | 0x08 | 0x09 => self.radio[cid as usize].take(request),
            // The others write nothing.
            _ => {}
        }
    }

    fn enter(&mut self, entries: &mut [[u64; 4]], kind: u64, line: u64, frame: u32, offset: u8) {
        entries[self.listed] = [kind, line, u64::from(frame), u64::from(offset)];
        self.listed += 1;
    }

    /// What holds of a setting; none if it has no parent.
    fn setting(&self, setting: Setting) -> Option<Held> {
        let parents = match setting {
            Setting::Rate | Setting::Power | Setting::Mask | Setting::Redundancy => &self.radio[0x03],
            Setting::DutyCycle => &self.radio[0x04],
            Setting::Rx1Offset | Setting::Rx2Rate | Setting::Rx2Frequency => &self.radio[0x05],
            Setting::Delay => &self.radio[0x08],
            Setting::DownlinkDwell | Setting::UplinkDwell | Setting::PowerLimit => &self.radio[0x09],
            Setting::Frequency(channel) | Setting::RateRange(channel) => self.channels.get(channel)?,
            Setting::DownlinkFrequency(channel) => self.downlinks.get(channel)?,
        };
        let last = parents.last.as_ref()?;
        let value = said(setting, last);
        let unchanged = parents.before.as_ref().is_some_and(|before| said(setting, before) == value);
        Some(Held { line: last.line, frame: last.frame, offset: last.offset, value, unchanged })
    }
}

/// Replays a text from a fresh ledger, asks for one setting, and answers one part of what is told then, both by the numbers of the port.
#[inline(never)]
pub fn told(text: &[u8], list: &mut [u64], setting: u8, channel: u8, part: u8) -> u64 {
    let mut ledger = Ledger::default();
    let (verdict, line) = ledger.replay(text, list);
    let held = Setting::by(setting, channel).and_then(|setting| ledger.setting(setting));
    let known = held.is_some();
    let held = held.unwrap_or_default();
    match part {
        0 => verdict.into(),
        1 => line,
        2 => ledger.lines,
        3 => ledger.listed as u64,
        4 => known.into(),
        5 => held.line,
        6 => held.frame.into(),
        7 => held.offset.into(),
        8 => held.value.into(),
        9 => held.unchanged.into(),
        _ => 0,
    }
}

/// What a request that writes a setting says of it.
fn said(setting: Setting, request: &Request) -> u32 {
    let payload = &request.payload;
    match setting {
        Setting::Rate => u32::from(payload[0] >> 4),
        Setting::Power => u32::from(payload[0] & 0x0F),
        Setting::Mask => u32::from(u16::from_le_bytes([payload[1], payload[2]])),
        Setting::Redundancy => u32::from(payload[3]),
        Setting::DutyCycle => u32::from(payload[0] & 0x0F),
        Setting::Rx1Offset => u32::from(payload[0] >> 4 & 0x07),
        Setting::Rx2Rate => u32::from(payload[0] & 0x0F),
        // In seconds: code 0 is one.
        Setting::Delay => u32::from(payload[0] & 0x0F).max(1),
        Setting::DownlinkDwell => u32::from(payload[0] >> 5 & 1),
        Setting::UplinkDwell => u32::from(payload[0] >> 4 & 1),
        Setting::PowerLimit => u32::from(POWER_LIMITS[(payload[0] & 0x0F) as usize]),
        Setting::RateRange(_) => u32::from(payload[4]),
        Setting::Rx2Frequency | Setting::Frequency(_) | Setting::DownlinkFrequency(_) => request.frequency(),
    }
}

/// Whether a request of a CID is for a channel that is not held.
fn for_high_channel(cid: u8, request: &Request) -> bool {
    matches!(cid, 0x07 | 0x0A) && request.payload[0] as usize >= CHANNELS
}

/// Whether an answer says yes; one without acknowledgement bits always does.
fn says_yes(cid: u8, payload: &[u8]) -> bool {
    match cid {
        0x03 | 0x05 => payload[0] == 0x07,
        0x07 => payload[0] == 0x03,
        0x0A => payload[0] & 0x03 == 0x03,
        _ => true,
    }
}
