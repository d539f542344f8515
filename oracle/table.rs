//! The command table (docs/RULES.md, T1). The original's answers don't come from here: only the conditions of the listed differences do, and the
//! flag that the port has of each command.

#[derive(Clone, Copy, PartialEq)]
pub enum Direction {
    Down,
    Up,
}

pub const DIRECTIONS: [Direction; 2] = [Direction::Down, Direction::Up];

/// A command: its place in the table, counted row by row, the down-going one first.
pub type Command = usize;

struct Row {
    cid: u8,
    names: [&'static str; 2],
    lengths: [usize; 2],
}

const fn row(cid: u8, down: &'static str, down_len: usize, up: &'static str, up_len: usize) -> Row {
    Row { cid, names: [down, up], lengths: [down_len, up_len] }
}

const ROWS: [Row; 10] = [
    row(0x02, "LinkCheckAns", 2, "LinkCheckReq", 0),
    row(0x03, "LinkADRReq", 4, "LinkADRAns", 1),
    row(0x04, "DutyCycleReq", 1, "DutyCycleAns", 0),
    row(0x05, "RXParamSetupReq", 4, "RXParamSetupAns", 1),
    row(0x06, "DevStatusReq", 0, "DevStatusAns", 2),
    row(0x07, "NewChannelReq", 5, "NewChannelAns", 1),
    row(0x08, "RXTimingSetupReq", 1, "RXTimingSetupAns", 0),
    row(0x09, "TXParamSetupReq", 1, "TXParamSetupAns", 0),
    row(0x0A, "DlChannelReq", 4, "DlChannelAns", 1),
    row(0x0D, "DeviceTimeAns", 5, "DeviceTimeReq", 0),
];

pub const COMMANDS: usize = 2 * ROWS.len();

impl Direction {
    pub fn number(self) -> u8 {
        self as u8
    }

    pub fn from_number(n: u8) -> Direction {
        DIRECTIONS[usize::from(n)]
    }

    /// The payload bytes of a CID, or none where the byte is no CID.
    pub fn payload_len(self, cid: u8) -> Option<usize> {
        ROWS.iter().find(|row| row.cid == cid).map(|row| row.lengths[self as usize])
    }

    pub fn commands(self) -> impl Iterator<Item = Command> {
        (0..COMMANDS).filter(move |k| direction(*k) == self)
    }
}

pub fn direction(command: Command) -> Direction {
    DIRECTIONS[command % 2]
}

pub fn cid(command: Command) -> u8 {
    ROWS[command / 2].cid
}

pub fn name(command: Command) -> &'static str {
    ROWS[command / 2].names[command % 2]
}

pub fn len(command: Command) -> usize {
    ROWS[command / 2].lengths[command % 2]
}

/// The command with this CID and this payload length, whichever its direction: no two have both.
pub fn find(cid: u8, len: usize) -> Option<Command> {
    (0..COMMANDS).find(|k| self::cid(*k) == cid && self::len(*k) == len)
}
