//! The entries, by their numbers. An entry is one public function, or the functions that answer for one type on one input.

use crate::case::Judged;
use crate::table::{self, Command, Direction, COMMANDS};
use crate::{build, creators, fields, masks, payloads, walk};

pub struct Entry {
    pub number: u8,
    pub name: String,
    pub judge: fn(&[u8]) -> Judged,
}

pub const DL_SETTINGS: u8 = 0x01;
pub const REDUNDANCY: u8 = 0x02;
pub const DATA_RATE_RANGE: u8 = 0x03;
pub const FREQUENCY: u8 = 0x04;
/// The payload types, a number for each command.
pub const PAYLOAD: u8 = 0x10;
/// The creators, by themselves, in their enums and as records, a number for each command.
pub const CREATOR: u8 = 0x40;
/// The masks of width 2, a number for each function below.
pub const MASK_2: u8 = 0x80;
/// The masks of width 9.
pub const MASK_9: u8 = 0x90;
pub const WALK_DOWN: u8 = 0xA0;
pub const WALK_UP: u8 = 0xA1;
/// The iterator's calls.
pub const CALLS_DOWN: u8 = 0xA2;
pub const CALLS_UP: u8 = 0xA3;
/// A command as a record.
pub const RECORD_DOWN: u8 = 0xA4;
pub const RECORD_UP: u8 = 0xA5;
pub const LIST_LEN: u8 = 0xB0;
pub const BUILD: u8 = 0xB1;
/// The same two over record structs.
pub const RECORDS_LEN: u8 = 0xB2;
pub const BUILD_RECORDS: u8 = 0xB3;

pub const DEFAULT: u8 = 0;
pub const NEW: u8 = 1;
pub const FROM: u8 = 2;
pub const IS_ENABLED: u8 = 3;
pub const GET_INDEX: u8 = 4;
pub const SET_BANK: u8 = 5;
pub const SET_CHANNEL: u8 = 6;
pub const STATUSES: u8 = 7;

/// Every entry, and beside those of the port the functions of the original that it leaves behind, under the number of the
/// entry that stands in for each.
pub struct Entries {
    ported: Vec<Entry>,
    left_behind: Vec<Entry>,
}

impl Entries {
    pub fn new() -> Entries {
        let mut ported = Vec::new();
        let mut left_behind = Vec::new();
        let mut add = |number, name: &str, judge| ported.push(Entry { number, name: name.to_string(), judge });
        let mut leave = |number, name: &str, judge| left_behind.push(Entry { number, name: name.to_string(), judge });

        add(DL_SETTINGS, "DLSettings", fields::dl_settings);
        add(REDUNDANCY, "Redundancy", fields::redundancy);
        add(DATA_RATE_RANGE, "DataRateRange", fields::data_rate_range);
        add(FREQUENCY, "Frequency", fields::frequency);
        leave(FREQUENCY, "Frequency::new_from_raw", fields::raw_frequency);
        for k in 0..COMMANDS {
            let name = format!("{}Payload", table::name(k));
            add(of(PAYLOAD, k), &name, payloads::CHECKED[k]);
            if let Some(judge) = payloads::RAW[k] {
                leave(of(PAYLOAD, k), &format!("{name}::new_from_raw"), judge);
            }
        }
        for k in 0..COMMANDS {
            add(of(CREATOR, k), &format!("{}Creator", table::name(k)), creators::ALL[k].judge);
        }
        let widths = [(MASK_2, 2, masks::judges::<2, 16, 15, 17>()), (MASK_9, 9, masks::judges::<9, 72, 71, 73>())];
        for (base, width, judges) in widths {
            for (number, name, judge) in judges.ported {
                add(base + number, &format!("ChannelMask<{width}>::{name}"), judge);
            }
            for (number, name, judge) in judges.left_behind {
                leave(base + number, &format!("ChannelMask<{width}>::{name}"), judge);
            }
        }
        add(WALK_DOWN, "parse_downlink_mac_commands", walk::down);
        add(WALK_UP, "parse_uplink_mac_commands", walk::up);
        add(CALLS_DOWN, "MacCommandIterator::next, down", walk::calls_down);
        add(CALLS_UP, "MacCommandIterator::next, up", walk::calls_up);
        add(RECORD_DOWN, "Record::from, down", walk::record_down);
        add(RECORD_UP, "Record::from, up", walk::record_up);
        add(LIST_LEN, "mac_commands_len", build::list_len);
        add(BUILD, "build_mac_commands", build::build);
        add(RECORDS_LEN, "records_len", build::list_len);
        add(BUILD_RECORDS, "build_records", build::build);
        Entries { ported, left_behind }
    }

    pub fn get(&self, number: u8) -> &Entry {
        self.ported.iter().find(|e| e.number == number).expect("an entry")
    }

    /// The functions left behind for which the numbered entry stands in.
    pub fn left_behind(&self, number: u8) -> impl Iterator<Item = &Entry> {
        self.left_behind.iter().filter(move |e| e.number == number)
    }

    pub fn ported(&self) -> &[Entry] {
        &self.ported
    }
}

/// The walk over streams of a direction.
pub fn walk_of(direction: Direction) -> u8 {
    WALK_DOWN + direction.number()
}

/// The iterator over streams of a direction.
pub fn calls_of(direction: Direction) -> u8 {
    CALLS_DOWN + direction.number()
}

/// The records of a direction's commands.
pub fn record_of(direction: Direction) -> u8 {
    RECORD_DOWN + direction.number()
}

/// The entry of a command, in one of the ranges with a number for each command.
pub fn of(base: u8, command: Command) -> u8 {
    base + command as u8
}
