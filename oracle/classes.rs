//! The differences between the original and docs/RULES.md: each class has a number, and the smallest input that shows it.
//! What makes a case one of a class is tested where the entry is judged; a panic or an answer outside the classes ends the run.

use crate::case::hex;
use crate::entries;

pub struct Class {
    pub number: u8,
    pub what: &'static str,
    /// The entry that shows it, and the input, smallest by length and then by its bytes.
    pub entry: u8,
    pub smallest: &'static [u8],
}

pub const CUT_EXACT: u8 = 1;
pub const CUT_SHORT: u8 = 2;
pub const UNKNOWN_BYTE: u8 = 3;
pub const BANK_READ: u8 = 4;
pub const BANK_SET: u8 = 5;
pub const CHANNEL_SET: u8 = 6;
pub const RAW_PAYLOAD: u8 = 7;
pub const RAW_FREQUENCY: u8 = 8;
pub const RAW_MASK: u8 = 9;
pub const OTHER_STATUSES: u8 = 10;
pub const UNKNOWN_RECORD: u8 = 11;
pub const MISSIZED_RECORD: u8 = 12;
pub const LONG_LIST: u8 = 13;
pub const SHORT_AS_WELL: u8 = 14;
pub const OVERSTATED_RECORD: u8 = 15;
pub const TYPED_RECORD: u8 = 16;
pub const FLAG_DOWN: u8 = 17;
pub const HIGH_FIRST: u8 = 18;
pub const ZERO_DELAY: u8 = 19;

/// The classes of functions that the port leaves behind.
pub const LEFT_BEHIND: [u8; 4] = [RAW_PAYLOAD, RAW_FREQUENCY, RAW_MASK, OTHER_STATUSES];

pub const ALL: &[Class] = &[
    Class {
        number: CUT_EXACT,
        what: "walk: of a sized command exactly its payload length of bytes is left, CID included. The Rust panics; stop 2",
        entry: entries::WALK_UP,
        smallest: &[0x03],
    },
    Class {
        number: CUT_SHORT,
        what: "walk: of a known command fewer bytes are left, CID included, than its payload length. The Rust says None; stop 2",
        entry: entries::WALK_DOWN,
        smallest: &[0x02],
    },
    Class {
        number: UNKNOWN_BYTE,
        what: "walk: a byte that is no CID. The Rust says None; stop 1",
        entry: entries::WALK_DOWN,
        smallest: &[0x00],
    },
    Class {
        number: BANK_READ,
        what: "ChannelMask::get_index at or past the width. The Rust panics; refusal 5",
        entry: entries::MASK_2 + entries::GET_INDEX,
        smallest: &[0, 0, 0, 0, 0, 0, 0, 0, 0, 2],
    },
    Class {
        number: BANK_SET,
        what: "ChannelMask::set_bank at or past the width. The Rust panics; refusal 5, the mask as it was",
        entry: entries::MASK_2 + entries::SET_BANK,
        smallest: &[0, 0, 0, 0, 0, 0, 0, 0, 0, 2, 0],
    },
    Class {
        number: CHANNEL_SET,
        what: "ChannelMask::set_channel at or past 8 x width. The Rust panics; refusal 5, the mask as it was",
        entry: entries::MASK_2 + entries::SET_CHANNEL,
        smallest: &[0, 0, 0, 0, 0, 0, 0, 0, 0, 16, 0],
    },
    Class {
        number: RAW_PAYLOAD,
        what: "a sized payload's new_from_raw on another length, left behind. The Rust panics in a reader or reads the front; `new` gives 3",
        entry: entries::PAYLOAD,
        smallest: &[],
    },
    Class {
        number: RAW_FREQUENCY,
        what: "Frequency::new_from_raw on another length, left behind. The Rust panics in value or reads the front, and panics in set_frequency; `new` gives 3",
        entry: entries::FREQUENCY,
        smallest: &[],
    },
    Class {
        number: RAW_MASK,
        what: "ChannelMask::new_from_raw on fewer bytes than the width, left behind. The Rust panics; `new` gives 4",
        entry: entries::MASK_2 + entries::NEW,
        smallest: &[],
    },
    Class {
        number: OTHER_STATUSES,
        what: "ChannelMask::statuses of another length than 8 x width, left behind. The Rust gives fewer, or panics for more",
        entry: entries::MASK_2 + entries::STATUSES,
        smallest: &[0, 0],
    },
    Class {
        number: UNKNOWN_RECORD,
        what: "a list with a CID that the direction doesn't have, unset ones included. The Rust answers; refusal 1 at the record's place",
        entry: entries::LIST_LEN,
        smallest: &[0, 0, 1, 0, 0, 0, 0, 0, 0, 0, 0],
    },
    Class {
        number: MISSIZED_RECORD,
        what: "a list with a length that isn't the table's, those of the other direction included. The Rust answers; refusal 3 at the record's place",
        entry: entries::LIST_LEN,
        smallest: &[0, 0, 1, 2, 0, 0, 0, 0, 0, 0, 0],
    },
    Class {
        number: LONG_LIST,
        what: "a list of over 4,096 records. The Rust answers; refusal 16",
        entry: entries::LIST_LEN,
        smallest: &[0, 16, 1, 0, 0, 0, 0, 0, 0, 0, 0],
    },
    Class {
        number: SHORT_AS_WELL,
        what: "a list refused with 1, 3 or 16 and a buffer shorter than its total. The Rust says BufferTooShort; the list's refusal comes first",
        entry: entries::BUILD,
        smallest: &[0, 0, 0, 0, 0, 1, 0, 0, 0, 0, 0, 0, 0, 0],
    },
    Class {
        number: OVERSTATED_RECORD,
        what: "a record whose length is over the bytes that it has. The Rust panics half-way; the list's refusal, the buffer as it was",
        entry: entries::BUILD,
        smallest: &[0, 0, 7, 0, 0, 1, 0, 6, 0, 0, 0, 0, 0, 0],
    },
    Class {
        number: TYPED_RECORD,
        what: "a record of UplinkMacCommandCreator or DownlinkMacCommandCreator over a default image. The Rust takes the type's CID; the image's first byte",
        entry: entries::CREATOR,
        smallest: &[1],
    },
    Class {
        number: FLAG_DOWN,
        what: "the flag of DevStatusAns, of the type and of one that a walk to the end hands out. The Rust says that it is not sent up; it is",
        entry: entries::PAYLOAD + 9,
        smallest: &[],
    },
    Class {
        number: HIGH_FIRST,
        what: "the seconds of DeviceTimeAns, where their bytes don't read the same both ways. The Rust takes the high byte first; the low byte is first",
        entry: entries::PAYLOAD + 18,
        smallest: &[0, 0, 0, 1, 0],
    },
    Class {
        number: ZERO_DELAY,
        what: "the delay of RXTimingSetupReq, where the low nibble is 0. The Rust says 0; it is 1 second",
        entry: entries::PAYLOAD + 12,
        smallest: &[0],
    },
];

pub fn print() {
    for class in ALL {
        let mut input = Vec::new();
        hex(&mut input, class.smallest);
        println!("{:2}  {}: {:02X} {}", class.number, class.what, class.entry, String::from_utf8_lossy(&input));
    }
}
