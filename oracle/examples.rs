//! The examples P1 to P15 and P19 of docs/RULES.md, with some of K10, as cases.

use crate::batch::Batch;
use crate::build::run;
use crate::creators::{script, Call, NEW};
use crate::entries::{self, of};
use crate::table::{Command, COMMANDS};

fn command(name: &str) -> Command {
    (0..COMMANDS).find(|k| crate::table::name(*k) == name).expect("a command")
}

/// A mask, an index, and what follows.
pub fn indexed(mask: &[u8], index: usize, rest: &[u8]) -> Vec<u8> {
    [mask, &(index as u64).to_be_bytes(), rest].concat()
}

pub fn all(batch: &mut Batch) {
    let payload = |name| of(entries::PAYLOAD, command(name));
    let creator = |name| of(entries::CREATOR, command(name));

    batch.comment("P1 to P6");
    batch.ask(entries::WALK_UP, &[]);
    batch.ask(entries::WALK_UP, &[0x02, 0x03, 0x00]);
    batch.ask(entries::WALK_DOWN, &[0x02, 0x03, 0x00]);
    batch.ask(entries::WALK_UP, &[0x03]);
    batch.ask(entries::WALK_DOWN, &[0x03, 0x51, 0x07]);
    batch.ask(entries::WALK_DOWN, &[0x03, 0x51, 0x07, 0x00]);
    batch.ask(entries::WALK_UP, &[0x02, 0x80]);

    batch.comment("P7");
    batch.ask(entries::FREQUENCY, &[0x28, 0x76, 0x84]);
    batch.ask(entries::FREQUENCY, &[0xFF, 0xFF, 0xFF]);

    batch.comment("P8");
    for byte in [0x1F, 0x20, 0xFF] {
        batch.ask(payload("DevStatusAns"), &[0x00, byte]);
    }
    for margin in [-33i8, -32, 31, 32] {
        batch.ask(creator("DevStatusAns"), &script(NEW, &[Call::byte(2, margin as u8)]));
    }

    batch.comment("P9");
    for name in ["LinkADRAns", "NewChannelAns", "DlChannelAns"] {
        batch.ask(payload(name), &[0x07]);
    }
    batch.ask(payload("LinkADRAns"), &[0x0F]);

    batch.comment("P10");
    for nanoseconds in [999_999_999, 1_000_000_000, 1_000_000_001] {
        batch.ask(creator("DeviceTimeAns"), &script(NEW, &[Call::number(2, nanoseconds)]));
    }

    batch.comment("P11");
    batch.ask(creator("TXParamSetupReq"), &script(NEW, &[Call::byte(3, 15), Call::byte(1, 0)]));
    batch.ask(payload("TXParamSetupReq"), &[0x2E]);

    batch.comment("P12");
    batch.ask(creator("DeviceTimeAns"), &script(NEW, &[Call::number(1, 16_909_060)]));
    batch.ask(payload("DeviceTimeAns"), &[0x04, 0x03, 0x02, 0x01, 0x00]);

    batch.comment("P13");
    let list = [run(1, &[0x02, 0, 0, 0, 0, 0, 0, 0]), run(1, &[0x03, 1, 0x07, 0, 0, 0, 0, 0])].concat();
    for room in [4, 2] {
        batch.ask(entries::BUILD, &[&[1, 0, room, 0xEE], &list[..]].concat());
    }

    batch.comment("P14");
    for channel in [15, 16] {
        batch.ask(entries::MASK_2 + entries::IS_ENABLED, &indexed(&[0x00, 0x80], channel, &[]));
    }

    batch.comment("P15");
    for byte in [0x50, 0x55, 0x05] {
        batch.ask(entries::DATA_RATE_RANGE, &[byte]);
    }

    batch.comment("P19, and K10");
    for byte in [0x00, 0x01, 0x0F, 0xF0] {
        batch.ask(payload("RXTimingSetupReq"), &[byte]);
    }
    for code in [0, 1, 15, 16] {
        batch.ask(creator("RXTimingSetupReq"), &script(NEW, &[Call::byte(1, code)]));
    }
}
