//! The listing of a stream that a device is sent in a frame, in Rust: as a program would write it, and by hand. Each answers the text's length.

use crate::original::listing::maccommands::{parse_downlink_mac_commands, DownlinkMacCommand, SerializableMacCommand};
use std::io::{Result, Write};

/// Over the original's iterator, with `write!`.
#[inline(never)]
pub fn plain(frame: u32, stream: &[u8], text: &mut Vec<u8>) -> u64 {
    text.clear();
    write_plain(frame, stream, text).expect("there is room");
    text.len() as u64
}

fn write_plain(frame: u32, stream: &[u8], text: &mut Vec<u8>) -> Result<()> {
    let mut at = 0;
    for command in parse_downlink_mac_commands(stream) {
        write!(text, "{frame}\t{at}\tD\t{:02X}\t{}\t", command.cid(), name(&command))?;
        if command.len() == 0 {
            write!(text, "-")?;
        }
        for byte in command.bytes() {
            write!(text, "{byte:02X}")?;
        }
        if let DownlinkMacCommand::LinkADRReq(payload) = &command {
            let mask = payload.channel_mask();
            write!(text, "\t{}", mask.get_index(0).count_ones() + mask.get_index(1).count_ones())?;
        }
        writeln!(text)?;
        at += 1 + command.len();
    }
    match stream.get(at) {
        None => writeln!(text, "{frame}\t{at}\tend"),
        Some(0x02..=0x0A | 0x0D) => writeln!(text, "{frame}\t{at}\tstop\t2"),
        Some(_) => writeln!(text, "{frame}\t{at}\tstop\t1"),
    }
}

fn name(command: &DownlinkMacCommand) -> &'static str {
    match command {
        DownlinkMacCommand::LinkCheckAns(_) => "LinkCheckAns",
        DownlinkMacCommand::LinkADRReq(_) => "LinkADRReq",
        DownlinkMacCommand::DutyCycleReq(_) => "DutyCycleReq",
        DownlinkMacCommand::RXParamSetupReq(_) => "RXParamSetupReq",
        DownlinkMacCommand::DevStatusReq(_) => "DevStatusReq",
        DownlinkMacCommand::NewChannelReq(_) => "NewChannelReq",
        DownlinkMacCommand::RXTimingSetupReq(_) => "RXTimingSetupReq",
        DownlinkMacCommand::TXParamSetupReq(_) => "TXParamSetupReq",
        DownlinkMacCommand::DlChannelReq(_) => "DlChannelReq",
        DownlinkMacCommand::DeviceTimeAns(_) => "DeviceTimeAns",
    }
}

/// By CID: what stands between the offset and the payload, and the bytes of the payload. Nothing stands there for a byte that is no CID.
const DOWN: [(&[u8], usize); 14] = [
    (b"", 0),
    (b"", 0),
    (b"\tD\t02\tLinkCheckAns\t", 2),
    (b"\tD\t03\tLinkADRReq\t", 4),
    (b"\tD\t04\tDutyCycleReq\t", 1),
    (b"\tD\t05\tRXParamSetupReq\t", 4),
    (b"\tD\t06\tDevStatusReq\t", 0),
    (b"\tD\t07\tNewChannelReq\t", 5),
    (b"\tD\t08\tRXTimingSetupReq\t", 1),
    (b"\tD\t09\tTXParamSetupReq\t", 1),
    (b"\tD\t0A\tDlChannelReq\t", 4),
    (b"", 0),
    (b"", 0),
    (b"\tD\t0D\tDeviceTimeAns\t", 5),
];

/// The two digits of each byte.
const HEX: [[u8; 2]; 256] = {
    let digits = b"0123456789ABCDEF";
    let mut pairs = [[0; 2]; 256];
    let mut byte = 0;
    while byte < 256 {
        pairs[byte] = [digits[byte / 16], digits[byte % 16]];
        byte += 1;
    }
    pairs
};

/// By hand: tables and digits, into memory that has room for the text. Some bytes behind it may change.
#[inline(never)]
pub fn by_hand(frame: u32, stream: &[u8], out: &mut [u8]) -> u64 {
    // The frame's digits and a tab. All that is behind them is copied as well, so that no length is guessed.
    let mut stamp = [b'\t'; 16];
    let stamped = decimal(frame as usize, &mut stamp, 0) + 1;
    let begun = |at, out: &mut [u8], end| {
        out[end..end + 16].copy_from_slice(&stamp);
        decimal(at, out, end + stamped)
    };
    let (mut at, mut end) = (0, 0);
    let ending: &[u8] = loop {
        let Some(&cid) = stream.get(at) else { break b"\tend\n" };
        let Some(&(middle, len)) = DOWN.get(cid as usize).filter(|(middle, _)| !middle.is_empty()) else { break b"\tstop\t1\n" };
        let Some(payload) = stream.get(at + 1..at + 1 + len) else { break b"\tstop\t2\n" };
        end = begun(at, out, end);
        out[end..end + middle.len()].copy_from_slice(middle);
        end += middle.len();
        // Five bytes, whatever the length, where the stream has them: so no length is guessed.
        let bytes = stream.get(at + 1..at + 6).unwrap_or(payload);
        for (&byte, pair) in bytes.iter().zip(out[end..].chunks_exact_mut(2)) {
            pair.copy_from_slice(&HEX[byte as usize]);
        }
        end += 2 * len;
        if len == 0 {
            out[end] = b'-';
            end += 1;
        }
        if cid == 0x03 {
            out[end] = b'\t';
            end = decimal((payload[1].count_ones() + payload[2].count_ones()) as usize, out, end + 1);
        }
        out[end] = b'\n';
        end += 1;
        at += 1 + len;
    };
    end = begun(at, out, end);
    out[end..end + ending.len()].copy_from_slice(ending);
    (end + ending.len()) as u64
}

/// Writes a number in decimal behind so many bytes, and answers where it ends.
fn decimal(n: usize, out: &mut [u8], start: usize) -> usize {
    let (mut end, mut power) = (start + 1, 10);
    while power <= n {
        power *= 10;
        end += 1;
    }
    let mut rest = n;
    for digit in out[start..end].iter_mut().rev() {
        *digit = b'0' + (rest % 10) as u8;
        rest /= 10;
    }
    end
}
