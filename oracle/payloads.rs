//! The payload types.
//!
//! Input: the bytes. Answer: `cid`, `uplink` and `len` of the type; the verdict of `new`; and where it is accepted `bytes`, what
//! `from` an array gives where the type has it, and each reader in the order of the original's text.

use crate::case::{caught, four, Case, Judged, Original};
use crate::classes;
use crate::fields::read_frequency;
use crate::maccommands::*;
use crate::mended;
use crate::table::{self, Command, COMMANDS};

type Judge = fn(&[u8]) -> Judged;

/// Which command a type says that it is, and its flag as the port has it.
fn heading(cid: u8, uplink: bool, len: usize) -> Result<(Command, u8), String> {
    let command = table::find(cid, len).ok_or("a type that is no command of the table")?;
    Ok((command, u8::from(mended::uplink(command, uplink)?)))
}

/// The original's answer beside the port's, which has another flag for DevStatusAns, other seconds for DeviceTimeAns, and another delay for
/// RXTimingSetupReq.
fn judged(said: Vec<u8>) -> Judged {
    let (command, flag) = heading(said[0], said[1] != 0, usize::from(said[2]))?;
    let mut answer = said.clone();
    answer[1] = flag;
    // Behind a verdict that accepts stand the payload's bytes, and then what the readers say.
    let class = match (table::name(command), &mut answer[..]) {
        ("DeviceTimeAns", [_, _, _, 0, a, b, c, d, _, seconds @ ..]) => {
            let read = u32::from_be_bytes([seconds[0], seconds[1], seconds[2], seconds[3]]);
            seconds[..4].copy_from_slice(&four(mended::seconds([*a, *b, *c, *d], read)? as usize));
            classes::HIGH_FIRST
        }
        ("RXTimingSetupReq", [_, _, _, 0, byte, delay]) => {
            *delay = mended::delay(*byte, *delay)?;
            classes::ZERO_DELAY
        }
        _ => classes::FLAG_DOWN,
    };
    Case::beside(answer, said, class)
}

/// A payload type with bytes: `new`, and `new_from_raw` on another length.
macro_rules! sized {
    ($checked:ident, $raw:ident, $type:ident, |$input:ident, $p:ident, $answer:ident| $readers:block) => {
        fn $checked($input: &[u8]) -> Judged {
            let mut $answer = vec![$type::cid(), u8::from($type::uplink()), $type::len() as u8];
            match $type::new($input) {
                Err(Error::BufferTooShort) => $answer.push(3),
                Err(_) => return Err("another error than BufferTooShort".to_string()),
                Ok($p) => {
                    $answer.push(0);
                    $answer.extend($p.bytes());
                    $readers
                }
            }
            judged($answer)
        }

        fn $raw($input: &[u8]) -> Judged {
            let said = caught(|| {
                let $p = $type::new_from_raw($input);
                let mut $answer = $p.bytes().to_vec();
                $readers
                $answer
            });
            let original = match said {
                None if $input.len() < $type::len() => Original::Panicked(classes::RAW_PAYLOAD),
                Some(said) if $input.len() > $type::len() => Original::Said(classes::RAW_PAYLOAD, said),
                _ => return Err("reading every field panics other than on fewer bytes than the type's length".to_string()),
            };
            let (_, flag) = heading($type::cid(), $type::uplink(), $type::len())?;
            Ok(Case { answer: vec![$type::cid(), flag, $type::len() as u8, 3], original })
        }
    };
}

/// A payload type with no bytes: both constructors take any slice.
macro_rules! empty {
    ($checked:ident, $type:ident) => {
        fn $checked(input: &[u8]) -> Judged {
            let mut answer = vec![$type::cid(), u8::from($type::uplink()), $type::len() as u8, 0];
            answer.extend($type::new(input).bytes());
            if !$type::new_from_raw(input).bytes().is_empty() {
                return Err("new_from_raw shows bytes of an empty payload".to_string());
            }
            judged(answer)
        }
    };
}

fn flags(answer: &mut Vec<u8>, flags: &[bool]) {
    answer.extend(flags.iter().map(|b| u8::from(*b)));
}

sized!(link_check_ans, raw_link_check_ans, LinkCheckAnsPayload, |input, p, answer| {
    if let Ok(array) = <&[u8; 2]>::try_from(input) {
        answer.extend(LinkCheckAnsPayload::from(array).bytes());
    }
    answer.extend([p.margin(), p.gateway_count()]);
});
sized!(link_adr_req, raw_link_adr_req, LinkADRReqPayload, |input, p, answer| {
    if let Ok(array) = <&[u8; 4]>::try_from(input) {
        answer.extend(LinkADRReqPayload::from(array).bytes());
    }
    answer.extend([p.data_rate(), p.tx_power()]);
    answer.extend(p.channel_mask().as_ref());
    answer.push(p.redundancy().raw_value());
});
sized!(link_adr_ans, raw_link_adr_ans, LinkADRAnsPayload, |_input, p, answer| {
    flags(&mut answer, &[p.channel_mask_ack(), p.data_rate_ack(), p.powert_ack(), p.ack()]);
});
sized!(duty_cycle_req, raw_duty_cycle_req, DutyCycleReqPayload, |_input, p, answer| {
    answer.push(p.max_duty_cycle_raw());
    answer.extend(four(p.max_duty_cycle().to_bits() as usize));
});
sized!(rx_param_setup_req, raw_rx_param_setup_req, RXParamSetupReqPayload, |_input, p, answer| {
    answer.push(p.dl_settings().raw_value());
    read_frequency(&mut answer, &p.frequency());
});
sized!(rx_param_setup_ans, raw_rx_param_setup_ans, RXParamSetupAnsPayload, |_input, p, answer| {
    flags(&mut answer, &[p.channel_ack(), p.rx2_data_rate_ack(), p.rx1_dr_offset_ack(), p.ack()]);
});
sized!(dev_status_ans, raw_dev_status_ans, DevStatusAnsPayload, |_input, p, answer| {
    answer.extend([p.battery(), p.margin() as u8]);
});
sized!(new_channel_req, raw_new_channel_req, NewChannelReqPayload, |_input, p, answer| {
    answer.push(p.channel_index());
    read_frequency(&mut answer, &p.frequency());
    answer.push(p.data_rate_range().raw_value());
});
sized!(new_channel_ans, raw_new_channel_ans, NewChannelAnsPayload, |_input, p, answer| {
    flags(&mut answer, &[p.channel_freq_ack(), p.data_rate_range_ack(), p.ack()]);
});
sized!(rx_timing_setup_req, raw_rx_timing_setup_req, RXTimingSetupReqPayload, |_input, p, answer| {
    answer.push(p.delay());
});
sized!(tx_param_setup_req, raw_tx_param_setup_req, TXParamSetupReqPayload, |_input, p, answer| {
    flags(&mut answer, &[p.downlink_dwell_time(), p.uplink_dwell_time()]);
    answer.push(p.max_eirp());
});
sized!(dl_channel_req, raw_dl_channel_req, DlChannelReqPayload, |_input, p, answer| {
    answer.push(p.channel_index());
    read_frequency(&mut answer, &p.frequency());
});
sized!(dl_channel_ans, raw_dl_channel_ans, DlChannelAnsPayload, |_input, p, answer| {
    flags(&mut answer, &[p.channel_freq_ack(), p.uplink_freq_ack(), p.ack()]);
});
sized!(device_time_ans, raw_device_time_ans, DeviceTimeAnsPayload, |_input, p, answer| {
    answer.extend(four(p.seconds() as usize));
    answer.extend(four(p.nano_seconds() as usize));
});
empty!(link_check_req, LinkCheckReqPayload);
empty!(duty_cycle_ans, DutyCycleAnsPayload);
empty!(dev_status_req, DevStatusReqPayload);
empty!(rx_timing_setup_ans, RXTimingSetupAnsPayload);
empty!(tx_param_setup_ans, TXParamSetupAnsPayload);
empty!(device_time_req, DeviceTimeReqPayload);

/// By the commands' places in the table.
pub const CHECKED: [Judge; COMMANDS] = [
    link_check_ans,
    link_check_req,
    link_adr_req,
    link_adr_ans,
    duty_cycle_req,
    duty_cycle_ans,
    rx_param_setup_req,
    rx_param_setup_ans,
    dev_status_req,
    dev_status_ans,
    new_channel_req,
    new_channel_ans,
    rx_timing_setup_req,
    rx_timing_setup_ans,
    tx_param_setup_req,
    tx_param_setup_ans,
    dl_channel_req,
    dl_channel_ans,
    device_time_ans,
    device_time_req,
];

pub const RAW: [Option<Judge>; COMMANDS] = [
    Some(raw_link_check_ans),
    None,
    Some(raw_link_adr_req),
    Some(raw_link_adr_ans),
    Some(raw_duty_cycle_req),
    None,
    Some(raw_rx_param_setup_req),
    Some(raw_rx_param_setup_ans),
    None,
    Some(raw_dev_status_ans),
    Some(raw_new_channel_req),
    Some(raw_new_channel_ans),
    Some(raw_rx_timing_setup_req),
    None,
    Some(raw_tx_param_setup_req),
    None,
    Some(raw_dl_channel_req),
    Some(raw_dl_channel_ans),
    Some(raw_device_time_ans),
    None,
];
