//! The creators.
//!
//! Input: how it starts (0 `new`, 1 `default`), then at most four calls, each a setter's number, counted from 1 in the order of
//! the original's text, and its argument at the end of four bytes (a number high byte first, a mask or a frequency as its bytes stand).
//! Answer: each call's verdict; `cid` and `len`; the image that `build` gives; the same three as the creator's enum has them; then as a
//! record, the CID, the payload's length and the payload, of the creator and of the enum.

use crate::case::{Case, Judged, Original};
use crate::classes;
use crate::maccommandcreator::*;
use crate::maccommands::SerializableMacCommand;
use crate::table::COMMANDS;

pub const NEW: u8 = 0;
pub const DEFAULT: u8 = 1;
pub const MOST_CALLS: usize = 4;

#[derive(Clone, Copy, PartialEq)]
pub enum Argument {
    Nothing,
    Flag,
    Byte,
    Signed,
    Mask,
    Frequency,
    Seconds,
    Nanoseconds,
}

/// A setter's number and the four bytes of its argument.
#[derive(Clone, Copy)]
pub struct Call(pub u8, pub [u8; 4]);

impl Call {
    pub fn byte(setter: u8, argument: u8) -> Call {
        Call(setter, [0, 0, 0, argument])
    }

    pub fn number(setter: u8, argument: u32) -> Call {
        Call(setter, argument.to_be_bytes())
    }
}

pub fn script(start: u8, calls: &[Call]) -> Vec<u8> {
    let mut input = vec![start];
    for Call(setter, argument) in calls {
        input.push(*setter);
        input.extend(argument);
    }
    input
}

pub struct CreatorEntry {
    pub judge: fn(&[u8]) -> Judged,
    /// What each setter takes, in order.
    pub setters: &'static [Argument],
    /// The creator with this payload, where its setters can make it, as a record by itself and as its enum's.
    pub record: fn(u8, &[u8]) -> Option<Box<dyn SerializableMacCommand>>,
    pub typed_record: fn(u8, &[u8]) -> Option<Box<dyn SerializableMacCommand>>,
}

/// What the twenty creators have in common.
trait Creator: SerializableMacCommand + Default + 'static {
    type Typed: Typed;
    const SETTERS: &'static [Argument];
    fn fresh() -> Self;
    fn type_cid(&self) -> u8;
    fn image_len(&self) -> usize;
    fn image(&self) -> &[u8];
    /// Calls a setter; the verdict.
    fn set(&mut self, call: Call) -> Result<u8, String>;
    /// The calls that put a payload into place, where there are such.
    fn calls_for(payload: &[u8]) -> Vec<Call>;
    fn typed(self) -> Self::Typed;
}

/// What the two creator enums have in common.
trait Typed: SerializableMacCommand + 'static {
    fn len(&self) -> usize;
    fn build(&self) -> &[u8];
}

impl Typed for UplinkMacCommandCreator {
    fn len(&self) -> usize {
        UplinkMacCommandCreator::len(self)
    }

    fn build(&self) -> &[u8] {
        UplinkMacCommandCreator::build(self)
    }
}

impl Typed for DownlinkMacCommandCreator {
    fn len(&self) -> usize {
        DownlinkMacCommandCreator::len(self)
    }

    fn build(&self) -> &[u8] {
        DownlinkMacCommandCreator::build(self)
    }
}

/// The verdict on a setter's call, whether or not it can refuse.
trait Verdict {
    fn verdict(self) -> u8;
}

impl<C> Verdict for &mut C {
    fn verdict(self) -> u8 {
        0
    }
}

impl<C> Verdict for Result<&mut C, Error> {
    fn verdict(self) -> u8 {
        match self {
            Ok(_) => 0,
            Err(Error::InvalidDataRate) => 7,
            Err(Error::InvalidTxPower) => 8,
            Err(Error::MarginOutOfRange) => 9,
            Err(Error::DelayOutOfRange) => 10,
            Err(Error::MaxEirpOutOfRange) => 11,
            Err(Error::NanoSecondsOutOfRange) => 12,
            Err(Error::BufferTooShort) => 4,
        }
    }
}

macro_rules! creator {
    ($type:ident, $typed:ident::$name:ident, { $($number:literal => |$c:ident, $a:ident| $call:expr, $argument:ident;)* }, |$p:ident| $calls:expr) => {
        impl Creator for $type {
            type Typed = $typed;
            const SETTERS: &'static [Argument] = &[$(Argument::$argument),*];

            fn fresh() -> Self {
                $type::new()
            }

            fn type_cid(&self) -> u8 {
                $type::cid(self)
            }

            fn image_len(&self) -> usize {
                $type::len(self)
            }

            fn image(&self) -> &[u8] {
                $type::build(self)
            }

            fn set(&mut self, call: Call) -> Result<u8, String> {
                match call.0 {
                    $($number => {
                        let ($c, $a) = (self, call.1);
                        let _ = $a;
                        Ok($call.verdict())
                    })*
                    _ => Err("no such setter".to_string()),
                }
            }

            fn calls_for($p: &[u8]) -> Vec<Call> {
                $calls
            }

            fn typed(self) -> $typed {
                $typed::$name(self)
            }
        }
    };
}

fn flag(a: [u8; 4]) -> bool {
    a[3] != 0
}

fn bit(setter: u8, byte: u8, place: u8) -> Call {
    Call::byte(setter, byte >> place & 1)
}

fn frequency(setter: u8, p: &[u8]) -> Call {
    Call(setter, [0, p[0], p[1], p[2]])
}

creator!(LinkCheckAnsCreator, DownlinkMacCommandCreator::LinkCheckAns, {
    1 => |c, a| c.set_margin(a[3]), Byte;
    2 => |c, a| c.set_gateway_count(a[3]), Byte;
}, |p| vec![Call::byte(1, p[0]), Call::byte(2, p[1])]);

creator!(LinkCheckReqCreator, UplinkMacCommandCreator::LinkCheckReq, {}, |_p| vec![]);

creator!(LinkADRReqCreator, DownlinkMacCommandCreator::LinkADRReq, {
    1 => |c, a| c.set_data_rate(a[3]), Byte;
    2 => |c, a| c.set_tx_power(a[3]), Byte;
    3 => |c, a| c.set_channel_mask([a[2], a[3]]), Mask;
    4 => |c, a| c.set_redundancy(a[3]), Byte;
}, |p| vec![Call::byte(1, p[0] >> 4), Call::byte(2, p[0] & 15), Call(3, [0, 0, p[1], p[2]]), Call::byte(4, p[3])]);

creator!(LinkADRAnsCreator, UplinkMacCommandCreator::LinkADRAns, {
    1 => |c, a| c.set_channel_mask_ack(flag(a)), Flag;
    2 => |c, a| c.set_data_rate_ack(flag(a)), Flag;
    3 => |c, a| c.set_tx_power_ack(flag(a)), Flag;
}, |p| vec![bit(1, p[0], 0), bit(2, p[0], 1), bit(3, p[0], 2)]);

creator!(DutyCycleReqCreator, DownlinkMacCommandCreator::DutyCycleReq, {
    1 => |c, a| c.set_max_duty_cycle(a[3]), Byte;
}, |p| vec![Call::byte(1, p[0])]);

creator!(DutyCycleAnsCreator, UplinkMacCommandCreator::DutyCycleAns, {}, |_p| vec![]);

creator!(RXParamSetupReqCreator, DownlinkMacCommandCreator::RXParamSetupReq, {
    1 => |c, a| c.set_dl_settings(a[3]), Byte;
    2 => |c, a| c.set_frequency(&[a[1], a[2], a[3]]), Frequency;
}, |p| vec![Call::byte(1, p[0]), frequency(2, &p[1..])]);

creator!(RXParamSetupAnsCreator, UplinkMacCommandCreator::RXParamSetupAns, {
    1 => |c, a| c.set_channel_ack(flag(a)), Flag;
    2 => |c, a| c.set_rx2_data_rate_ack(flag(a)), Flag;
    3 => |c, a| c.set_rx1_data_rate_offset_ack(flag(a)), Flag;
}, |p| vec![bit(1, p[0], 0), bit(2, p[0], 1), bit(3, p[0], 2)]);

creator!(DevStatusReqCreator, DownlinkMacCommandCreator::DevStatusReq, {}, |_p| vec![]);

creator!(DevStatusAnsCreator, UplinkMacCommandCreator::DevStatusAns, {
    1 => |c, a| c.set_battery(a[3]), Byte;
    2 => |c, a| c.set_margin(a[3] as i8), Signed;
}, |p| vec![Call::byte(1, p[0]), Call::byte(2, ((p[1] << 2) as i8 >> 2) as u8)]);

creator!(NewChannelReqCreator, DownlinkMacCommandCreator::NewChannelReq, {
    1 => |c, a| c.set_channel_index(a[3]), Byte;
    2 => |c, a| c.set_frequency(&[a[1], a[2], a[3]]), Frequency;
    3 => |c, a| c.set_data_rate_range(a[3]), Byte;
}, |p| vec![Call::byte(1, p[0]), frequency(2, &p[1..]), Call::byte(3, p[4])]);

creator!(NewChannelAnsCreator, UplinkMacCommandCreator::NewChannelAns, {
    1 => |c, a| c.set_channel_frequency_ack(flag(a)), Flag;
    2 => |c, a| c.set_data_rate_range_ack(flag(a)), Flag;
}, |p| vec![bit(1, p[0], 0), bit(2, p[0], 1)]);

creator!(RXTimingSetupReqCreator, DownlinkMacCommandCreator::RXTimingSetupReq, {
    1 => |c, a| c.set_delay(a[3]), Byte;
}, |p| vec![Call::byte(1, p[0])]);

creator!(RXTimingSetupAnsCreator, UplinkMacCommandCreator::RXTimingSetupAns, {}, |_p| vec![]);

creator!(TXParamSetupReqCreator, DownlinkMacCommandCreator::TXParamSetupReq, {
    1 => |c, a| c.set_downlink_dwell_time(), Nothing;
    2 => |c, a| c.set_uplink_dwell_time(), Nothing;
    3 => |c, a| c.set_max_eirp(a[3]), Byte;
}, |p| {
    // The dwell setters clear bit 0, so the power is set after them.
    let dwell = [(1, 5), (2, 4)].into_iter().filter(|(_, place)| p[0] >> place & 1 == 1);
    dwell.map(|(setter, _)| Call::byte(setter, 0)).chain([Call::byte(3, p[0] & 15)]).collect()
});

creator!(TXParamSetupAnsCreator, UplinkMacCommandCreator::TXParamSetupAns, {}, |_p| vec![]);

creator!(DlChannelReqCreator, DownlinkMacCommandCreator::DlChannelReq, {
    1 => |c, a| c.set_channel_index(a[3]), Byte;
    2 => |c, a| c.set_frequency(&[a[1], a[2], a[3]]), Frequency;
}, |p| vec![Call::byte(1, p[0]), frequency(2, &p[1..])]);

creator!(DlChannelAnsCreator, UplinkMacCommandCreator::DlChannelAns, {
    1 => |c, a| c.set_channel_frequency_ack(flag(a)), Flag;
    2 => |c, a| c.set_uplink_frequency_exists_ack(flag(a)), Flag;
}, |p| vec![bit(1, p[0], 0), bit(2, p[0], 1)]);

creator!(DeviceTimeAnsCreator, DownlinkMacCommandCreator::DeviceTimeAns, {
    1 => |c, a| c.set_seconds(u32::from_be_bytes(a)), Seconds;
    2 => |c, a| c.set_nano_seconds(u32::from_be_bytes(a)), Nanoseconds;
}, |p| vec![Call(1, [p[3], p[2], p[1], p[0]]), Call::number(2, u32::from(p[4]) * 3_906_250)]);

creator!(DeviceTimeReqCreator, UplinkMacCommandCreator::DeviceTimeReq, {}, |_p| vec![]);

fn start<C: Creator>(how: u8) -> C {
    if how == NEW {
        C::fresh()
    } else {
        C::default()
    }
}

/// Runs the input's calls; the creator, and the verdicts.
fn run<C: Creator>(input: &[u8]) -> Result<(C, Vec<u8>), String> {
    let mut creator: C = start(input[0]);
    let mut verdicts = Vec::new();
    for call in input[1..].chunks(5) {
        let argument = call[1..].try_into().map_err(|_| "a call cut short")?;
        verdicts.push(creator.set(Call(call[0], argument))?);
    }
    Ok((creator, verdicts))
}

pub fn as_record(record: &dyn SerializableMacCommand) -> Vec<u8> {
    [&[record.cid(), record.payload_len() as u8], record.payload_bytes()].concat()
}

fn judge<C: Creator>(input: &[u8]) -> Judged {
    let (creator, mut front) = run::<C>(input)?;
    front.extend([creator.type_cid(), creator.image_len() as u8]);
    front.extend(creator.image());
    let own = as_record(&creator);
    let first = creator.image()[0];
    let typed = creator.typed();
    front.extend([typed.cid(), typed.len() as u8]);
    front.extend(typed.build());
    front.extend(own);
    let enums = as_record(&typed);
    let said = [&front[..], &enums].concat();
    if enums[0] == first {
        return Case::agreed(said);
    }
    if input[0] != DEFAULT {
        return Err("the type's CID is not the image's, and the creator is no default".to_string());
    }
    let mut answer = said.clone();
    answer[front.len()] = first;
    Ok(Case { answer, original: Original::Said(classes::TYPED_RECORD, said) })
}

/// The creator with this payload, where its setters can make it.
fn made<C: Creator>(how: u8, payload: &[u8]) -> Option<C> {
    let mut creator: C = start(how);
    for call in C::calls_for(payload) {
        creator.set(call).ok()?;
    }
    (&creator.image()[1..] == payload).then_some(creator)
}

fn record<C: Creator>(how: u8, payload: &[u8]) -> Option<Box<dyn SerializableMacCommand>> {
    Some(Box::new(made::<C>(how, payload)?))
}

fn typed_record<C: Creator>(how: u8, payload: &[u8]) -> Option<Box<dyn SerializableMacCommand>> {
    Some(Box::new(made::<C>(how, payload)?.typed()))
}

const fn entry<C: Creator>() -> CreatorEntry {
    CreatorEntry {
        judge: judge::<C>,
        setters: C::SETTERS,
        record: record::<C>,
        typed_record: typed_record::<C>,
    }
}

/// By the commands' places in the table.
pub const ALL: [CreatorEntry; COMMANDS] = [
    entry::<LinkCheckAnsCreator>(),
    entry::<LinkCheckReqCreator>(),
    entry::<LinkADRReqCreator>(),
    entry::<LinkADRAnsCreator>(),
    entry::<DutyCycleReqCreator>(),
    entry::<DutyCycleAnsCreator>(),
    entry::<RXParamSetupReqCreator>(),
    entry::<RXParamSetupAnsCreator>(),
    entry::<DevStatusReqCreator>(),
    entry::<DevStatusAnsCreator>(),
    entry::<NewChannelReqCreator>(),
    entry::<NewChannelAnsCreator>(),
    entry::<RXTimingSetupReqCreator>(),
    entry::<RXTimingSetupAnsCreator>(),
    entry::<TXParamSetupReqCreator>(),
    entry::<TXParamSetupAnsCreator>(),
    entry::<DlChannelReqCreator>(),
    entry::<DlChannelAnsCreator>(),
    entry::<DeviceTimeAnsCreator>(),
    entry::<DeviceTimeReqCreator>(),
];
