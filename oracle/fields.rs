//! The small fields.

use crate::case::{caught, four, Case, Judged, Original};
use crate::classes;
use crate::maccommandcreator::{DlChannelReqCreator, NewChannelReqCreator, RXParamSetupReqCreator};
use crate::maccommands::{DLSettings, DataRateRange, Error, Frequency, Redundancy};

/// Input: the byte. Answer: offset, RX2 rate and raw value, by `new` and then by `from`.
pub fn dl_settings(input: &[u8]) -> Judged {
    let read = |s: DLSettings| [s.rx1_dr_offset(), s.rx2_data_rate(), s.raw_value()];
    Case::agreed([read(DLSettings::new(input[0])), read(DLSettings::from(input[0]))].concat())
}

/// Input: the byte. Answer: mask control, transmissions and raw value, by `new` and then by `from`.
pub fn redundancy(input: &[u8]) -> Judged {
    let read = |r: Redundancy| [r.channel_mask_control(), r.number_of_transmissions(), r.raw_value()];
    Case::agreed([read(Redundancy::new(input[0])), read(Redundancy::from(input[0]))].concat())
}

fn range_verdict<T>(r: &Result<T, Error>) -> Result<u8, String> {
    match r {
        Ok(_) => Ok(0),
        Err(Error::InvalidDataRateRange) => Ok(6),
        Err(_) => Err("another error than InvalidDataRateRange".to_string()),
    }
}

/// Input: the byte. Answer: maximum, minimum and raw value, by `new_from_raw` and then by `from`; the verdict of
/// `can_build_from`; the verdict of `new` and, where it is accepted, the three values.
pub fn data_rate_range(input: &[u8]) -> Judged {
    let read = |r: &DataRateRange| [r.max_data_rate(), r.min_data_rate(), r.raw_value()];
    let byte = input[0];
    let mut answer = [read(&DataRateRange::new_from_raw(byte)), read(&DataRateRange::from(byte))].concat();
    answer.push(range_verdict(&DataRateRange::can_build_from(byte))?);
    let made = DataRateRange::new(byte);
    answer.push(range_verdict(&made)?);
    if let Ok(range) = made {
        answer.extend(read(&range));
    }
    Case::agreed(answer)
}

/// The bytes of a frequency, and its value in Hz.
pub fn read_frequency(answer: &mut Vec<u8>, f: &Frequency) {
    answer.extend(f.as_ref());
    answer.extend(four(f.value() as usize));
}

/// Input: the bytes. Answer: the verdict of `new`, where None is refusal 3; where it is accepted, the frequency, and again as
/// `from` an array makes it.
pub fn frequency(input: &[u8]) -> Judged {
    let f = match Frequency::new(input) {
        Some(f) => f,
        None => return Case::agreed(vec![3]),
    };
    let mut answer = vec![0];
    read_frequency(&mut answer, &f);
    let array: &[u8; 3] = input.try_into().map_err(|_| "a frequency not of three bytes")?;
    read_frequency(&mut answer, &Frequency::from(array));
    Case::agreed(answer)
}

/// The unchecked constructor on another length than three. What it makes, no creator takes.
pub fn raw_frequency(input: &[u8]) -> Judged {
    let raw = || Frequency::new_from_raw(input);
    let taken = [
        caught(|| RXParamSetupReqCreator::new().set_frequency(raw()).len()),
        caught(|| NewChannelReqCreator::new().set_frequency(raw()).len()),
        caught(|| DlChannelReqCreator::new().set_frequency(raw()).len()),
    ];
    if taken.iter().any(Option::is_some) {
        return Err("set_frequency takes a frequency not of three bytes".to_string());
    }
    let said = caught(|| {
        let mut said = Vec::new();
        read_frequency(&mut said, &raw());
        said
    });
    let original = match said {
        None if input.len() < 3 => Original::Panicked(classes::RAW_FREQUENCY),
        Some(said) if input.len() > 3 => Original::Said(classes::RAW_FREQUENCY, said),
        _ => return Err("Frequency::new_from_raw panics other than on fewer than three bytes".to_string()),
    };
    Ok(Case { answer: vec![3], original })
}
