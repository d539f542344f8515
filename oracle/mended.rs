//! Where docs/RULES.md follows the standard and not the original: the standard's value, and a test that the original's is the one which its class
//! lists.

use crate::table::{self, Command, Direction};

/// A command says that it is sent up where the table has it so (T2, T3). Of DevStatusAns alone the original says that it is not.
pub fn uplink(command: Command, said: bool) -> Result<bool, String> {
    let up = table::direction(command) == Direction::Up;
    let name = table::name(command);
    if said == (up && name != "DevStatusAns") {
        Ok(up)
    } else {
        Err(format!("a flag of {name} that no class lists"))
    }
}

/// The seconds of DeviceTimeAns have their low byte first (Y9). The original takes the high byte first.
pub fn seconds(bytes: [u8; 4], said: u32) -> Result<u32, String> {
    if said == u32::from_be_bytes(bytes) {
        Ok(u32::from_le_bytes(bytes))
    } else {
        Err("seconds that are not their bytes, high byte first".to_string())
    }
}

/// The delay of RXTimingSetupReq is in seconds, of which code 0 means one (Y7). The original says the code, which is the low nibble.
pub fn delay(byte: u8, said: u8) -> Result<u8, String> {
    if said == byte & 0x0F {
        Ok(if said == 0 { 1 } else { said })
    } else {
        Err("a delay that is not the low nibble".to_string())
    }
}
