//! What the original leans on of a module that isn't in the text: two types that show their bytes.
//! The conversions from them are left behind by the port, so nothing here asks for them.
#![allow(dead_code)]

pub struct FHDR<'a>(&'a [u8]);

impl FHDR<'_> {
    pub fn data(&self) -> &[u8] {
        self.0
    }
}

pub struct FRMMacCommands<'a>(&'a [u8]);

impl FRMMacCommands<'_> {
    pub fn data(&self) -> &[u8] {
        self.0
    }
}
