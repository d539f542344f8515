//! The port: the crates `exports`, `timed_reads` and `timed_builds`, linked as archives. A slice crosses as its pointer and its length.

use crate::inputs::Wish;
use crate::original::building::maccommands::SerializableMacCommand;

extern "C" {
    fn nazhdivar_count(stream: *const u8, len: usize) -> usize;
    fn nazhdivar_build(records: *const u8, len: usize, out: *mut u8, room: usize) -> u64;
    fn nazhdivar_listing(frame: u32, stream: *const u8, len: usize, out: *mut u8, room: usize) -> u64;

    fn nazhdivar_nth(stream: *const u8, len: usize, n: usize) -> u64;
    fn nazhdivar_fields(stream: *const u8, len: usize) -> u64;
    fn nazhdivar_set(wishes: *const u8, len: usize, slots: *mut u8, most: usize, out: *mut u8, room: usize) -> u64;
    fn nazhdivar_set_four(wishes: *const u8, len: usize, out: *mut u8, room: usize) -> u64;
    fn nazhdivar_resend(stream: *const u8, len: usize, slots: *mut u8, most: usize, out: *mut u8, room: usize) -> u64;
}

#[inline(never)]
pub fn count(stream: &[u8], _: usize) -> u64 {
    unsafe { nazhdivar_count(stream.as_ptr(), stream.len()) as u64 }
}

#[inline(never)]
pub fn nth(stream: &[u8], n: usize) -> u64 {
    unsafe { nazhdivar_nth(stream.as_ptr(), stream.len(), n) }
}

#[inline(never)]
pub fn fields(stream: &[u8], _: usize) -> u64 {
    unsafe { nazhdivar_fields(stream.as_ptr(), stream.len()) }
}

#[inline(never)]
pub fn build(records: &[u8], out: &mut [u8]) -> u64 {
    unsafe { nazhdivar_build(records.as_ptr(), records.len(), out.as_mut_ptr(), out.len()) }
}

/// The length of a stream's listing in a frame, which is written; or 4 where it has no room.
#[inline(never)]
pub fn listing(frame: u32, stream: &[u8], out: &mut [u8]) -> u64 {
    unsafe { nazhdivar_listing(frame, stream.as_ptr(), stream.len(), out.as_mut_ptr(), out.len()) }
}

/// What a host in Rust does with the Rust's own objects: it packs each into a slot, CID, length and payload, and hands the slots over.
#[inline(never)]
pub fn hosted(objects: &[&dyn SerializableMacCommand], slots: &mut [u8], out: &mut [u8]) -> u64 {
    pack(objects, slots);
    build(slots, out)
}

pub fn pack(objects: &[&dyn SerializableMacCommand], slots: &mut [u8]) {
    for (object, slot) in objects.iter().zip(slots.chunks_exact_mut(8)) {
        let payload = object.payload_bytes();
        slot[0] = object.cid();
        slot[1] = payload.len() as u8;
        slot[2..2 + payload.len()].copy_from_slice(payload);
    }
}

/// Records are packed into slots, which are scratch.
#[inline(never)]
pub fn set(wishes: &[Wish], slots: &mut [u8], out: &mut [u8]) -> u64 {
    let bytes = wishes.as_flattened();
    unsafe { nazhdivar_set(bytes.as_ptr(), bytes.len(), slots.as_mut_ptr(), slots.len(), out.as_mut_ptr(), out.len()) }
}

/// Four records are lent as structs.
#[inline(never)]
pub fn set_four(wishes: &[Wish], _: &mut [u8], out: &mut [u8]) -> u64 {
    let bytes = wishes.as_flattened();
    unsafe { nazhdivar_set_four(bytes.as_ptr(), bytes.len(), out.as_mut_ptr(), out.len()) }
}

/// Records are packed into slots, which are scratch.
#[inline(never)]
pub fn resend(stream: &[u8], slots: &mut [u8], out: &mut [u8]) -> u64 {
    unsafe { nazhdivar_resend(stream.as_ptr(), stream.len(), slots.as_mut_ptr(), slots.len(), out.as_mut_ptr(), out.len()) }
}
