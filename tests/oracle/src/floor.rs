//! The floor: a plain C program of ours, floor.c, that does what Check and Resolve do, unproved. It is held to the library,
//! answer by answer and byte by byte, and the benchmark measures beside it.

use crate::library;

unsafe extern "C" {
    fn floor_check(pack: *const u8, pack_len: usize) -> u64;
    fn floor_resolve(pack: *const u8, pack_len: usize, out: *mut u8, out_len: usize) -> u64;
    fn cogunwa_check(pack: *const u8, pack_len: usize) -> u64;
    fn cogunwa_resolve(pack: *const u8, pack_len: usize, out: *mut u8, out_len: usize) -> u64;
}

type Check = unsafe extern "C" fn(*const u8, usize) -> u64;
type Resolve = unsafe extern "C" fn(*const u8, usize, *mut u8, usize) -> u64;

fn call_check(check: Check, bytes: &[u8]) -> u64 {
    // SAFETY: the pointer and the length are those of one slice.
    unsafe { check(bytes.as_ptr(), bytes.len()) }
}

fn call_resolve(resolve: Resolve, bytes: &[u8], out: &mut [u8]) -> u64 {
    // SAFETY: each pointer and length are those of one slice, and `out` is borrowed for writing.
    unsafe { resolve(bytes.as_ptr(), bytes.len(), out.as_mut_ptr(), out.len()) }
}

/// The number of words that the floor's Resolve writes, where it does not refuse.
pub fn resolve(bytes: &[u8], out: &mut [u8]) -> Option<usize> {
    let answer = call_resolve(floor_resolve, bytes, out);
    (answer & 0x3F == 0).then_some((answer >> 20) as u32 as usize)
}

fn resolve_differs(bytes: &[u8], length: usize) -> Option<String> {
    let mut ours = library::buffer(length);
    let mut floors = ours.clone();
    let answer = call_resolve(cogunwa_resolve, bytes, &mut ours);
    let floor = call_resolve(floor_resolve, bytes, &mut floors);
    if answer != floor {
        return Some(format!("floor: Resolve in {length} bytes {floor:#X}, library {answer:#X}"));
    }
    let first = (0..length).find(|&i| ours[i] != floors[i])?;
    Some(format!("floor: Resolve in {length} bytes, byte {first}"))
}

/// Where the floor says otherwise than the library, or leaves another byte in the output: with the room that the library's
/// own comparison has, with as much as the result needs, and with a byte less.
pub fn differs(bytes: &[u8], room: usize) -> Option<String> {
    let (answer, floor) = (call_check(cogunwa_check, bytes), call_check(floor_check, bytes));
    if answer != floor {
        return Some(format!("floor: Check {floor:#X}, library {answer:#X}"));
    }
    let mut lengths = vec![library::room_in_bytes(bytes, room)];
    if let Some(words) = resolve(bytes, &mut vec![0; cogunwa::MAX_BYTES]) {
        lengths.extend([4 * words, 4 * words - 1]);
    }
    lengths.into_iter().find_map(|length| resolve_differs(bytes, length))
}
