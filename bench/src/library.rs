//! The calls of the static library over `sms` (library/lib.rt.in). A slice crosses as a pointer and a length.

/// How many octets an answer has at most.
const ROOM: usize = 1 << 16;

unsafe extern "C" {
    fn sms_nothing(octets: *const u8, count: usize, out: *mut u8, room: usize) -> usize;
    fn sms_pack(septets: *const u8, count: usize, out: *mut u8, room: usize) -> usize;
    fn sms_unpack(
        octets: *const u8,
        length: usize,
        count: usize,
        out: *mut u8,
        room: usize,
    ) -> usize;
    fn sms_text(septets: *const u8, count: usize, out: *mut u8, room: usize) -> usize;
    fn sms_septets(text: *const u8, length: usize, out: *mut u8, room: usize) -> usize;
    fn sms_deliver(unit: *const u8, length: usize, out: *mut u8, room: usize) -> usize;
    fn sms_see(unit: *const u8, length: usize, out: *mut u8, room: usize) -> usize;
    fn sms_glance(unit: *const u8, length: usize, out: *mut u8, room: usize) -> usize;
    fn sms_parse(unit: *const u8, length: usize, out: *mut u8, room: usize) -> usize;
    fn sms_submit(
        to: *const u8,
        to_length: usize,
        text: *const u8,
        length: usize,
        out: *mut u8,
        room: usize,
    ) -> usize;
    fn sms_split(text: *const u8, length: usize, index: usize, out: *mut u8, room: usize) -> usize;
    fn sms_cut(text: *const u8, length: usize, out: *mut u8, room: usize) -> usize;
    fn sms_join(units: *const u8, length: usize, size: usize, out: *mut u8, room: usize) -> usize;
}

pub fn nothing(octets: &[u8], out: &mut [u8]) -> usize {
    unsafe { sms_nothing(octets.as_ptr(), octets.len(), out.as_mut_ptr(), out.len()) }
}

pub fn pack(septets: &[u8], out: &mut [u8]) -> usize {
    unsafe { sms_pack(septets.as_ptr(), septets.len(), out.as_mut_ptr(), out.len()) }
}

pub fn unpack(octets: &[u8], count: usize, out: &mut [u8]) -> usize {
    unsafe {
        sms_unpack(
            octets.as_ptr(),
            octets.len(),
            count,
            out.as_mut_ptr(),
            out.len(),
        )
    }
}

pub fn text_of(septets: &[u8], out: &mut [u8]) -> usize {
    unsafe { sms_text(septets.as_ptr(), septets.len(), out.as_mut_ptr(), out.len()) }
}

pub fn septets_of(text: &[u8], out: &mut [u8]) -> usize {
    unsafe { sms_septets(text.as_ptr(), text.len(), out.as_mut_ptr(), out.len()) }
}

pub fn deliver(unit: &[u8], out: &mut [u8]) -> usize {
    unsafe { sms_deliver(unit.as_ptr(), unit.len(), out.as_mut_ptr(), out.len()) }
}

pub fn see(unit: &[u8], out: &mut [u8]) -> usize {
    unsafe { sms_see(unit.as_ptr(), unit.len(), out.as_mut_ptr(), out.len()) }
}

pub fn glance(unit: &[u8], out: &mut [u8]) -> usize {
    unsafe { sms_glance(unit.as_ptr(), unit.len(), out.as_mut_ptr(), out.len()) }
}

pub fn parse(unit: &[u8], out: &mut [u8]) -> usize {
    unsafe { sms_parse(unit.as_ptr(), unit.len(), out.as_mut_ptr(), out.len()) }
}

pub fn submit(to: &str, text: &[u8], out: &mut [u8]) -> usize {
    unsafe {
        sms_submit(
            to.as_ptr(),
            to.len(),
            text.as_ptr(),
            text.len(),
            out.as_mut_ptr(),
            out.len(),
        )
    }
}

/// The user data of the segment at `index`, or with no such segment their number.
pub fn split(text: &[u8], index: usize, out: &mut [u8]) -> usize {
    unsafe {
        sms_split(
            text.as_ptr(),
            text.len(),
            index,
            out.as_mut_ptr(),
            out.len(),
        )
    }
}

pub fn cut(text: &[u8], out: &mut [u8]) -> usize {
    unsafe { sms_cut(text.as_ptr(), text.len(), out.as_mut_ptr(), out.len()) }
}

pub fn join(units: &[u8], size: usize, out: &mut [u8]) -> usize {
    unsafe {
        sms_join(
            units.as_ptr(),
            units.len(),
            size,
            out.as_mut_ptr(),
            out.len(),
        )
    }
}

/// What a call hands out.
pub fn answer(call: impl Fn(&mut [u8]) -> usize) -> Vec<u8> {
    let mut answer = vec![0; ROOM];
    let length = call(&mut answer);
    answer.truncate(length);
    answer
}
