//! oFono's tasks (ofono/ofono.c).
use crate::timing::Side;
use std::ffi::{CString, c_char};
use std::hint::black_box;

unsafe extern "C" {
    fn ofono_pack(septets: *const u8, count: usize, out: *mut u8, room: usize) -> usize;
    fn ofono_unpack(
        octets: *const u8,
        length: usize,
        count: usize,
        out: *mut u8,
        room: usize,
    ) -> usize;
    fn ofono_text(septets: *const u8, count: usize, out: *mut u8, room: usize) -> usize;
    fn ofono_septets(text: *const c_char, out: *mut u8, room: usize) -> usize;
    fn ofono_parse(unit: *const u8, length: usize, out: *mut u8, room: usize) -> usize;
    fn ofono_deliver(unit: *const u8, length: usize, out: *mut u8, room: usize) -> usize;
    fn ofono_submit(text: *const c_char, out: *mut u8, room: usize) -> usize;
    fn ofono_split(text: *const c_char, index: usize, out: *mut u8, room: usize) -> usize;
    fn ofono_join(units: *const u8, all: usize, size: usize, out: *mut u8, room: usize) -> usize;
}

fn side<'a>(call: impl Fn(&mut [u8]) -> usize + 'a) -> Option<Side<'a>> {
    Some(Side::handing_out(call))
}

fn zero_ended(text: &str) -> CString {
    CString::new(text).expect("a text without zeros")
}

/// Units of one size, each led by the zero octet of an absent centre address.
fn led(units: &[u8], size: usize) -> Vec<u8> {
    units
        .chunks(size)
        .flat_map(|unit| [&[0], unit].concat())
        .collect()
}

pub fn pack(septets: &[u8]) -> Option<Side<'_>> {
    side(move |out| unsafe {
        ofono_pack(
            black_box(septets).as_ptr(),
            septets.len(),
            out.as_mut_ptr(),
            out.len(),
        )
    })
}

pub fn unpack(octets: &[u8], count: usize) -> Option<Side<'_>> {
    side(move |out| unsafe {
        ofono_unpack(
            black_box(octets).as_ptr(),
            octets.len(),
            count,
            out.as_mut_ptr(),
            out.len(),
        )
    })
}

pub fn text_of(septets: &[u8]) -> Option<Side<'_>> {
    side(move |out| unsafe {
        ofono_text(
            black_box(septets).as_ptr(),
            septets.len(),
            out.as_mut_ptr(),
            out.len(),
        )
    })
}

pub fn septets_of(text: &str) -> Option<Side<'_>> {
    let text = zero_ended(text);
    side(move |out| unsafe {
        ofono_septets(black_box(&text).as_ptr(), out.as_mut_ptr(), out.len())
    })
}

pub fn parse(unit: &[u8]) -> Option<Side<'_>> {
    let unit = led(unit, unit.len());
    side(move |out| unsafe {
        ofono_parse(
            black_box(&unit).as_ptr(),
            unit.len(),
            out.as_mut_ptr(),
            out.len(),
        )
    })
}

pub fn deliver(unit: &[u8]) -> Option<Side<'_>> {
    let unit = led(unit, unit.len());
    side(move |out| unsafe {
        ofono_deliver(
            black_box(&unit).as_ptr(),
            unit.len(),
            out.as_mut_ptr(),
            out.len(),
        )
    })
}

pub fn submit(text: &str) -> Option<Side<'_>> {
    let text = zero_ended(text);
    side(move |out| unsafe { ofono_submit(black_box(&text).as_ptr(), out.as_mut_ptr(), out.len()) })
}

pub fn split(text: &str, index: usize) -> Option<Side<'_>> {
    let text = zero_ended(text);
    side(move |out| unsafe {
        ofono_split(
            black_box(&text).as_ptr(),
            index,
            out.as_mut_ptr(),
            out.len(),
        )
    })
}

pub fn join(units: &[u8], size: usize) -> Option<Side<'_>> {
    let units = led(units, size);
    side(move |out| unsafe {
        ofono_join(
            black_box(&units).as_ptr(),
            units.len(),
            size + 1,
            out.as_mut_ptr(),
            out.len(),
        )
    })
}
