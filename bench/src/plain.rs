//! What a Rust programmer writes: safe and plain, eight septets at a time where no fill bits stand before them.
use crate::alphabet::{CODES, ESCAPE, EXTENSION, MAIN};
use crate::loops::Loops;

pub struct Plain;

impl Loops for Plain {
    fn pack(septets: &[u8], fill: u32) -> Vec<u8> {
        if fill == 0 {
            pack_blocks(septets)
        } else {
            pack_singly(septets, fill)
        }
    }

    fn unpack(octets: &[u8], fill: u32, count: usize) -> Option<Vec<u8>> {
        if octets.len() < (count * 7 + fill as usize).div_ceil(8) {
            return None;
        }
        Some(if fill == 0 {
            unpack_blocks(octets, count)
        } else {
            unpack_singly(octets, fill, count)
        })
    }

    fn text_of(septets: &[u8]) -> String {
        let mut text = String::with_capacity(septets.len() + 8);
        let mut rest = septets;
        loop {
            rest = match rest {
                [] => return text,
                [ESCAPE] | [ESCAPE, ESCAPE, ..] => {
                    text.push(' ');
                    &rest[rest.len().min(2)..]
                }
                [ESCAPE, code, others @ ..] => {
                    let found = EXTENSION.iter().find(|row| row.0 == *code);
                    text.push(found.map_or(MAIN[*code as usize], |row| row.1));
                    others
                }
                [code, others @ ..] => {
                    text.push(MAIN[*code as usize]);
                    others
                }
            }
        }
    }

    fn septets_of(text: &str) -> Option<Vec<u8>> {
        let codes = &*CODES;
        let mut septets = Vec::with_capacity(text.len());
        for letter in text.chars() {
            if letter.is_ascii_alphanumeric() || letter == ' ' {
                septets.push(letter as u8);
            } else if let Some(&code) = codes.get(&letter) {
                septets.push(code);
            } else {
                let row = EXTENSION.iter().find(|row| row.1 == letter)?;
                septets.extend([ESCAPE, row.0]);
            }
        }
        Some(septets)
    }
}

fn pack_singly(septets: &[u8], fill: u32) -> Vec<u8> {
    let mut octets = Vec::with_capacity((septets.len() * 7 + fill as usize).div_ceil(8));
    let (mut bits, mut count) = (0u32, fill);
    for &septet in septets {
        bits |= (septet as u32) << count;
        count += 7;
        if count >= 8 {
            octets.push(bits as u8);
            bits >>= 8;
            count -= 8;
        }
    }
    if count > 0 {
        octets.push(bits as u8);
    }
    octets
}

fn pack_blocks(septets: &[u8]) -> Vec<u8> {
    let mut octets = Vec::with_capacity((septets.len() * 7).div_ceil(8));
    let blocks = septets.chunks_exact(8);
    let rest = blocks.remainder();
    for block in blocks {
        let mut word = 0u64;
        for (place, &septet) in block.iter().enumerate() {
            word |= (septet as u64) << (7 * place);
        }
        octets.extend_from_slice(&word.to_le_bytes()[..7]);
    }
    octets.extend(pack_singly(rest, 0));
    octets
}

fn unpack_singly(octets: &[u8], fill: u32, count: usize) -> Vec<u8> {
    let mut septets = Vec::with_capacity(count);
    let (mut bits, mut held, mut skip) = (0u32, 0u32, fill);
    for &octet in octets {
        bits |= (octet as u32) << held;
        held += 8;
        bits >>= skip;
        held -= skip;
        skip = 0;
        while held >= 7 && septets.len() < count {
            septets.push(bits as u8 & 127);
            bits >>= 7;
            held -= 7;
        }
        if septets.len() == count {
            break;
        }
    }
    septets
}

fn unpack_blocks(octets: &[u8], count: usize) -> Vec<u8> {
    let mut septets = Vec::with_capacity(count + 8);
    for block in octets[..(count * 7).div_ceil(8)].chunks(7) {
        let mut word = [0u8; 8];
        word[..block.len()].copy_from_slice(block);
        let word = u64::from_le_bytes(word);
        septets.extend_from_slice(&std::array::from_fn::<u8, 8, _>(|place| {
            (word >> (7 * place)) as u8 & 127
        }));
    }
    septets.truncate(count);
    septets
}
