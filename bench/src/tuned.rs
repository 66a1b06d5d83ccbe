//! Safe Rust tuned as far as was found: eight septets in three steps of one word, and runs that are the same in ASCII
//! copied.
use crate::alphabet::SAME;
use crate::loops::Loops;
use crate::plain::Plain;

pub struct Tuned;

impl Loops for Tuned {
    fn pack(septets: &[u8], fill: u32) -> Vec<u8> {
        let length = (septets.len() * 7 + fill as usize).div_ceil(8);
        let mut octets = vec![0u8; length + 8];
        // the bits of the block before that did not fill an octet
        let mut carry = 0u64;
        let mut place = 0;
        for block in septets.chunks(8) {
            let mut word = [0u8; 8];
            word[..block.len()].copy_from_slice(block);
            let bits = gathered(u64::from_le_bytes(word)) << fill | carry;
            octets[place..place + 8].copy_from_slice(&bits.to_le_bytes());
            carry = bits >> 56;
            place += 7;
        }
        octets.truncate(length);
        octets
    }

    fn unpack(octets: &[u8], fill: u32, count: usize) -> Option<Vec<u8>> {
        if octets.len() < (count * 7 + fill as usize).div_ceil(8) {
            return None;
        }
        let mut septets = vec![0u8; count.div_ceil(8) * 8];
        for (index, block) in septets.chunks_exact_mut(8).enumerate() {
            let word = word_at(octets, 7 * index) >> fill;
            block.copy_from_slice(&spread(word).to_le_bytes());
        }
        septets.truncate(count);
        Some(septets)
    }

    fn text_of(septets: &[u8]) -> String {
        let (run, rest) = septets.split_at(same_run(septets));
        let mut text = String::with_capacity(septets.len() + 16);
        text.push_str(std::str::from_utf8(run).expect("ASCII"));
        if !rest.is_empty() {
            text.push_str(&Plain::text_of(rest));
        }
        text
    }

    fn septets_of(text: &str) -> Option<Vec<u8>> {
        let (run, rest) = text.split_at(same_run(text.as_bytes()));
        let mut septets = Vec::with_capacity(text.len() + 16);
        septets.extend_from_slice(run.as_bytes());
        if !rest.is_empty() {
            septets.extend(Plain::septets_of(rest)?);
        }
        Some(septets)
    }
}

/// How many octets at the front are codes of the same character in ASCII.
fn same_run(octets: &[u8]) -> usize {
    octets
        .iter()
        .take_while(|&&octet| SAME[octet as usize])
        .count()
}

/// Eight septets, one in each octet, as the 56 lowest bits.
fn gathered(word: u64) -> u64 {
    let word = word & 0x007f_007f_007f_007f | (word & 0x7f00_7f00_7f00_7f00) >> 1;
    let word = word & 0x0000_3fff_0000_3fff | (word & 0x3fff_0000_3fff_0000) >> 2;
    word & 0x0fff_ffff | (word & 0x0fff_ffff_0000_0000) >> 4
}

/// The 56 lowest bits as eight septets, one in each octet.
fn spread(word: u64) -> u64 {
    let word = word & 0x0fff_ffff | word << 4 & 0x0fff_ffff_0000_0000;
    let word = word & 0x0000_3fff_0000_3fff | word << 2 & 0x3fff_0000_3fff_0000;
    word & 0x007f_007f_007f_007f | word << 1 & 0x7f00_7f00_7f00_7f00
}

/// The eight octets from a place on, the lowest first; 0 for those that are not there.
fn word_at(octets: &[u8], place: usize) -> u64 {
    match octets.get(place..place + 8) {
        Some(block) => u64::from_le_bytes(block.try_into().expect("eight octets")),
        None => {
            let mut word = [0u8; 8];
            let rest = &octets[place..];
            word[..rest.len()].copy_from_slice(rest);
            u64::from_le_bytes(word)
        }
    }
}
