//! The transfer layer as a Rust programmer writes it (TS 23.040, 9.2), over the loops of `L`.
use crate::loops::Loops;
use std::collections::HashMap;

/// Septets in one piece.
const PIECE: usize = 160;
/// Septets in a segment whose header is 6 octets.
const SEGMENT: usize = 153;
/// Octets of user data.
const DATA: usize = 140;

/// The place of a segment.
#[derive(Debug, Clone, Copy)]
pub struct Place {
    pub reference: u16,
    pub maximum: u8,
    pub sequence: u8,
}

/// An SMS-DELIVER.
#[derive(Debug)]
#[expect(
    dead_code,
    reason = "a reader makes each field, and the tasks look at few"
)]
pub struct Deliver {
    pub first: u8,
    pub kind: u8,
    pub origin: String,
    pub pid: u8,
    pub dcs: u8,
    pub stamp: [u8; 7],
    pub place: Option<Place>,
    pub text: String,
}

pub fn deliver<L: Loops>(unit: &[u8]) -> Option<Deliver> {
    let (&first, rest) = unit.split_first()?;
    if first & 3 != 0 {
        return None;
    }
    let (kind, origin, rest) = address::<L>(rest)?;
    let (&[pid, dcs], rest) = rest.split_first_chunk()?;
    let (&stamp, rest) = rest.split_first_chunk()?;
    let (&length, rest) = rest.split_first()?;
    let is_gsm = is_gsm(dcs);
    let octets = if is_gsm {
        (length as usize * 7).div_ceil(8)
    } else {
        length as usize
    };
    if octets > DATA {
        return None;
    }
    let data = rest.get(..octets)?;
    let header = if first & 0x40 != 0 {
        1 + *data.first()? as usize
    } else {
        0
    };
    let place = if header > 0 {
        place_of(data.get(1..header)?)?
    } else {
        None
    };
    let text = if is_gsm {
        let skipped = (header * 8).div_ceil(7);
        let count = (length as usize).checked_sub(skipped)?;
        L::text_of(&L::unpack(
            &data[header..],
            (skipped * 7 - header * 8) as u32,
            count,
        )?)
    } else if dcs & 0x0C == 8 || dcs >> 4 == 0xE {
        let units = data[header..]
            .chunks_exact(2)
            .map(|pair| u16::from_be_bytes([pair[0], pair[1]]));
        char::decode_utf16(units)
            .map(|letter| letter.unwrap_or('\u{fffd}'))
            .collect()
    } else {
        String::new()
    };
    Some(Deliver {
        first,
        kind,
        origin,
        pid,
        dcs,
        stamp,
        place,
        text,
    })
}

/// The kind and the text of an address, and what follows it.
fn address<L: Loops>(octets: &[u8]) -> Option<(u8, String, &[u8])> {
    let (&[length, kind], rest) = octets.split_first_chunk()?;
    let length = length as usize;
    if length > 20 {
        return None;
    }
    let (value, rest) = rest.split_at_checked(length.div_ceil(2))?;
    if kind >> 4 & 7 == 5 {
        return Some((
            kind,
            L::text_of(&L::unpack(value, 0, length * 4 / 7)?),
            rest,
        ));
    }
    let mut text = String::with_capacity(length + 1);
    for place in 0..length {
        let digit = value[place / 2] >> (4 * (place % 2)) & 15;
        text.push(*b"0123456789*#abc".get(digit as usize)? as char);
    }
    Some((kind, text, rest))
}

/// Whether a data coding scheme tells the default alphabet.
fn is_gsm(dcs: u8) -> bool {
    match dcs >> 4 {
        0..=7 => dcs & 0x20 == 0 && matches!(dcs >> 2 & 3, 0 | 3),
        0xE => false,
        0xF => dcs & 4 == 0,
        _ => true,
    }
}

/// The place that the elements of a header tell, or `None` where an element is cut.
fn place_of(elements: &[u8]) -> Option<Option<Place>> {
    let mut place = None;
    let mut rest = elements;
    while let [kind, length, others @ ..] = rest {
        let (value, others) = others.split_at_checked(*length as usize)?;
        place = match (kind, value) {
            (0, &[reference, maximum, sequence]) => Some(Place {
                reference: reference as u16,
                maximum,
                sequence,
            }),
            (8, &[high, low, maximum, sequence]) => Some(Place {
                reference: u16::from_be_bytes([high, low]),
                maximum,
                sequence,
            }),
            _ => place,
        };
        rest = others;
    }
    Some(place)
}

/// An SMS-SUBMIT of a text in one piece, with a relative validity period.
pub fn submit<L: Loops>(to: &str, text: &str) -> Option<Vec<u8>> {
    let septets = L::septets_of(text)?;
    let digits = to.trim_start_matches('+').as_bytes();
    let kind = if to.starts_with('+') { 0x91 } else { 0x81 };
    let mut unit = Vec::with_capacity(170);
    unit.extend_from_slice(&[0x11, 0, digits.len() as u8, kind]);
    for pair in digits.chunks(2) {
        let high = pair.get(1).map_or(15, |digit| digit - b'0');
        unit.push((pair[0] - b'0') | high << 4);
    }
    unit.extend_from_slice(&[0, 0, 0xAA, septets.len() as u8]);
    unit.extend(L::pack(&septets, 0));
    Some(unit)
}

/// The user data of the segments of a text, each after its length: TP-UDL and TP-UD.
pub fn split<L: Loops>(text: &str, reference: u8) -> Option<Vec<Vec<u8>>> {
    let septets = L::septets_of(text)?;
    if septets.len() <= PIECE {
        let length = septets.len() as u8;
        return Some(vec![[&[length], &L::pack(&septets, 0)[..]].concat()]);
    }
    let pieces = pieces(&septets);
    let maximum = u8::try_from(pieces.len()).ok()?;
    let segments = pieces.iter().zip(1u8..=maximum).map(|(piece, sequence)| {
        let mut data = Vec::with_capacity(1 + DATA);
        data.extend_from_slice(&[7 + piece.len() as u8, 5, 0, 3, reference, maximum, sequence]);
        data.extend(L::pack(piece, 1));
        data
    });
    Some(segments.collect())
}

/// The pieces of septets, none of which ends with an escape.
fn pieces(septets: &[u8]) -> Vec<&[u8]> {
    let mut pieces = Vec::with_capacity(septets.len() / SEGMENT + 1);
    let mut rest = septets;
    while !rest.is_empty() {
        let mut end = rest.len().min(SEGMENT);
        if end < rest.len() && rest[end - 1] == 0x1B {
            end -= 1;
        }
        let (piece, others) = rest.split_at(end);
        pieces.push(piece);
        rest = others;
    }
    pieces
}

/// What the segments of one message share.
#[derive(Debug, Clone, PartialEq, Eq, Hash)]
struct Key {
    origin: String,
    reference: u16,
    maximum: u8,
}

/// The segments of a message that have come.
struct Set {
    texts: Vec<Option<String>>,
    count: usize,
}

/// Joins segments as they come.
#[derive(Default)]
pub struct Joiner {
    open: HashMap<Key, Set>,
}

impl Joiner {
    /// Takes a message or a segment; with the last of its segments a message is finished, and its text is returned.
    pub fn offer(&mut self, deliver: Deliver) -> Option<String> {
        let Some(Place {
            reference,
            maximum,
            sequence,
        }) = deliver.place
        else {
            return Some(deliver.text);
        };
        if sequence == 0 || sequence > maximum {
            return Some(deliver.text);
        }
        let key = Key {
            origin: deliver.origin,
            reference,
            maximum,
        };
        let new = || Set {
            texts: vec![None; maximum as usize],
            count: 0,
        };
        let set = self.open.entry(key.clone()).or_insert_with(new);
        let kept = &mut set.texts[sequence as usize - 1];
        if kept.is_none() {
            *kept = Some(deliver.text);
            set.count += 1;
        }
        if set.count < maximum as usize {
            return None;
        }
        let set = self.open.remove(&key)?;
        Some(set.texts.into_iter().flatten().collect())
    }
}

/// The text of SMS-DELIVERs of one size that stand one after another.
pub fn join<L: Loops>(units: &[u8], size: usize) -> Option<String> {
    let mut joiner = Joiner::default();
    let mut finished = None;
    for unit in units.chunks(size) {
        finished = joiner.offer(deliver::<L>(unit)?);
    }
    finished
}
