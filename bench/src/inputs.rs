//! What the tasks are given, made here by itself: bits are laid out one by one, as TS 23.038 (6.1.2.1) numbers them.

const PHRASE: &str = "the quick brown fox jumps over a lazy dog and runs to the sea 0123456789 Then it rests, at last. ";
const MIXED: &str = "Für 5 € gibt's Öl, à la carte: {Käse}, piña, Ærø! ";
const CYRILLIC: &str = "Съешь ещё этих мягких французских булок, да выпей же чаю. ";

/// TP-OA and TP-DA of +46708251358.
const ADDRESS: [u8; 8] = [0x0B, 0x91, 0x64, 0x07, 0x28, 0x15, 0x53, 0xF8];
/// TP-SCTS.
const STAMP: [u8; 7] = [0x62, 0x11, 0x50, 0x22, 0x73, 0x14, 0x80];
const REFERENCE: u8 = 42;
/// Septets in a segment whose header is 6 octets.
const SEGMENT: usize = 153;
const SEGMENTS: usize = 255;

/// The destination of the SMS-SUBMIT.
pub const TARGET: &str = "+46708251358";

pub struct Inputs {
    /// 160 letters that are the same in ASCII, which are their septets too.
    pub text: String,
    pub packed: Vec<u8>,
    /// A text of 160 septets with a letter outside ASCII or an escape in about every fourth place.
    pub mixed: String,
    pub mixed_septets: Vec<u8>,
    /// 255 segments of 153 septets.
    pub long: String,
    pub wide: String,
    pub deliver: Vec<u8>,
    pub deliver_wide: Vec<u8>,
    pub deliver_segment: Vec<u8>,
    pub submit: Vec<u8>,
    /// SMS-DELIVERs of the segments of `long`, in order.
    pub parts: Vec<Vec<u8>>,
    /// The user data of the segments of `long`: TP-UDL and TP-UD.
    pub segments: Vec<Vec<u8>>,
}

impl Inputs {
    pub fn new() -> Inputs {
        let long: String = PHRASE.chars().cycle().take(SEGMENT * SEGMENTS).collect();
        let text = long[..160].to_string();
        let packed = packed(text.as_bytes(), 0);
        let wide: String = CYRILLIC.chars().cycle().take(70).collect();
        let wide_octets: Vec<u8> = wide.encode_utf16().flat_map(u16::to_be_bytes).collect();
        let (mixed, mixed_septets) = mixed();
        let segments: Vec<Vec<u8>> = long
            .as_bytes()
            .chunks(SEGMENT)
            .enumerate()
            .map(segment)
            .collect();
        let parts: Vec<Vec<u8>> = segments.iter().map(|data| deliver(0x44, 0, data)).collect();
        Inputs {
            deliver: deliver(0x04, 0, &led(160, &packed)),
            deliver_wide: deliver(0x04, 8, &led(140, &wide_octets)),
            deliver_segment: parts[0].clone(),
            submit: submit(&led(160, &packed)),
            text,
            packed,
            mixed,
            mixed_septets,
            long,
            wide,
            parts,
            segments,
        }
    }

    /// The parts of the long text, one after another: the k-th is that at the place that `order` tells.
    pub fn joined_parts(&self, order: impl Fn(usize) -> usize) -> Vec<u8> {
        (0..SEGMENTS)
            .flat_map(|k| self.parts[order(k)].iter().copied())
            .collect()
    }
}

/// Places of the parts in reverse.
pub fn reversed(k: usize) -> usize {
    SEGMENTS - 1 - k
}

/// Places of the parts with no order: 101 has no divisor in common with 255.
pub fn shuffled(k: usize) -> usize {
    (k * 101 + 37) % SEGMENTS
}

/// Septets after fill bits: bit j of septet i is bit `fill + 7 * i + j` of the octets.
fn packed(septets: &[u8], fill: usize) -> Vec<u8> {
    let mut octets = vec![0u8; (septets.len() * 7 + fill).div_ceil(8)];
    for place in 0..septets.len() * 7 {
        let bit = septets[place / 7] >> (place % 7) & 1;
        octets[(fill + place) / 8] |= bit << ((fill + place) % 8);
    }
    octets
}

fn led(length: u8, data: &[u8]) -> Vec<u8> {
    [&[length], data].concat()
}

/// TP-UDL and TP-UD of a segment: the header tells reference, maximum and sequence, and one fill bit follows it.
fn segment((index, septets): (usize, &[u8])) -> Vec<u8> {
    let length = 7 + septets.len() as u8;
    let header = [length, 5, 0, 3, REFERENCE, SEGMENTS as u8, index as u8 + 1];
    [&header[..], &packed(septets, 1)].concat()
}

/// An SMS-DELIVER: TP-MTI and flags, TP-OA, TP-PID, TP-DCS, TP-SCTS, TP-UDL and TP-UD.
fn deliver(first: u8, dcs: u8, data: &[u8]) -> Vec<u8> {
    [&[first], &ADDRESS[..], &[0, dcs], &STAMP, data].concat()
}

/// An SMS-SUBMIT: TP-MTI and flags, TP-MR, TP-DA, TP-PID, TP-DCS, TP-VP, TP-UDL and TP-UD.
fn submit(data: &[u8]) -> Vec<u8> {
    [&[0x11, 0], &ADDRESS[..], &[0, 0, 0xAA], data].concat()
}

/// The mixed text and its septets, of which there are 160.
fn mixed() -> (String, Vec<u8>) {
    let (mut text, mut septets) = (String::new(), Vec::new());
    for letter in MIXED.chars().cycle() {
        let spelled = spelling(letter);
        if septets.len() + spelled.len() > 160 {
            break;
        }
        text.push(letter);
        septets.extend(spelled);
    }
    let spaces = 160 - septets.len();
    text.extend(std::iter::repeat_n(' ', spaces));
    septets.extend(std::iter::repeat_n(b' ', spaces));
    (text, septets)
}

/// The septets of a letter of the mixed text (TS 23.038, 6.2.1).
fn spelling(letter: char) -> Vec<u8> {
    match letter {
        'ü' => vec![0x7E],
        'Ö' => vec![0x5C],
        'à' => vec![0x7F],
        'ä' => vec![0x7B],
        'ñ' => vec![0x7D],
        'Æ' => vec![0x1C],
        'ø' => vec![0x0C],
        '€' => vec![0x1B, 0x65],
        '{' => vec![0x1B, 0x28],
        '}' => vec![0x1B, 0x29],
        letter => vec![letter as u8],
    }
}
