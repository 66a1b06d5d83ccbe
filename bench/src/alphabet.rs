//! The tables of the default alphabet (TS 23.038, 6.2.1), for plain and tuned Rust.
use std::collections::HashMap;
use std::sync::LazyLock;

pub const ESCAPE: u8 = 0x1B;

/// The character of each code; an escape has none.
pub const MAIN: [char; 128] = {
    let mut table = ['\0'; 128];
    let head = [
        '@', '£', '$', '¥', 'è', 'é', 'ù', 'ì', 'ò', 'Ç', '\n', 'Ø', 'ø', '\r', 'Å', 'å', 'Δ', '_',
        'Φ', 'Γ', 'Λ', 'Ω', 'Π', 'Ψ', 'Σ', 'Θ', 'Ξ', '\u{1b}', 'Æ', 'æ', 'ß', 'É',
    ];
    let mut code = 0;
    while code < 128 {
        table[code] = if code < 32 {
            head[code]
        } else {
            code as u8 as char
        };
        code += 1;
    }
    table[0x24] = '¤';
    table[0x40] = '¡';
    table[0x5B] = 'Ä';
    table[0x5C] = 'Ö';
    table[0x5D] = 'Ñ';
    table[0x5E] = 'Ü';
    table[0x5F] = '§';
    table[0x60] = '¿';
    table[0x7B] = 'ä';
    table[0x7C] = 'ö';
    table[0x7D] = 'ñ';
    table[0x7E] = 'ü';
    table[0x7F] = 'à';
    table
};

/// The codes after an escape.
pub const EXTENSION: [(u8, char); 10] = [
    (0x0A, '\u{c}'),
    (0x14, '^'),
    (0x28, '{'),
    (0x29, '}'),
    (0x2F, '\\'),
    (0x3C, '['),
    (0x3D, '~'),
    (0x3E, ']'),
    (0x40, '|'),
    (0x65, '€'),
];

/// Which octets are the code of their own character in ASCII.
pub const SAME: [bool; 256] = {
    let mut table = [false; 256];
    let mut code = 0;
    while code < 128 {
        table[code] = MAIN[code] as usize == code && code != ESCAPE as usize;
        code += 1;
    }
    table
};

/// The codes of the main table by character.
pub static CODES: LazyLock<HashMap<char, u8>> = LazyLock::new(|| {
    let codes = (0u8..128).filter(|&code| code != ESCAPE);
    codes.map(|code| (MAIN[code as usize], code)).collect()
});
