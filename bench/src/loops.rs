//! The four loops in which plain and tuned Rust differ.

pub trait Loops {
    /// Septets in octets, after fill bits.
    fn pack(septets: &[u8], fill: u32) -> Vec<u8>;
    /// `count` septets that follow fill bits, where there are as many.
    fn unpack(octets: &[u8], fill: u32, count: usize) -> Option<Vec<u8>>;
    fn text_of(septets: &[u8]) -> String;
    /// The septets of a text, where its characters have some.
    fn septets_of(text: &str) -> Option<Vec<u8>>;
}
