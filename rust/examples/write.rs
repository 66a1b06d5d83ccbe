//! Writes a text as an SMS-SUBMIT for each segment, valid for four days, and prints their octets.

use sms::{Reference, Submit, SubmitFields, Validity};

fn main() -> Result<(), Box<dyn std::error::Error>> {
    let fields = SubmitFields::new(Reference::Eight(7), Validity::Relative(170));
    let mut index = 0;
    loop {
        let (unit, segments) = Submit::write(&fields, "+46708251358", "hellohello", index)?;
        println!("{}", unit.iter().map(|octet| format!("{octet:02X}")).collect::<String>());
        index += 1;
        if index == segments {
            return Ok(());
        }
    }
}
