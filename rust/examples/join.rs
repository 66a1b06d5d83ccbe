//! Joins two segments that come in the wrong order, and prints their text.

use sms::{Deliver, DeliverFields, Joiner, Offer, Reference, Stamp};

fn main() -> Result<(), Box<dyn std::error::Error>> {
    let stamp = Stamp([0x42, 0x20, 0x92, 0x51, 0x61, 0x95, 0x80]);
    let fields = DeliverFields::new(Reference::Eight(42), stamp);
    let mut joiner = Joiner::open(1024, 4096)?;
    for index in [1, 0] {
        let (unit, _) = Deliver::write(&fields, "12345", &"a".repeat(161), index)?;
        if let Offer::Finished(text) = joiner.offer(0, &unit)? {
            println!("{}: {}", text.len(), &text[..5]);
        }
    }
    Ok(())
}
