//! Times the codec's tasks in one process beside plain and tuned Rust, and oFono where its source was given.
//! Usage: bench [SECONDS A TASK] [WORD OF A TASK]
mod alphabet;
mod inputs;
mod library;
mod loops;
mod messages;
#[cfg(ofono)]
mod ofono;
#[cfg(not(ofono))]
#[path = "no_ofono.rs"]
mod ofono;
mod plain;
mod timing;
mod tuned;

use inputs::{Inputs, TARGET, reversed, shuffled};
use loops::Loops;
use messages::{deliver, join, split, submit};
use plain::Plain;
use std::convert::identity;
use std::hint::black_box;
use timing::{Bench, Side, Task};
use tuned::Tuned;

const REFERENCE: u8 = 42;
/// An index that no segment has: the calls that split then only count.
const COUNT: usize = usize::MAX;

fn main() {
    let mut words = std::env::args().skip(1);
    let seconds = words
        .next()
        .map_or(2.0, |word| word.parse().expect("seconds a task"));
    let bench = Bench {
        seconds,
        word: words.next().unwrap_or_default(),
    };
    let inputs = Inputs::new();
    compare_loops(&inputs);
    bench.head();
    time_septets(&bench, &inputs);
    time_texts(&bench, &inputs);
    time_deliver(
        &bench,
        "DELIVER of 160 septets to text",
        &inputs.deliver,
        &inputs.text,
    );
    time_deliver(
        &bench,
        "DELIVER with a header, 153",
        &inputs.deliver_segment,
        &inputs.long[..153],
    );
    time_deliver(
        &bench,
        "DELIVER in UCS-2, 70",
        &inputs.deliver_wide,
        &inputs.wide,
    );
    time_submit(&bench, &inputs);
    time_split(&bench, &inputs);
    time_join(&bench, "join of 255, in order", &inputs, identity);
    time_join(&bench, "join of 255, reversed", &inputs, reversed);
    time_join(&bench, "join of 255, shuffled", &inputs, shuffled);
    time_parts(&bench, &inputs);
}

/// The text that octets spell, tested as the library tests it.
fn checked(octets: &[u8]) -> &str {
    std::str::from_utf8(octets).expect("UTF-8")
}

/// Tuned Rust does what plain Rust does, at every length and fill.
fn compare_loops(inputs: &Inputs) {
    for count in 0..=160 {
        let septets = &inputs.mixed_septets[..count];
        assert_eq!(Tuned::text_of(septets), Plain::text_of(septets));
        for fill in 0..7 {
            let octets = Plain::pack(septets, fill);
            assert_eq!(Tuned::pack(septets, fill), octets);
            assert_eq!(
                Plain::unpack(&octets, fill, count).expect("septets"),
                septets
            );
            assert_eq!(
                Tuned::unpack(&octets, fill, count).expect("septets"),
                septets
            );
        }
    }
}

fn time_septets(bench: &Bench, inputs: &Inputs) {
    let (septets, packed) = (inputs.text.as_bytes(), &inputs.packed[..]);
    bench.row(
        packed,
        Task {
            name: "pack 160 septets",
            sms: Side::handing_out(|out| library::pack(black_box(septets), out)),
            ofono: ofono::pack(septets),
            plain: Some(Side::new(|| Plain::pack(black_box(septets), 0), identity)),
            tuned: Some(Side::new(|| Tuned::pack(black_box(septets), 0), identity)),
        },
    );
    bench.row(
        septets,
        Task {
            name: "unpack 160",
            sms: Side::handing_out(|out| library::unpack(black_box(packed), 160, out)),
            ofono: ofono::unpack(packed, 160),
            plain: Some(Side::new(
                || Plain::unpack(black_box(packed), 0, 160).expect("septets"),
                identity,
            )),
            tuned: Some(Side::new(
                || Tuned::unpack(black_box(packed), 0, 160).expect("septets"),
                identity,
            )),
        },
    );
}

fn time_texts(bench: &Bench, inputs: &Inputs) {
    let plain = (
        inputs.text.as_bytes(),
        &inputs.text,
        "septets to text, 160",
        "text to septets, 160",
    );
    let mixed = (
        &inputs.mixed_septets[..],
        &inputs.mixed,
        "septets to mixed text, 160",
        "mixed text to septets, 160",
    );
    for (septets, text, to_text, to_septets) in [plain, mixed] {
        bench.row(
            text.as_bytes(),
            Task {
                name: to_text,
                sms: Side::handing_out(|out| library::text_of(black_box(septets), out)),
                ofono: ofono::text_of(septets),
                plain: Some(Side::new(
                    || Plain::text_of(black_box(septets)),
                    String::into_bytes,
                )),
                tuned: Some(Side::new(
                    || Tuned::text_of(black_box(septets)),
                    String::into_bytes,
                )),
            },
        );
        let octets = text.as_bytes();
        bench.row(
            septets,
            Task {
                name: to_septets,
                sms: Side::handing_out(|out| library::septets_of(black_box(octets), out)),
                ofono: ofono::septets_of(text),
                plain: Some(Side::new(
                    || Plain::septets_of(checked(black_box(octets))).expect("septets"),
                    identity,
                )),
                tuned: Some(Side::new(
                    || Tuned::septets_of(checked(black_box(octets))).expect("septets"),
                    identity,
                )),
            },
        );
    }
}

fn time_deliver(bench: &Bench, name: &'static str, unit: &[u8], text: &str) {
    bench.row(
        text.as_bytes(),
        Task {
            name,
            sms: Side::handing_out(|out| library::deliver(black_box(unit), out)),
            ofono: ofono::deliver(unit),
            plain: Some(Side::new(
                || deliver::<Plain>(black_box(unit)).expect("a unit"),
                |unit| unit.text.into_bytes(),
            )),
            tuned: Some(Side::new(
                || deliver::<Tuned>(black_box(unit)).expect("a unit"),
                |unit| unit.text.into_bytes(),
            )),
        },
    );
}

fn time_submit(bench: &Bench, inputs: &Inputs) {
    let text = inputs.text.as_bytes();
    bench.row(
        &inputs.submit,
        Task {
            name: "SUBMIT of 160, written from text",
            sms: Side::handing_out(|out| library::submit(black_box(TARGET), black_box(text), out)),
            ofono: ofono::submit(&inputs.text),
            plain: Some(Side::new(
                || submit::<Plain>(black_box(TARGET), checked(black_box(text))).expect("a unit"),
                identity,
            )),
            tuned: Some(Side::new(
                || submit::<Tuned>(black_box(TARGET), checked(black_box(text))).expect("a unit"),
                identity,
            )),
        },
    );
}

fn time_split(bench: &Bench, inputs: &Inputs) {
    let text = inputs.long.as_bytes();
    for (index, segment) in inputs.segments.iter().enumerate() {
        assert_eq!(
            &library::answer(|out| library::split(text, index, out)),
            segment,
            "segment {index}"
        );
    }
    let count = inputs.segments.len();
    let counted = |parts: Vec<Vec<u8>>| {
        assert_eq!(parts, inputs.segments);
        vec![0; parts.len()]
    };
    bench.row(
        &vec![0; count],
        Task {
            name: "split of 39,015 letters",
            sms: Side::handing_out(|out| library::split(black_box(text), COUNT, out)),
            ofono: ofono::split(&inputs.long, COUNT),
            plain: Some(Side::new(
                || split::<Plain>(checked(black_box(text)), REFERENCE).expect("segments"),
                counted,
            )),
            tuned: Some(Side::new(
                || split::<Tuned>(checked(black_box(text)), REFERENCE).expect("segments"),
                counted,
            )),
        },
    );
}

fn time_join(bench: &Bench, name: &'static str, inputs: &Inputs, order: fn(usize) -> usize) {
    let (units, size) = (&inputs.joined_parts(order)[..], inputs.parts[0].len());
    bench.row(
        inputs.long.as_bytes(),
        Task {
            name,
            sms: Side::handing_out(|out| library::join(black_box(units), size, out)),
            ofono: ofono::join(units, size),
            plain: Some(Side::new(
                || join::<Plain>(black_box(units), size).expect("a text"),
                String::into_bytes,
            )),
            tuned: Some(Side::new(
                || join::<Tuned>(black_box(units), size).expect("a text"),
                String::into_bytes,
            )),
        },
    );
}

/// A row for the library by itself.
fn time_alone(bench: &Bench, name: &'static str, wanted: &[u8], call: impl Fn(&mut [u8]) -> usize) {
    let sms = Side::handing_out(call);
    bench.row(
        wanted,
        Task {
            name,
            sms,
            ofono: None,
            plain: None,
            tuned: None,
        },
    );
}

/// An SMS-DELIVER of which nothing is kept but its text, parts of the tasks above, and the call that does nothing.
fn time_parts(bench: &Bench, inputs: &Inputs) {
    let seen = [
        (
            "(DELIVER of 160 seen, to text)",
            &inputs.deliver,
            &inputs.text[..],
        ),
        (
            "(DELIVER with a header seen, to text)",
            &inputs.deliver_segment,
            &inputs.long[..153],
        ),
        (
            "(DELIVER in UCS-2 seen, to text)",
            &inputs.deliver_wide,
            &inputs.wide[..],
        ),
    ];
    for (name, unit, text) in seen {
        time_alone(bench, name, text.as_bytes(), |out| {
            library::see(black_box(unit), out)
        });
    }
    let (unit, septets) = (&inputs.deliver, inputs.text.as_bytes());
    bench.row(
        &[160],
        Task {
            name: "(DELIVER of 160 parsed where it lies)",
            sms: Side::handing_out(|out| library::glance(black_box(unit), out)),
            ofono: ofono::parse(unit),
            plain: None,
            tuned: None,
        },
    );
    time_alone(
        bench,
        "(DELIVER of 160 read, no text made)",
        septets,
        |out| library::parse(black_box(unit), out),
    );
    let (text, count) = (inputs.long.as_bytes(), vec![0; inputs.segments.len()]);
    time_alone(bench, "(39,015 letters cut, not written)", &count, |out| {
        library::cut(black_box(text), out)
    });
    time_alone(bench, "(a call that does nothing)", &[0], |out| {
        library::nothing(black_box(&[0]), out)
    });
}
