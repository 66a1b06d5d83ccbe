//! Memory ends after each number of requests in turn: the crate says `NoMemory` then, and nothing ends the program.

use sms::{Command, Deliver, DeliverFields, Envelope, Error, Joiner, Offer, Reference, Report, Stamp, StatusReport, Submit};
use sms::{ReportFields, StatusReportFields, SubmitFields, Validity};
use std::alloc::{GlobalAlloc, Layout, System};
use std::cell::Cell;

/// The system's memory, of which a thread gets no more where `LEFT` says so.
struct Ending;

thread_local! {
    static LEFT: Cell<Option<usize>> = const { Cell::new(None) };
}

fn ended() -> bool {
    LEFT.with(|left| match left.get() {
        Some(0) => true,
        more => {
            left.set(more.map(|it| it - 1));
            false
        }
    })
}

// SAFETY: what is not refused is the system's.
unsafe impl GlobalAlloc for Ending {
    unsafe fn alloc(&self, layout: Layout) -> *mut u8 {
        if ended() {
            std::ptr::null_mut()
        } else {
            System.alloc(layout)
        }
    }

    unsafe fn dealloc(&self, at: *mut u8, layout: Layout) {
        System.dealloc(at, layout);
    }
}

#[global_allocator]
static MEMORY: Ending = Ending;

/// After how many requests a call does what it is for; it makes as many.
fn requests<T>(call: impl Fn() -> Result<T, Error>) -> usize {
    for count in 0.. {
        LEFT.with(|left| left.set(Some(count)));
        let told = call();
        LEFT.with(|left| left.set(None));
        match told {
            Ok(_) => return count,
            Err(why) => assert_eq!(why, Error::NoMemory),
        }
    }
    unreachable!()
}

const STAMP: [u8; 7] = [0x99, 0x30, 0x92, 0x51, 0x61, 0x95, 0x80];

fn fields() -> DeliverFields {
    DeliverFields::new(Reference::Eight(42), Stamp(STAMP))
}

#[test]
fn units() {
    let (unit, _) = Deliver::write(&fields(), "12345", "hello", 0).unwrap();
    assert_eq!(requests(|| Deliver::read(&unit)), 2);
    let (message, _) = Deliver::read(&unit).unwrap();
    assert_eq!(requests(|| message.text()), 1);
    assert_eq!(requests(|| Deliver::write(&fields(), "12345", "hello", 0)), 1);
    let fields = SubmitFields::new(Reference::Eight(0), Validity::Absent);
    assert_eq!(requests(|| Submit::write(&fields, "12345", "hello", 0)), 1);
    assert_eq!(requests(|| Submit::write_data(&fields, 4, false, "12345", &[1, 2])), 1);
    let (unit, _) = Submit::write(&fields, "12345", "hello", 0).unwrap();
    assert_eq!(requests(|| Submit::read(&unit)), 2);
}

#[test]
fn reports_and_commands() {
    let report = [0x40, 0x06, 0x04, 0x05, 0x03, 0x70, 0x01, 0x00, 0x41];
    assert_eq!(requests(|| Report::read_deliver_ack(&report)), 2);
    let (report, _) = Report::read_deliver_ack(&[0x00, 0x06, 0x08, 0x02, 0x04, 0x4F]).unwrap();
    assert_eq!(requests(|| report.text()), 1);
    assert_eq!(requests(|| Report::write_deliver_ack(&ReportFields::octets(4, &[1, 2]))), 1);
    assert_eq!(requests(|| Report::write_submit_error(&ReportFields::default(), 0xD6, Stamp(STAMP))), 1);
    let fields = StatusReportFields::new(Stamp(STAMP), Stamp(STAMP), 0);
    assert_eq!(requests(|| StatusReport::write(&fields, "12345")), 1);
    let command = [0xFE, 0x08, 0x41, 0x00, 0x06, 0x02, 0x81, 0x21, 0x03, 0x02, 0xBB, 0xCC];
    assert_eq!(requests(|| Command::read(&command)), 3);
    let told = [&[0xFA, 0x07, 0x02, 0x81, 0x21][..], &STAMP, &STAMP, &[0x46, 0x87, 0x00, 0x7F, 0x04, 0x02, 0xAA, 0xBB]].concat();
    assert_eq!(requests(|| StatusReport::read(&told)), 2);
}

#[test]
fn packets() {
    let envelope = Envelope { flag: false, value: 3, to_phone: true, reference: 9 };
    assert_eq!(requests(|| envelope.wrap("+1234", &[1, 2])), 1);
    assert_eq!(requests(|| envelope.wrap_ack(&[])), 1);
    assert_eq!(requests(|| envelope.wrap_error(22, &[])), 1);
    assert_eq!(requests(|| envelope.cp_ack()), 1);
    assert_eq!(requests(|| sms::Record::write(sms::RecordStatus::Free, "", &[])), 1);
    assert_eq!(requests(|| envelope.cp_error(97)), 1);
}

#[test]
fn texts() {
    let text = "a".repeat(2000);
    let (users, _) = sms::split(Reference::Eight(7), &text).unwrap();
    assert!(requests(|| sms::split(Reference::Eight(7), &text)) >= 2 + users.len());
    assert!(requests(|| sms::split_data(Reference::Eight(7), &text, true)) >= 2 + users.len());
    let units: Vec<_> = (0..users.len()).map(|index| Deliver::write(&fields(), "1", &text, index).unwrap().0).collect();
    let told = requests(|| {
        let mut joiner = Joiner::open(4, 4)?;
        for unit in &units {
            joiner.would_finish(unit)?;
            if let Offer::Finished(joined) = joiner.offer(0, unit)? {
                assert!(joined == text);
            }
        }
        joiner.text()
    });
    assert!(told >= 2);
    let mut joiner = Joiner::open(4, 4).unwrap();
    let last = units.len() - 1;
    units[..last].iter().for_each(|unit| assert_eq!(joiner.offer(0, unit), Ok(Offer::Kept)));
    LEFT.with(|left| left.set(Some(0)));
    let told = joiner.offer(0, &units[last]);
    LEFT.with(|left| left.set(None));
    assert_eq!((told, joiner.offer(0, &units[last])), (Err(Error::NoMemory), Ok(Offer::Repeat)));
    assert_eq!(joiner.text(), Ok(text));
}
