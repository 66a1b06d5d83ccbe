//! What the crate promises.

use sms::{
    Alphabet, Command, Cp, CpBody, Data, Deliver, DeliverFields, Envelope, Error, Joiner, Offer, Place, Reason, Record,
    RecordStatus, RecordUnit, Reference, Refused, Report, ReportFields, Rp, RpBody, Stamp, Standing, StatusReport,
    StatusReportFields, Submit, SubmitFields, Validity,
};
use std::sync::Mutex;

const HELLO: [u8; 28] = [
    0x04, 0x0B, 0xC8, 0x72, 0x38, 0x88, 0x09, 0x00, 0xF1, 0x00, 0x00, 0x99, 0x30, 0x92, 0x51, 0x61, 0x95, 0x80, 0x0A, 0xE8,
    0x32, 0x9B, 0xFD, 0x46, 0x97, 0xD9, 0xEC, 0x37,
];
const STAMP: Stamp = Stamp([0x99, 0x30, 0x92, 0x51, 0x61, 0x95, 0x80]);

fn refused(place: usize, reason: Reason) -> Option<Error> {
    Some(Error::Refused(Refused { place, reason }))
}

fn long() -> String {
    (0..200).map(|i| char::from(b'a' + i % 26)).collect()
}

#[test]
fn reads_a_delivery() {
    let (message, used) = Deliver::read(&HELLO).unwrap();
    assert_eq!((message.origin(), message.text().as_deref(), used), ("27838890001", Ok("hellohello"), 28));
    assert_eq!((message.body(), message.header(), message.place()), (&HELLO[19..], None, None));
    assert_eq!((message.alphabet(), message.length(), message.dcs()), (Alphabet::Gsm7, 10, 0));
    assert_eq!((message.type_of_number(), message.plan()), (4, 8));
    let date = message.stamp().date().unwrap();
    assert_eq!((date.year, date.month, date.day, date.quarters), (2099, 3, 29, 8));
    assert_eq!(Stamp::at(message.stamp().moment().unwrap(), 8), Some(message.stamp()));
}

#[test]
fn tells_its_version() {
    let (major, minor, patch) = sms::version();
    assert_eq!((major, minor < 1000, patch < 1000), (sms::raw::SMS_ABI, true, true));
    assert!(1_000_000 * major + 1000 * minor + patch >= sms::raw::SMS_VERSION);
}

#[test]
fn refuses_each_front_at_its_end() {
    for front in 0..HELLO.len() {
        assert_eq!(Deliver::read(&HELLO[..front]).err(), refused(front, Reason::Short));
    }
    let refused: Box<dyn std::error::Error> = Submit::read(&HELLO).unwrap_err().into();
    assert_eq!(refused.to_string(), "at 0: wrong type");
}

#[test]
fn reads_data_alone() {
    let (data, used) = Data::read(&[0xE8, 0x32, 0x9B, 0xFD, 0x06], 0, false, Standing::Counted(5)).unwrap();
    assert_eq!((data.text().as_deref(), data.count(), used), (Ok("hello"), 5, 5));
    assert_eq!(Data::read(&HELLO[19..], 0, false, Standing::Whole).unwrap().0.text().as_deref(), Ok("hellohello"));
    let octets = *b"\x05\x00\x03\x2A\x02\x01hello";
    let (data, _) = Data::read(&octets, 0, true, Standing::Single).unwrap();
    assert_eq!((data.header(), data.body(), data.text().as_deref()), (Some(&octets[1..6]), &octets[6..], Ok("hello")));
    assert_eq!(data.place(), Some(Place { reference: Reference::Eight(42), maximum: 2, sequence: 1 }));
    assert_eq!((data.alphabet(), data.single(), data.fill(), data.octets()), (Alphabet::Gsm7, true, 0, &octets[..]));
    let (data, _) = Data::read(&[3, 0x24, 1, 1, 0x1B, 0x69], 0, true, Standing::Single).unwrap();
    assert_eq!((data.text().as_deref(), data.language_text().as_deref()), (Ok("i"), Ok("\u{131}")));
    assert_eq!(Data::read(&[1], 4, false, Standing::Whole).unwrap().0.text(), Err(Error::NotThere));
    assert_eq!(Data::read(b"he\x8Clo", 0, false, Standing::Single).err(), refused(2, Reason::BadSeptet));
    assert_eq!(Data::read(&[], 0, false, Standing::Counted(161)).err(), refused(0, Reason::DataTooLong));
}

#[test]
fn writes_a_submission() {
    let fields = SubmitFields::new(Reference::Eight(0), Validity::Relative(170));
    let (unit, segments) = Submit::write(&fields, "+46708251358", "hellohello", 0).unwrap();
    assert_eq!((unit.len(), segments), (23, 1));
    let (message, _) = Submit::read(&unit).unwrap();
    assert_eq!((message.target(), message.text().as_deref()), ("+46708251358", Ok("hellohello")));
    assert_eq!(message.validity().end(1000), Ok(1000 + 4 * 86_400));
    assert_eq!(Submit::write(&fields, "+46708251358", "hellohello", 1), Err(Error::NotThere));
    assert_eq!(Submit::write(&fields, "+12x", "hellohello", 0), Err(Error::BadAddress));
    assert_eq!(Validity::Enhanced([0; 7]).end(0), Err(Error::NotThere));
}

#[test]
fn writes_classes() {
    let septets = [(None, 0x00), (Some(0), 0x10), (Some(1), 0x11), (Some(2), 0x12), (Some(3), 0x13)];
    for (message_class, dcs) in septets {
        let submit = SubmitFields { message_class, ..SubmitFields::new(Reference::Eight(0), Validity::Absent) };
        let (unit, _) = Submit::write(&submit, "+46708251358", "hellohello", 0).unwrap();
        assert_eq!((unit.len(), unit[11]), (22, dcs));
        let deliver = DeliverFields { message_class, ..DeliverFields::new(Reference::Eight(0), STAMP) };
        let (unit, _) = Deliver::write(&deliver, "+46708251358", "\u{44F}", 0).unwrap();
        assert_eq!((unit.len(), unit[10]), (21, dcs | 8));
    }
    for wrong in [4, 255] {
        let fields = SubmitFields { message_class: Some(wrong), ..SubmitFields::new(Reference::Eight(0), Validity::Absent) };
        assert_eq!(Submit::write(&fields, "1", "", 0), Err(Error::OutOfRange));
    }
}

#[test]
fn writes_reports() {
    let stamp = Stamp([0x30, 0x21, 0x72, 0x51, 0x40, 0x90, 0x80]);
    let none = ReportFields::default();
    assert_eq!(Report::write_deliver_ack(&none), Ok(vec![0x00, 0x00]));
    let abc = ReportFields { pid: Some(0), dcs: Some(0), data: Some(b"abc"), length: 3, ..none };
    assert_eq!(Report::write_deliver_ack(&abc), Ok(vec![0x00, 0x07, 0x00, 0x00, 0x03, 0x61, 0x62, 0x63]));
    let octets = ReportFields { pid: Some(0), ..ReportFields::octets(4, &[0x01, 0x02, 0xF0]) };
    let wanted = vec![0x00, 0xC1, 0x07, 0x00, 0x04, 0x03, 0x01, 0x02, 0xF0];
    assert_eq!(Report::write_deliver_error(&octets, 0xC1), Ok(wanted));
    let unit = Report::write_submit_ack(&none, stamp).unwrap();
    assert_eq!(unit, [&[0x01, 0x00][..], &stamp.0].concat());
    let unit = Report::write_submit_error(&ReportFields { pid: Some(0xAA), ..none }, 0xD6, stamp).unwrap();
    assert_eq!(unit, [&[0x01, 0xD6, 0x01][..], &stamp.0, &[0xAA]].concat());
    assert_eq!(Report::write_deliver_ack(&ReportFields::octets(4, &[0; 160])), Err(Error::TooLong));
    assert_eq!(Report::write_deliver_ack(&ReportFields { has_header: true, ..none }), Err(Error::OutOfRange));
    assert_eq!(Report::write_deliver_ack(&ReportFields { length: 2, ..abc }), Err(Error::OutOfRange));
}

#[test]
fn writes_status_reports() {
    let told = [Stamp([0x01, 0x60, 0x12, 0x41, 0x30, 0x34, 0x0A]), Stamp([0x01, 0x60, 0x12, 0x41, 0x30, 0x94, 0x0A])];
    let plain = StatusReportFields { reference: 4, ..StatusReportFields::new(told[0], told[1], 0) };
    let address = [0x0D, 0x91, 0x94, 0x51, 0x52, 0x99, 0x11, 0x36, 0xF0];
    let unit = StatusReport::write(&plain, "+4915259911630").unwrap();
    assert_eq!(unit, [&[0x06, 0x04][..], &address, &told[0].0, &told[1].0, &[0x00]].concat());
    let parts = ReportFields { pid: Some(0x7F), has_header: true, ..ReportFields::octets(4, &[0x01, 0xBB, 0xCC]) };
    let full = StatusReportFields { more: true, looped: true, qualifier: true, status: 0x46, parts, ..plain };
    let unit = StatusReport::write(&full, "+4915259911630").unwrap();
    let last = [0x46, 0x07, 0x7F, 0x04, 0x03, 0x01, 0xBB, 0xCC];
    assert_eq!(unit, [&[0x6A, 0x04][..], &address, &told[0].0, &told[1].0, &last].concat());
    let (report, _) = StatusReport::read(&unit).unwrap();
    assert_eq!((report.more, report.looped, report.qualifier, report.has_header), (true, true, true, true));
    assert_eq!(StatusReport::write(&plain, "+1x"), Err(Error::BadAddress));
}

#[test]
fn writes_data() {
    let submit = SubmitFields { message_reference: 7, ..SubmitFields::new(Reference::Eight(0), Validity::Absent) };
    let address = [0x0B, 0x91, 0x64, 0x07, 0x28, 0x15, 0x53, 0xF8];
    let data = [0x05, 0x00, 0x03, 0x2A, 0x02, 0x01, 0x41];
    let unit = Submit::write_data(&submit, 0x15, true, "+46708251358", &data).unwrap();
    assert_eq!(unit, [&[0x41, 0x07][..], &address, &[0x00, 0x15, 0x07], &data].concat());
    let place = Place { reference: Reference::Eight(0x2A), maximum: 2, sequence: 1 };
    assert_eq!(Submit::read(&unit).unwrap().0.place(), Some(place));
    let deliver = DeliverFields { more: true, ..DeliverFields::new(Reference::Eight(0), STAMP) };
    let unit = Deliver::write_data(&deliver, 4, false, "+46708251358", &[0xAA, 0xBB]).unwrap();
    assert_eq!(unit, [&[0x00][..], &address, &[0x00, 0x04], &STAMP.0, &[0x02, 0xAA, 0xBB]].concat());
    assert_eq!(Deliver::write_data(&deliver, 4, false, "1", &[0; 141]), Err(Error::TooLong));
    assert_eq!(Deliver::write_data(&deliver, 0, false, "1", b"abc"), Err(Error::OutOfRange));
}

#[test]
fn splits_a_text() {
    let (users, dcs) = sms::split(Reference::Eight(7), &"a".repeat(161)).unwrap();
    assert_eq!((users.iter().map(Vec::len).collect::<Vec<_>>(), dcs), (vec![141, 15], 0));
    assert_eq!(users[0][..9], [0xA0, 0x05, 0x00, 0x03, 0x07, 0x02, 0x01, 0xC2, 0xE1]);
    assert_eq!(sms::split(Reference::Eight(7), &"a".repeat(39_016)), Err(Error::TooLong));
}

#[test]
fn splits_a_text_as_data_alone() {
    let text = "a".repeat(161);
    let parts = sms::split_data(Reference::Eight(7), &text, true).unwrap();
    let told: Vec<_> = parts.iter().map(|it| (it.octets.len(), it.dcs, it.has_header, it.length)).collect();
    assert_eq!(told, [(159, 0, true, 160), (14, 0, true, 15)]);
    assert_eq!(parts[1].octets, *b"\x05\x00\x03\x07\x02\x02aaaaaaaa");
    let (users, _) = sms::split(Reference::Eight(7), &text).unwrap();
    let packed = sms::split_data(Reference::Eight(7), &text, false).unwrap();
    assert!(packed.iter().zip(&users).all(|(it, user)| it.octets == user[1..] && it.length == user[0]));
    let parts = sms::split_data(Reference::Eight(7), "\u{41F}", true).unwrap();
    assert_eq!((&parts[0].octets[..], parts[0].dcs, parts[0].has_header, parts[0].length), (&[4, 0x1F][..], 8, false, 2));
    assert_eq!(sms::split_data(Reference::Eight(7), &"a".repeat(39_016), true), Err(Error::TooLong));
}

#[test]
fn joins_data_alone() {
    let text = "a".repeat(161);
    let parts = sms::split_data(Reference::Eight(7), &text, true).unwrap();
    let read = |index: usize| Data::read(&parts[index].octets, parts[index].dcs, true, Standing::Single).unwrap().0;
    let mut joiner = Joiner::open(2, 2).unwrap();
    assert_eq!(joiner.would_finish_data("+1001", &read(1), None), Ok(false));
    assert_eq!(joiner.offer_data(0, "+1001", &read(1), None, false), Ok(Offer::Kept));
    assert_eq!(joiner.offer_data(0, "+1001", &read(1), None, false), Ok(Offer::Repeat));
    assert_eq!(joiner.offer_data(0, "1001", &read(0), None, false), Ok(Offer::Kept));
    assert_eq!(joiner.offer_data(0, "1002", &read(0), None, false), Err(Error::TooManyOpen));
    assert_eq!(joiner.would_finish_data("+1001", &read(0), None), Ok(true));
    assert_eq!(joiner.offer_data(0, "+1001", &read(0), None, false), Ok(Offer::Finished(text)));
    let (bare, _) = Data::read(b"hi", 0, false, Standing::Single).unwrap();
    let hi = || Ok(Offer::Finished("hi".into()));
    assert_eq!([0; 2].map(|at| joiner.offer_data(at, "a name", &bare, None, false)), [hi(), hi()]);
    let stamp = Some(Stamp([0x99, 0x30, 0x92, 0x51, 0x61, 0x95, 0x80]));
    assert_eq!([0; 2].map(|at| joiner.offer_data(at, "a name", &bare, stamp, false)), [hi(), Ok(Offer::Repeat)]);
    let (turkish, _) = Data::read(&[3, 0x24, 1, 1, 0x1B, 0x69], 0, true, Standing::Single).unwrap();
    assert_eq!(joiner.offer_data(0, "1", &turkish, None, true), Ok(Offer::Finished("\u{131}".into())));
    assert_eq!(joiner.offer_data(0, "1", &turkish, None, false), Ok(Offer::Finished("i".into())));
    let (eight, _) = Data::read(b"hi", 4, false, Standing::Whole).unwrap();
    for (origin, data, error) in [("+x", &bare, Error::BadAddress), ("1", &eight, Error::NotThere)] {
        assert_eq!(joiner.offer_data(0, origin, data, None, false), Err(error));
        assert_eq!(joiner.would_finish_data(origin, data, None), Err(error));
    }
    assert_eq!(joiner.text().as_deref(), Ok("i"));
}

#[test]
fn reads_records_of_a_card() {
    let centre = [0x07, 0x91, 0x72, 0x83, 0x01, 0x00, 0x10, 0xF5];
    let octets = [&[3][..], &centre, &HELLO, &[0xFF; 139]].concat();
    let record = Record::read(&octets).unwrap();
    assert_eq!((record.status, record.address), (RecordStatus::Unread, Some(&centre[..])));
    assert_eq!(record.centre().as_deref(), Ok("+27381000015"));
    assert_eq!(record.unit, Some(RecordUnit::Deliver(&HELLO)));
    let (unit, _) = Submit::write(&SubmitFields::new(Reference::Eight(0), Validity::Absent), "1", "hi", 0).unwrap();
    let octets = [&[0x0D, 0][..], &unit, &[0xFF]].concat();
    let record = Record::read(&octets).unwrap();
    assert_eq!((record.status, record.unit), (RecordStatus::SentAwaited, Some(RecordUnit::Submit(&unit))));
    assert_eq!(record.centre(), Err(Error::NotThere));
    let free = Record { status: RecordStatus::Free, address: None, unit: None };
    assert_eq!(Record::read(&[0, 1, 2]), Ok(free));
    let octets = Record::write(RecordStatus::Unread, "+27381000015", &HELLO).unwrap();
    assert_eq!((octets.len(), &octets[..9], &octets[9..37]), (176, &[&[3][..], &centre].concat()[..], &HELLO[..]));
    assert_eq!(Record::read(&octets).unwrap().unit, Some(RecordUnit::Deliver(&HELLO)));
    assert_eq!(Record::write(RecordStatus::Free, "", &HELLO), Err(Error::OutOfRange));
    assert_eq!(Record::write(RecordStatus::Read, "x", &HELLO), Err(Error::BadAddress));
    let wrong = Refused { place: 2, reason: Reason::WrongType };
    assert_eq!(Record::write(RecordStatus::ToBeSent, "", &HELLO), Err(Error::Refused(wrong)));
    let long = [0; 177];
    for (octets, place, reason) in [
        (&[9][..], 0, Reason::BadStatus),
        (&long, 176, Reason::OtherLength),
        (&[3, 12], 1, Reason::BadRelayAddress),
    ] {
        assert_eq!(Record::read(octets), Err(Refused { place, reason }));
    }
    let octets = [&[1, 0][..], &HELLO, &[0]].concat();
    assert_eq!(Record::read(&octets), Err(Refused { place: 30, reason: Reason::NotPadding }));
}

#[test]
fn reads_reports() {
    let (report, used) = Report::read_deliver_ack(&[0x00, 0x07, 0x00, 0x00, 0x03, 0x61, 0x62, 0x63]).unwrap();
    assert_eq!((report.pid, report.data.as_deref(), report.length, used), (Some(0), Some(&b"abc"[..]), 3, 8));
    let (report, _) =
        Report::read_submit_error(&[0x01, 0xD6, 0x00, 0x30, 0x21, 0x72, 0x51, 0x40, 0x90, 0x80]).unwrap();
    assert_eq!((report.cause, report.data), (Some(0xD6), None));
}

#[test]
fn reads_texts_of_reports() {
    let text = |octets: &[u8]| Report::read_deliver_ack(octets).unwrap().0.text();
    let hello = [&[0x00, 0x04, 0x0A][..], &HELLO[19..]].concat();
    assert_eq!(text(&hello).as_deref(), Ok("hellohello"));
    assert_eq!(text(&[0x00, 0x06, 0x08, 0x02, 0x04, 0x4F]).as_deref(), Ok("\u{44F}"));
    let headed = [0x40, 0x04, 0x09, 0x05, 0x00, 0x03, 0x2A, 0x01, 0x01, 0xD0, 0x69];
    assert_eq!(text(&headed).as_deref(), Ok("hi"));
    assert_eq!(text(&[0x00, 0x06, 0x04, 0x02, 0x04, 0x4F]), Err(Error::NotThere));
    assert_eq!(text(&[0x00, 0x00]), Err(Error::NotThere));
    assert_eq!(text(&[0x40, 0x06, 0x08, 0x02, 0x09, 0x0A]), Err(Error::NotThere));
    let mut told = [&[0x06, 0x2A, 0x0B, 0x91, 0x72, 0x38, 0x88, 0x09, 0x00, 0xF1][..], &STAMP.0, &STAMP.0, &[0x00]].concat();
    assert_eq!(StatusReport::read(&told).unwrap().0.text(), Err(Error::NotThere));
    told.extend([0x04, 0x0A]);
    told.extend(&HELLO[19..]);
    assert_eq!(StatusReport::read(&told).unwrap().0.text().as_deref(), Ok("hellohello"));
}

#[test]
fn reads_status_reports() {
    let plain = [
        0x06, 0x04, 0x0D, 0x91, 0x94, 0x51, 0x52, 0x99, 0x11, 0x36, 0xF0, 0x01, 0x60, 0x12, 0x41, 0x30, 0x34, 0x0A, 0x01, 0x60,
        0x12, 0x41, 0x30, 0x94, 0x0A, 0x00,
    ];
    let (report, used) = StatusReport::read(&plain).unwrap();
    assert_eq!((report.recipient.as_str(), report.type_of_number, report.plan), ("+4915259911630", 1, 1));
    assert_eq!((report.reference, report.status, used), (4, 0, 26));
    assert_eq!((report.more, report.looped, report.qualifier, report.has_header), (false, false, false, false));
    assert_eq!((report.pid, report.dcs, report.data), (None, None, None));
    assert_eq!(report.stamp.0, plain[11..18]);
    let date = report.discharged.date().unwrap();
    assert_eq!((date.year, date.month, date.day, date.second, date.quarters), (2010, 6, 21, 49, -20));
    let full = [
        0xFA, 0x07, 0x02, 0x81, 0x21, 0x99, 0x30, 0x92, 0x51, 0x61, 0x95, 0x80, 0x99, 0x30, 0x92, 0x51, 0x61, 0x95, 0x80, 0x46,
        0x87, 0x00, 0x7F, 0x04, 0x02, 0xAA, 0xBB,
    ];
    let (report, used) = StatusReport::read(&full).unwrap();
    assert_eq!((report.more, report.looped, report.qualifier, report.has_header), (true, true, true, true));
    assert_eq!((report.status, report.pid, report.dcs, used), (0x46, Some(0x7F), Some(4), 27));
    assert_eq!((report.data.as_deref(), report.length), (Some(&[0xAA, 0xBB][..]), 2));
    assert_eq!(report.alphabet, Alphabet::EightBit);
    assert_eq!(StatusReport::read(&full[..19]).err(), refused(19, Reason::Short));
}

#[test]
fn reads_commands() {
    let octets = [0xFE, 0x08, 0x41, 0x00, 0x06, 0x02, 0x81, 0x21, 0x03, 0xAA, 0xBB, 0xCC, 0x00];
    let (command, used) = Command::read(&octets).unwrap();
    assert_eq!((command.target.as_str(), command.type_of_number, command.plan), ("12", 0, 1));
    assert_eq!((command.reference, command.pid, command.kind, command.message), (8, 0x41, 0, 6));
    assert_eq!((command.has_header, command.report, used), (true, true, 12));
    assert_eq!((command.data.as_slice(), command.header), (&[0xAA, 0xBB, 0xCC][..], None));
    let headed = [0xFE, 0x08, 0x41, 0x00, 0x06, 0x02, 0x81, 0x21, 0x03, 0x02, 0xBB, 0xCC];
    assert_eq!(Command::read(&headed).unwrap().0.header.as_deref(), Some(&[0xBB, 0xCC][..]));
    let beyond = [0x02, 0x07, 0x00, 0x02, 0x05, 0x02, 0x81, 0x21, 0x9E];
    assert_eq!(Command::read(&beyond).err(), refused(8, Reason::DataTooLong));
}

#[test]
fn wraps_and_reads_packets() {
    let envelope = Envelope { flag: false, value: 3, to_phone: true, reference: 9 };
    let packet = envelope.wrap("+1234", &HELLO).unwrap();
    let (cp, used) = Cp::read(&packet).unwrap();
    assert_eq!((cp.flag, cp.value, used), (false, 3, packet.len()));
    let user = match cp.body {
        CpBody::Data(user) => user,
        other => panic!("{other:?}"),
    };
    let (rp, _) = Rp::read(user).unwrap();
    assert_eq!((rp.to_phone, rp.reference), (true, 9));
    assert_eq!(rp.body, RpBody::Data { address: Some(&[0x03, 0x91, 0x21, 0x43]), user: &HELLO });
    assert_eq!(rp.centre().as_deref(), Ok("+1234"));
    let spoilt = Rp { body: RpBody::Data { address: Some(&[0x02, 0x91, 0x7F]), user: &[] }, ..rp };
    assert_eq!(spoilt.centre(), Err(Error::BadAddress));
    let packet = envelope.wrap_error(22, &[]).unwrap();
    let user = match Cp::read(&packet).unwrap().0.body {
        CpBody::Data(user) => user,
        other => panic!("{other:?}"),
    };
    assert_eq!(Rp::read(user).unwrap().0.body, RpBody::Error { cause: 22, diagnostic: None, user: None });
    assert_eq!(Rp::read(user).unwrap().0.centre(), Err(Error::NotThere));
    assert_eq!(Cp::read(&envelope.cp_ack().unwrap()).unwrap().0.body, CpBody::Ack);
    assert_eq!(Cp::read(&envelope.cp_error(97).unwrap()).unwrap().0.body, CpBody::Error(97));
    assert_eq!(envelope.wrap("", &[0; 234]), Err(Error::TooLong));
}

#[test]
fn joins_in_any_order_once() {
    let fields = DeliverFields::new(Reference::Sixteen(4242), STAMP);
    let units: Vec<_> = (0..2).map(|i| Deliver::write(&fields, "+46708251358", &long(), i).unwrap().0).collect();
    let place = Place { reference: Reference::Sixteen(4242), maximum: 2, sequence: 2 };
    assert_eq!(Deliver::read(&units[1]).unwrap().0.place(), Some(place));
    let mut joiner = Joiner::open(1, 4).unwrap();
    assert_eq!(joiner.offer(0, &units[1]), Ok(Offer::Kept));
    assert_eq!(joiner.offer(0, &units[1]), Ok(Offer::Repeat));
    assert_eq!((joiner.would_finish(&units[0]), joiner.would_finish(&units[1])), (Ok(true), Ok(false)));
    let other = DeliverFields::new(Reference::Sixteen(1), STAMP);
    let (other, _) = Deliver::write(&other, "+46708251358", &long(), 0).unwrap();
    assert_eq!(joiner.offer(0, &other), Err(Error::TooManyOpen));
    assert_eq!(joiner.offer(1, &units[0]), Ok(Offer::Finished(long())));
    assert_eq!((joiner.offer(1, &units[0]), joiner.text()), (Ok(Offer::Repeat), Ok(long())));
    assert_eq!(joiner.offer(1, &other[..3]).err(), refused(3, Reason::Short));
    assert_eq!(Joiner::open(0, 1).err(), Some(Error::OutOfRange));
    assert_eq!(Joiner::open_seeded(1, 0, 7).err(), Some(Error::OutOfRange));
}

#[test]
fn tells_what_is_open() {
    let text = "a".repeat(11 * 153);
    let unit = |reference, origin, index| {
        Deliver::write(&DeliverFields::new(reference, STAMP), origin, &text, index).unwrap().0
    };
    let mut joiner = Joiner::open_seeded(4, 4, u128::MAX - 1).unwrap();
    assert_eq!((joiner.open_count(), joiner.open_messages().next()), (0, None));
    for (seconds, unit) in [
        (7, unit(Reference::Eight(200), "+12345", 10)),
        (5, unit(Reference::Sixteen(40000), "Carrier", 0)),
        (9, unit(Reference::Eight(200), "+12345", 7)),
    ] {
        assert_eq!(joiner.offer(seconds, &unit), Ok(Offer::Kept));
    }
    let told: Vec<_> = joiner.open_messages().map(Result::unwrap).collect();
    assert_eq!(joiner.open_sets().map(Result::unwrap).collect::<Vec<_>>(), told);
    let (first, second) = (&told[0], &told[1]);
    assert_eq!((told.len(), joiner.open_count()), (2, 2));
    assert_eq!((first.origin.as_str(), first.type_of_number, first.plan), ("+12345", 1, 1));
    assert_eq!((first.width, first.reference, first.maximum, first.seconds), (8, 200, 11, 7));
    assert_eq!((first.sequences().collect(), first.has(11), first.has(10)), (vec![8, 11], true, false));
    assert_eq!(first.missing().collect::<Vec<_>>(), [1, 2, 3, 4, 5, 6, 7, 9, 10]);
    assert_eq!((second.origin.as_str(), second.width, second.reference), ("Carrier", 16, 40000));
    assert_eq!((second.sequences().collect(), second.maximum, second.seconds), (vec![1], 12, 5));
    assert!(first.opening < second.opening);
    joiner.age(7 + 604_800);
    assert_eq!(joiner.open_messages().next(), None);
}

#[test]
fn goes_to_another_thread() {
    let fields = DeliverFields::new(Reference::Eight(1), STAMP);
    let mut joiner = Joiner::open(4, 4).unwrap();
    let (first, _) = Deliver::write(&fields, "1", &long(), 0).unwrap();
    assert_eq!(joiner.offer(0, &first), Ok(Offer::Kept));
    let (second, _) = Deliver::write(&fields, "1", &long(), 1).unwrap();
    let told = std::thread::spawn(move || joiner.offer(0, &second)).join().unwrap();
    assert_eq!(told, Ok(Offer::Finished(long())));
}

#[test]
fn is_shared_in_a_mutex() {
    let joiner = Mutex::new(Joiner::open(8, 64).unwrap());
    std::thread::scope(|scope| {
        for thread in 0..8 {
            let joiner = &joiner;
            scope.spawn(move || {
                let text = format!("{thread}: {}", long());
                let fields = DeliverFields::new(Reference::Eight(thread), STAMP);
                let told = [0, 1].map(|index| {
                    let (unit, _) = Deliver::write(&fields, "1", &text, index).unwrap();
                    joiner.lock().unwrap().offer(0, &unit)
                });
                assert_eq!(told, [Ok(Offer::Kept), Ok(Offer::Finished(text))]);
            });
        }
    });
}

#[test]
fn data_without_a_text_finish_nothing() {
    let mut joiner = Joiner::open(1, 1).unwrap();
    for scheme in [0x04, 0x20, 0xF4] {
        let unit = [&HELLO[..10], &[scheme], &HELLO[11..18], &[0x03, 0xAA, 0xBB, 0xCC]].concat();
        assert_eq!(joiner.would_finish(&unit), Err(Error::NotThere));
        assert_eq!(joiner.offer(0, &unit), Err(Error::NotThere));
    }
}
