//! A gateway's joiner: recipients apart, ages, messages in one piece, and what is refused.

use sms::{
    Data, Deliver, DeliverFields, Error, Gateway, GatewayLimits, Offer, Reason, Reference, Refused, Stamp, Standing,
};

const STAMP: Stamp = Stamp([0x99, 0x30, 0x92, 0x51, 0x61, 0x95, 0x80]);

fn long(letter: &str) -> String {
    letter.repeat(200)
}

fn unit(letter: &str, reference: u8, index: usize) -> Vec<u8> {
    let fields = DeliverFields::new(Reference::Eight(reference), STAMP);
    Deliver::write(&fields, "+9", &long(letter), index).unwrap().0
}

#[test]
fn keeps_recipients_apart() {
    let mut gateway = Gateway::open(&GatewayLimits::new(3, 4)).unwrap();
    let (one, other) = (Some("+1001"), Some("Hotel"));
    assert_eq!(gateway.offer(5, one, &unit("a", 7, 0)), Ok(Offer::Kept));
    assert_eq!(gateway.offer(5, other, &unit("b", 7, 0)), Ok(Offer::Kept));
    assert_eq!(gateway.offer(5, other, &unit("b", 7, 0)), Ok(Offer::Repeat));
    assert_eq!(gateway.would_finish(one, &unit("a", 7, 1)), Ok(true));
    assert_eq!(gateway.would_finish(None, &unit("a", 7, 1)), Ok(false));
    assert_eq!(gateway.offer(6, None, &unit("c", 7, 1)), Ok(Offer::Kept));
    assert_eq!(gateway.offer(6, Some("+1003"), &unit("c", 7, 1)), Err(Error::TooManyOpen));
    assert_eq!(gateway.offer(6, one, &unit("a", 7, 1)), Ok(Offer::Finished(long("a"))));
    assert_eq!(gateway.offer(6, other, &unit("b", 7, 1)), Ok(Offer::Finished(long("b"))));
    assert_eq!((gateway.text(), gateway.open_count()), (Ok(long("b")), 1));
    assert_eq!(gateway.offer(7, None, &unit("c", 7, 0)), Ok(Offer::Finished(long("c"))));
    assert_eq!(gateway.offer(7, one, &unit("a", 7, 1)), Ok(Offer::Repeat));
}

#[test]
fn takes_data_alone() {
    let mut limits = GatewayLimits::new(4, 4);
    for (passes, again) in [(false, Offer::Repeat), (true, Offer::Finished("hello".into()))] {
        limits.pass_alone = passes;
        let mut gateway = Gateway::open(&limits).unwrap();
        let (data, _) = Data::read(b"hello", 0, false, Standing::Single).unwrap();
        let hello = || Ok(Offer::Finished("hello".into()));
        assert_eq!(gateway.would_finish_data(Some("+1"), "+9", &data, Some(STAMP)), Ok(true));
        assert_eq!(gateway.offer_data(0, Some("+1"), "+9", &data, Some(STAMP), false), hello());
        assert_eq!(gateway.offer_data(0, Some("+1"), "+9", &data, Some(STAMP), false), Ok(again));
        assert_eq!(gateway.offer_data(0, Some("+2"), "+9", &data, Some(STAMP), false), hello());
        assert_eq!(gateway.offer_data(0, None, "+9", &data, None, false), hello());
        assert_eq!(gateway.offer_data(0, Some("+x"), "+9", &data, None, false), Err(Error::BadAddress));
        assert_eq!(gateway.would_finish_data(None, "+x", &data, None), Err(Error::BadAddress));
    }
}

#[test]
fn ages() {
    let mut limits = GatewayLimits::new(4, 4);
    (limits.open_for, limits.remember_for, limits.seed) = (100, Some(50), Some(u128::MAX));
    let mut gateway = Gateway::open(&limits).unwrap();
    assert_eq!(gateway.offer(0, Some("+1"), &unit("a", 7, 0)), Ok(Offer::Kept));
    assert_eq!(gateway.offer(0, Some("+1"), &unit("a", 7, 1)), Ok(Offer::Finished(long("a"))));
    gateway.age(49);
    assert_eq!(gateway.offer(49, Some("+1"), &unit("a", 7, 1)), Ok(Offer::Repeat));
    gateway.age(50);
    assert_eq!(gateway.offer(50, Some("+1"), &unit("a", 7, 1)), Ok(Offer::Kept));
    gateway.age(149);
    assert_eq!(gateway.open_count(), 1);
    gateway.age(150);
    assert_eq!(gateway.open_count(), 0);
}

#[test]
fn refuses_limits_that_cannot_be() {
    for (open_max, remembered) in [(0, 1), (1, 0)] {
        assert_eq!(Gateway::open(&GatewayLimits::new(open_max, remembered)).err(), Some(Error::OutOfRange));
    }
    let mut limits = GatewayLimits::new(1, 1);
    limits.remember_for = Some(0);
    assert_eq!(Gateway::open(&limits).err(), Some(Error::OutOfRange));
    assert_eq!(Gateway::open(&GatewayLimits::new(1, usize::MAX)).err(), Some(Error::NoMemory));
}

#[test]
fn is_saved_and_read_back() {
    let mut limits = GatewayLimits::new(4, 4);
    (limits.open_for, limits.remember_for) = (100, Some(50));
    let mut gateway = Gateway::open(&limits).unwrap();
    assert_eq!(gateway.offer(5, Some("Hotel"), &unit("b", 8, 0)), Ok(Offer::Kept));
    assert_eq!(gateway.offer(6, Some("Hotel"), &unit("b", 8, 1)), Ok(Offer::Finished(long("b"))));
    assert_eq!(gateway.offer(7, Some("+1001"), &unit("a", 7, 0)), Ok(Offer::Kept));
    let octets = gateway.save(u64::MAX).unwrap();
    assert_eq!((&octets[..9], gateway.text(), gateway.open_count()), (b"SMSSTATE\x01".as_slice(), Ok(long("b")), 1));
    limits.seed = Some(5);
    let (mut gateway, taken) = Gateway::read(&limits, &octets).unwrap();
    assert_eq!((taken, gateway.text(), gateway.open_count()), (u64::MAX, Ok(String::new()), 1));
    assert_eq!(gateway.offer(8, Some("Hotel"), &unit("b", 8, 0)), Ok(Offer::Repeat));
    let told: Vec<_> = gateway.open_messages().map(Result::unwrap).collect();
    assert_eq!((told[0].recipient.as_deref(), told[0].message.seconds), (Some("+1001"), 7));
    assert_eq!(gateway.offer(8, Some("+1001"), &unit("a", 7, 1)), Ok(Offer::Finished(long("a"))));
    gateway.age(56);
    assert_eq!(gateway.offer(56, Some("Hotel"), &unit("b", 8, 0)), Ok(Offer::Kept));
}

#[test]
fn refuses_what_is_no_state() {
    let limits = GatewayLimits::new(4, 4);
    let octets = Gateway::open(&limits).unwrap().save(3).unwrap();
    let read = |limits: &GatewayLimits, octets: &[u8]| Gateway::read(limits, octets).err();
    let refused = |place, reason| Some(Error::Refused(Refused { place, reason }));
    assert_eq!(read(&limits, b""), refused(0, Reason::NoState));
    assert_eq!(read(&limits, b"SMSSTATE\x02"), refused(8, Reason::Newer));
    assert_eq!(read(&GatewayLimits::new(4, 5), &octets), refused(9, Reason::OtherLimits));
    assert_eq!(read(&limits, &octets[..40]), refused(35, Reason::Short));
    assert_eq!(read(&limits, &[octets.as_slice(), &[0]].concat()), refused(67, Reason::Trailing));
    assert_eq!(read(&limits, &[&octets[..98], &[octets[98] ^ 1]].concat()), refused(67, Reason::BadChecksum));
    assert_eq!(read(&GatewayLimits::new(0, 4), &octets), Some(Error::OutOfRange));
    let mut limits = limits;
    limits.remember_for = Some(0);
    assert_eq!(read(&limits, &octets), Some(Error::OutOfRange));
}

#[test]
fn tells_what_is_open() {
    let mut gateway = Gateway::open(&GatewayLimits::new(4, 4)).unwrap();
    assert_eq!(gateway.offer(7, Some("Hotel"), &unit("a", 11, 1)), Ok(Offer::Kept));
    assert_eq!(gateway.offer(5, None, &unit("a", 11, 0)), Ok(Offer::Kept));
    let told: Vec<_> = gateway.open_messages().map(Result::unwrap).collect();
    let (first, second) = (&told[0], &told[1]);
    assert_eq!((told.len(), first.recipient.as_deref(), second.recipient.as_deref()), (2, Some("Hotel"), None));
    assert_eq!((first.message.origin.as_str(), first.message.reference, first.message.seconds), ("+9", 11, 7));
    assert_eq!((first.message.sequences().collect(), second.message.seconds), (vec![2], 5));
    let told = std::thread::spawn(move || gateway.offer(8, None, &unit("a", 11, 1))).join().unwrap();
    assert_eq!(told, Ok(Offer::Finished(long("a"))));
}
