//! Short messages (3GPP TS 23.038, 23.040, 24.011): a proved codec and joiner.
//!
//! ```no_run
//! # fn main() -> Result<(), Box<dyn std::error::Error>> {
//! # let (first, second, octets) = ([0u8; 0], [0u8; 0], [0u8; 0]);
//! let (message, used) = sms::Deliver::read(&octets)?;
//! println!("{}: {} ({used} octets)", message.origin(), message.text()?);
//!
//! let mut joiner = sms::Joiner::open(1024, 4096)?;
//! for segment in [&first, &second] {
//!     if let sms::Offer::Finished(text) = joiner.offer(0, segment)? {
//!         println!("{text}");
//!     }
//! }
//! # Ok(())
//! # }
//! ```
//!
//! Moments are seconds from 2000-01-01 00:00:00 UTC ([`unix_of`] and [`seconds_of_unix`] go between them and Unix time).

use std::collections::hash_map::RandomState;
use std::error;
use std::fmt;
use std::hash::{BuildHasher, Hasher};
use std::iter::FusedIterator;

mod gateway;
pub mod raw;

pub use gateway::{Gateway, GatewayLimits, GatewayMessage, GatewayMessages};

/// Seconds from the beginning of Unix time to that of 2000.
pub const UNIX_OF_2000: u64 = 946_684_800;

/// Unix time of seconds from the beginning of 2000.
pub fn unix_of(seconds: u64) -> Option<u64> {
    seconds.checked_add(UNIX_OF_2000)
}

/// Seconds from the beginning of 2000 of Unix time, where it does not lie before.
pub fn seconds_of_unix(unix: u64) -> Option<u64> {
    unix.checked_sub(UNIX_OF_2000)
}

/// The version of the library that is loaded: its first number is that of the interface, which is checked at no other
/// time. The crate is for [`raw::SMS_ABI`].
pub fn version() -> (u32, u32, u32) {
    // SAFETY: it takes nothing.
    let number = unsafe { raw::sms_version() };
    (number / 1_000_000, number / 1000 % 1000, number % 1000)
}

// ---- what is refused

/// Why octets are refused.
#[derive(Clone, Copy, Debug, PartialEq, Eq, Hash)]
#[non_exhaustive]
pub enum Reason {
    Short,
    WrongType,
    AddressTooLong,
    BadDigit,
    DataTooLong,
    HeaderTooLong,
    NotSms,
    BadTransaction,
    UnknownType,
    BadRelayAddress,
    BadCause,
    BadSeptet,
    BadStatus,
    NotPadding,
    OtherLength,
    NoState,
    Newer,
    BadFlag,
    OtherLimits,
    TooMany,
    NotOpen,
    OutOfOrder,
    Repeated,
    Trailing,
    BadChecksum,
    BadKey,
    MomentsFall,
    /// A number that this crate has no name for.
    Other(u32),
}

impl Reason {
    fn of(number: u32) -> Reason {
        match number {
            raw::SMS_SHORT => Reason::Short,
            raw::SMS_WRONG_TYPE => Reason::WrongType,
            raw::SMS_ADDRESS_TOO_LONG => Reason::AddressTooLong,
            raw::SMS_BAD_DIGIT => Reason::BadDigit,
            raw::SMS_DATA_TOO_LONG => Reason::DataTooLong,
            raw::SMS_HEADER_TOO_LONG => Reason::HeaderTooLong,
            raw::SMS_NOT_SMS => Reason::NotSms,
            raw::SMS_BAD_TRANSACTION => Reason::BadTransaction,
            raw::SMS_UNKNOWN_TYPE => Reason::UnknownType,
            raw::SMS_BAD_RELAY_ADDRESS => Reason::BadRelayAddress,
            raw::SMS_BAD_CAUSE => Reason::BadCause,
            raw::SMS_BAD_SEPTET => Reason::BadSeptet,
            raw::SMS_BAD_STATUS => Reason::BadStatus,
            raw::SMS_NOT_PADDING => Reason::NotPadding,
            raw::SMS_OTHER_LENGTH => Reason::OtherLength,
            raw::SMS_NO_STATE => Reason::NoState,
            raw::SMS_NEWER => Reason::Newer,
            raw::SMS_BAD_FLAG => Reason::BadFlag,
            raw::SMS_OTHER_LIMITS => Reason::OtherLimits,
            raw::SMS_TOO_MANY => Reason::TooMany,
            raw::SMS_NOT_OPEN => Reason::NotOpen,
            raw::SMS_OUT_OF_ORDER => Reason::OutOfOrder,
            raw::SMS_REPEATED => Reason::Repeated,
            raw::SMS_TRAILING => Reason::Trailing,
            raw::SMS_BAD_CHECKSUM => Reason::BadChecksum,
            raw::SMS_BAD_KEY => Reason::BadKey,
            raw::SMS_MOMENTS_FALL => Reason::MomentsFall,
            other => Reason::Other(other),
        }
    }
}

impl fmt::Display for Reason {
    fn fmt(&self, f: &mut fmt::Formatter<'_>) -> fmt::Result {
        f.write_str(match self {
            Reason::Short => "short",
            Reason::WrongType => "wrong type",
            Reason::AddressTooLong => "address too long",
            Reason::BadDigit => "bad digit",
            Reason::DataTooLong => "data too long",
            Reason::HeaderTooLong => "header too long",
            Reason::NotSms => "not sms",
            Reason::BadTransaction => "bad transaction",
            Reason::UnknownType => "unknown type",
            Reason::BadRelayAddress => "bad address",
            Reason::BadCause => "bad cause",
            Reason::BadSeptet => "bad septet",
            Reason::BadStatus => "bad status",
            Reason::NotPadding => "not padding",
            Reason::OtherLength => "other length",
            Reason::NoState => "no state",
            Reason::Newer => "newer",
            Reason::BadFlag => "bad flag",
            Reason::OtherLimits => "other limits",
            Reason::TooMany => "too many",
            Reason::NotOpen => "not open",
            Reason::OutOfOrder => "out of order",
            Reason::Repeated => "repeated",
            Reason::Trailing => "trailing",
            Reason::BadChecksum => "bad checksum",
            Reason::BadKey => "bad key",
            Reason::MomentsFall => "moments fall",
            Reason::Other(number) => return write!(f, "reason {number}"),
        })
    }
}

/// Octets are refused: the place is the first octet that cannot stand where it does, from 0, or the number of octets
/// where some are missing at the end ([`Reason::Short`]). Of a saved state it is the first octet of what is wrong, or
/// passes the end.
#[derive(Clone, Copy, Debug, PartialEq, Eq, Hash)]
pub struct Refused {
    pub place: usize,
    pub reason: Reason,
}

impl Refused {
    fn of(told: raw::Refused) -> Refused {
        Refused { place: told.place, reason: Reason::of(told.reason) }
    }
}

impl fmt::Display for Refused {
    fn fmt(&self, f: &mut fmt::Formatter<'_>) -> fmt::Result {
        write!(f, "at {}: {}", self.place, self.reason)
    }
}

impl error::Error for Refused {}

/// Why a call did not do what it is for.
#[derive(Clone, Copy, Debug, PartialEq, Eq, Hash)]
#[non_exhaustive]
pub enum Error {
    Refused(Refused),
    NoMemory,
    NotUtf8,
    BadAddress,
    /// More than 255 segments, or more than a packet carries.
    TooLong,
    /// A value is none of those that may be given.
    OutOfRange,
    /// There is no such text, moment or end.
    NotThere,
    /// As many messages are open as may be; the joiner is as it was.
    TooManyOpen,
    /// A status that this crate has no name for.
    Other(u32),
}

impl Error {
    fn of(status: u32, refused: raw::Refused) -> Error {
        match status {
            raw::SMS_REFUSED => Error::Refused(Refused::of(refused)),
            raw::SMS_NO_MEMORY => Error::NoMemory,
            raw::SMS_NOT_UTF8 => Error::NotUtf8,
            raw::SMS_BAD_ADDRESS => Error::BadAddress,
            raw::SMS_TOO_LONG => Error::TooLong,
            raw::SMS_OUT_OF_RANGE => Error::OutOfRange,
            raw::SMS_NOT_THERE => Error::NotThere,
            raw::SMS_TOO_MANY_OPEN => Error::TooManyOpen,
            other => Error::Other(other),
        }
    }
}

impl fmt::Display for Error {
    fn fmt(&self, f: &mut fmt::Formatter<'_>) -> fmt::Result {
        match self {
            Error::Refused(refused) => refused.fmt(f),
            Error::NoMemory => f.write_str("out of memory"),
            Error::NotUtf8 => f.write_str("not UTF-8"),
            Error::BadAddress => f.write_str("bad address"),
            Error::TooLong => f.write_str("too long"),
            Error::OutOfRange => f.write_str("out of range"),
            Error::NotThere => f.write_str("not there"),
            Error::TooManyOpen => f.write_str("too many open"),
            Error::Other(status) => write!(f, "status {status}"),
        }
    }
}

impl error::Error for Error {}

impl From<Refused> for Error {
    fn from(refused: Refused) -> Error {
        Error::Refused(refused)
    }
}

type Reader<T> = unsafe extern "C" fn(*const u8, usize, *mut T, *mut raw::Refused) -> u32;

/// What a reader sees at the front of octets.
fn read<T: Default>(call: Reader<T>, octets: &[u8]) -> Result<T, Refused> {
    let (mut seen, mut refused) = (T::default(), raw::Refused::default());
    // SAFETY: the octets are as many as counted; the structs are ours, and of the call's types.
    match unsafe { call(octets.as_ptr(), octets.len(), &mut seen, &mut refused) } {
        raw::SMS_OK => Ok(seen),
        _ => Err(Refused::of(refused)),
    }
}

/// What a call of the form (.., out, room, needed) writes, with room made where it wants more.
fn answer(room: usize, mut call: impl FnMut(*mut u8, usize, *mut usize) -> u32) -> Result<Vec<u8>, Error> {
    let mut out = Vec::new();
    grow(&mut out, room)?;
    loop {
        let mut needed = 0;
        match call(out.as_mut_ptr(), out.len(), &mut needed) {
            raw::SMS_OK => {
                out.truncate(needed);
                return Ok(out);
            }
            raw::SMS_NO_ROOM if needed > out.len() => grow(&mut out, needed)?,
            // No call of this form reads a unit: what it may refuse is an address.
            raw::SMS_REFUSED => return Err(Error::BadAddress),
            status => return Err(Error::of(status, raw::Refused::default())),
        }
    }
}

/// Makes so many octets of it.
fn grow(out: &mut Vec<u8>, length: usize) -> Result<(), Error> {
    reserve(out, length.saturating_sub(out.len()))?;
    out.resize(length, 0);
    Ok(())
}

fn reserve<T>(out: &mut Vec<T>, more: usize) -> Result<(), Error> {
    out.try_reserve_exact(more).map_err(|_| Error::NoMemory)
}

fn copied(octets: &[u8]) -> Result<Vec<u8>, Error> {
    let mut own = Vec::new();
    reserve(&mut own, octets.len())?;
    own.extend_from_slice(octets);
    Ok(own)
}

/// The octets of a span; it lies in them, as it was seen there.
fn at(octets: &[u8], span: raw::Span) -> &[u8] {
    &octets[span.offset..][..span.length]
}

/// The library writes nothing but UTF-8.
fn text_of(octets: Vec<u8>) -> Result<String, Error> {
    String::from_utf8(octets).map_err(|_| Error::NotUtf8)
}

// ---- parts

/// How user data are spelled.
#[derive(Clone, Copy, Debug, PartialEq, Eq, Hash)]
pub enum Alphabet {
    Gsm7,
    EightBit,
    Ucs2,
    Compressed,
}

impl Alphabet {
    fn of(number: u8) -> Alphabet {
        match number {
            raw::SMS_GSM7 => Alphabet::Gsm7,
            raw::SMS_EIGHT_BIT => Alphabet::EightBit,
            raw::SMS_UCS2 => Alphabet::Ucs2,
            _ => Alphabet::Compressed,
        }
    }

    fn number(self) -> u8 {
        match self {
            Alphabet::Gsm7 => raw::SMS_GSM7,
            Alphabet::EightBit => raw::SMS_EIGHT_BIT,
            Alphabet::Ucs2 => raw::SMS_UCS2,
            Alphabet::Compressed => raw::SMS_COMPRESSED,
        }
    }
}

/// A reference that the segments of a message share: of 8 bits (information element 00), or of 16 (08).
#[derive(Clone, Copy, Debug, PartialEq, Eq, Hash)]
pub enum Reference {
    Eight(u8),
    Sixteen(u16),
}

impl Reference {
    fn raw(self) -> raw::Reference {
        match self {
            Reference::Eight(reference) => raw::Reference { width: 8, reference: u16::from(reference) },
            Reference::Sixteen(reference) => raw::Reference { width: 16, reference },
        }
    }
}

/// A segment's place in its message; the sequence is 1 to the maximum.
#[derive(Clone, Copy, Debug, PartialEq, Eq, Hash)]
pub struct Place {
    pub reference: Reference,
    pub maximum: u8,
    pub sequence: u8,
}

impl Place {
    fn of(place: raw::Place) -> Option<Place> {
        let reference = match place.width {
            8 => Reference::Eight(place.reference as u8),
            16 => Reference::Sixteen(place.reference),
            _ => return None,
        };
        Some(Place { reference, maximum: place.maximum, sequence: place.sequence })
    }
}

/// A local date and time, and its zone in quarters of an hour east of UTC.
pub type Date = raw::Date;

/// TP-SCTS: seven octets, as they came, which need not be a date.
#[derive(Clone, Copy, Debug, PartialEq, Eq, Hash)]
pub struct Stamp(pub [u8; 7]);

impl Stamp {
    fn raw(self) -> raw::Stamp {
        raw::Stamp { octets: self.0 }
    }

    /// The date that the octets say; none where they say none.
    pub fn date(self) -> Option<Date> {
        let (stamp, mut date) = (self.raw(), raw::Date::default());
        // SAFETY: both are ours.
        (unsafe { raw::sms_stamp_date(&stamp, &mut date) } == raw::SMS_OK).then_some(date)
    }

    /// The moment; none where the octets are no date, or lie before 2000.
    pub fn moment(self) -> Option<u64> {
        let (stamp, mut seconds) = (self.raw(), 0);
        // SAFETY: both are ours.
        (unsafe { raw::sms_stamp_moment(&stamp, &mut seconds) } == raw::SMS_OK).then_some(seconds)
    }

    /// The stamp of a moment in a zone, given in quarters of an hour, -79 to 79.
    pub fn at(seconds: u64, quarters: i8) -> Option<Stamp> {
        let mut stamp = raw::Stamp::default();
        // SAFETY: it is ours.
        (unsafe { raw::sms_stamp_at(seconds, quarters, &mut stamp) } == raw::SMS_OK).then_some(Stamp(stamp.octets))
    }
}

/// TP-VP: how long a centre keeps a message that it cannot deliver.
#[derive(Clone, Copy, Debug, PartialEq, Eq, Hash)]
pub enum Validity {
    Absent,
    Relative(u8),
    Enhanced([u8; 7]),
    Absolute(Stamp),
}

impl Validity {
    fn raw(self) -> raw::Validity {
        match self {
            Validity::Absent => raw::Validity { format: raw::SMS_VALIDITY_ABSENT, octets: [0; 7] },
            Validity::Relative(octet) => {
                raw::Validity { format: raw::SMS_VALIDITY_RELATIVE, octets: [octet, 0, 0, 0, 0, 0, 0] }
            }
            Validity::Enhanced(octets) => raw::Validity { format: raw::SMS_VALIDITY_ENHANCED, octets },
            Validity::Absolute(stamp) => raw::Validity { format: raw::SMS_VALIDITY_ABSOLUTE, octets: stamp.0 },
        }
    }

    fn of(validity: raw::Validity) -> Validity {
        match validity.format {
            raw::SMS_VALIDITY_ABSENT => Validity::Absent,
            raw::SMS_VALIDITY_RELATIVE => Validity::Relative(validity.octets[0]),
            raw::SMS_VALIDITY_ENHANCED => Validity::Enhanced(validity.octets),
            _ => Validity::Absolute(Stamp(validity.octets)),
        }
    }

    /// When it ends, of a message that was accepted at a moment below 2^63.
    pub fn end(self, accepted: u64) -> Result<u64, Error> {
        let (validity, mut seconds) = (self.raw(), 0);
        // SAFETY: both are ours.
        match unsafe { raw::sms_validity_end(&validity, accepted, &mut seconds) } {
            raw::SMS_OK => Ok(seconds),
            status => Err(Error::of(status, raw::Refused::default())),
        }
    }
}

/// A unit's own octets, and where its parts lie in them.
#[derive(Clone, Debug, PartialEq, Eq)]
struct Seen<T> {
    octets: Vec<u8>,
    parts: T,
    address: String,
}

impl<T> Seen<T> {
    fn of(octets: &[u8], parts: T, address: &raw::Address) -> Result<Seen<T>, Error> {
        Ok(Seen { octets: copied(octets)?, parts, address: address_of(octets, address)? })
    }

    fn header(&self, user: &raw::User) -> Option<&[u8]> {
        (user.has_header == 1).then(|| at(&self.octets, user.header))
    }

    fn text(&self, user: &raw::User) -> Result<String, Error> {
        let text = answer(raw::SMS_TEXT_MAX, |out, room, needed| {
            // SAFETY: the octets are those that the part was seen in, and the rest is ours.
            unsafe { raw::sms_user_text(self.octets.as_ptr(), self.octets.len(), user, out, room, needed) }
        })?;
        text_of(text)
    }
}

/// The text of an address that was seen in these octets: only want of memory can prevent it.
fn address_of(octets: &[u8], address: &raw::Address) -> Result<String, Error> {
    let text = answer(raw::SMS_ADDRESS_TEXT_MAX, |out, room, needed| {
        // SAFETY: the octets are those that the part was seen in, and the rest is ours.
        unsafe { raw::sms_address_text(octets.as_ptr(), octets.len(), address, out, room, needed) }
    })?;
    text_of(text)
}

macro_rules! unit_parts {
    () => {
        /// TP-PID.
        pub fn pid(&self) -> u8 {
            self.0.parts.pid
        }

        /// TP-DCS.
        pub fn dcs(&self) -> u8 {
            self.0.parts.dcs
        }

        pub fn alphabet(&self) -> Alphabet {
            Alphabet::of(self.0.parts.user.alphabet)
        }

        /// TP-UDL.
        pub fn length(&self) -> u8 {
            self.0.parts.user.length
        }

        /// The header's octets after its length octet, where there is one.
        pub fn header(&self) -> Option<&[u8]> {
            self.0.header(&self.0.parts.user)
        }

        /// The octets after the header.
        pub fn body(&self) -> &[u8] {
            at(&self.0.octets, self.0.parts.user.body)
        }

        /// The place among the segments of its message, where it is one.
        pub fn place(&self) -> Option<Place> {
            Place::of(self.0.parts.user.place)
        }

        /// The text of the user data; `NotThere` where they are none (8-bit, compressed).
        pub fn text(&self) -> Result<String, Error> {
            self.0.text(&self.0.parts.user)
        }

        /// The octets of the unit.
        pub fn octets(&self) -> &[u8] {
            &self.0.octets
        }
    };
}

/// SMS-DELIVER: a message on its way from a centre to a phone (3GPP TS 23.040, 9.2.2.1).
#[derive(Clone, Debug, PartialEq, Eq)]
pub struct Deliver(Seen<raw::Deliver>);

impl Deliver {
    /// Reads the unit at the front of the octets, and says how many it takes.
    pub fn read(octets: &[u8]) -> Result<(Deliver, usize), Error> {
        let parts = read(raw::sms_deliver_read, octets)?;
        let used = parts.used;
        Ok((Deliver(Seen::of(&octets[..used], parts, &parts.origin)?), used))
    }

    /// The segment of an index of a text as a unit, and how many segments there are.
    pub fn write(fields: &DeliverFields, origin: &str, text: &str, index: usize) -> Result<(Vec<u8>, usize), Error> {
        let (fields, mut segments) = (fields.raw(), 0);
        let unit = answer(raw::SMS_UNIT_MAX, |out, room, needed| {
            // SAFETY: each pointer is to as many octets as are counted with it.
            unsafe {
                raw::sms_deliver_write(
                    &fields, origin.as_ptr(), origin.len(), text.as_ptr(), text.len(), index, out, room, needed,
                    &mut segments,
                )
            }
        })?;
        Ok((unit, segments))
    }

    /// A unit with these octets as TP-UD, at most 140, under a TP-DCS that counts in octets (8-bit, UCS-2, compressed); with
    /// a header they begin with it, its length octet first. The fields have no class, and their reference doesn't count.
    pub fn write_data(
        fields: &DeliverFields, dcs: u8, has_header: bool, origin: &str, octets: &[u8],
    ) -> Result<Vec<u8>, Error> {
        let fields = fields.raw();
        answer(raw::SMS_UNIT_MAX, |out, room, needed| {
            // SAFETY: each pointer is to as many octets as are counted with it.
            unsafe {
                raw::sms_deliver_data_write(
                    &fields, dcs, u8::from(has_header), origin.as_ptr(), origin.len(), octets.as_ptr(), octets.len(),
                    out, room, needed,
                )
            }
        })
    }

    unit_parts!();

    /// TP-OA: the sender's digits, after a + where the number is international, or its name.
    pub fn origin(&self) -> &str {
        &self.0.address
    }

    pub fn type_of_number(&self) -> u8 {
        self.0.parts.origin.type_of_number
    }

    pub fn plan(&self) -> u8 {
        self.0.parts.origin.plan
    }

    /// TP-MMS: more messages wait in the centre.
    pub fn more(&self) -> bool {
        self.0.parts.more == 1
    }

    /// TP-LP.
    pub fn looped(&self) -> bool {
        self.0.parts.looped == 1
    }

    /// TP-SRI.
    pub fn report(&self) -> bool {
        self.0.parts.report == 1
    }

    /// TP-RP.
    pub fn reply(&self) -> bool {
        self.0.parts.reply == 1
    }

    /// TP-SCTS.
    pub fn stamp(&self) -> Stamp {
        Stamp(self.0.parts.stamp.octets)
    }
}

/// SMS-SUBMIT: a message on its way from a phone to a centre (3GPP TS 23.040, 9.2.2.2).
#[derive(Clone, Debug, PartialEq, Eq)]
pub struct Submit(Seen<raw::Submit>);

impl Submit {
    /// Reads the unit at the front of the octets, and says how many it takes.
    pub fn read(octets: &[u8]) -> Result<(Submit, usize), Error> {
        let parts = read(raw::sms_submit_read, octets)?;
        let used = parts.used;
        Ok((Submit(Seen::of(&octets[..used], parts, &parts.target)?), used))
    }

    /// The segment of an index of a text as a unit, and how many segments there are.
    pub fn write(fields: &SubmitFields, target: &str, text: &str, index: usize) -> Result<(Vec<u8>, usize), Error> {
        let (fields, mut segments) = (fields.raw(), 0);
        let unit = answer(raw::SMS_UNIT_MAX, |out, room, needed| {
            // SAFETY: each pointer is to as many octets as are counted with it.
            unsafe {
                raw::sms_submit_write(
                    &fields, target.as_ptr(), target.len(), text.as_ptr(), text.len(), index, out, room, needed,
                    &mut segments,
                )
            }
        })?;
        Ok((unit, segments))
    }

    /// A unit with these octets as TP-UD, at most 140, under a TP-DCS that counts in octets (8-bit, UCS-2, compressed); with
    /// a header they begin with it, its length octet first. The fields have no class, and their reference doesn't count.
    pub fn write_data(
        fields: &SubmitFields, dcs: u8, has_header: bool, target: &str, octets: &[u8],
    ) -> Result<Vec<u8>, Error> {
        let fields = fields.raw();
        answer(raw::SMS_UNIT_MAX, |out, room, needed| {
            // SAFETY: each pointer is to as many octets as are counted with it.
            unsafe {
                raw::sms_submit_data_write(
                    &fields, dcs, u8::from(has_header), target.as_ptr(), target.len(), octets.as_ptr(), octets.len(),
                    out, room, needed,
                )
            }
        })
    }

    unit_parts!();

    /// TP-DA: the recipient's digits, after a + where the number is international, or its name.
    pub fn target(&self) -> &str {
        &self.0.address
    }

    pub fn type_of_number(&self) -> u8 {
        self.0.parts.target.type_of_number
    }

    pub fn plan(&self) -> u8 {
        self.0.parts.target.plan
    }

    /// TP-RD.
    pub fn reject(&self) -> bool {
        self.0.parts.reject == 1
    }

    /// TP-SRR.
    pub fn report(&self) -> bool {
        self.0.parts.report == 1
    }

    /// TP-RP.
    pub fn reply(&self) -> bool {
        self.0.parts.reply == 1
    }

    /// TP-MR.
    pub fn reference(&self) -> u8 {
        self.0.parts.reference
    }

    pub fn validity(&self) -> Validity {
        Validity::of(self.0.parts.validity)
    }
}

/// What an SMS-DELIVER has besides a sender and a text.
#[derive(Clone, Copy, Debug, PartialEq, Eq, Hash)]
pub struct DeliverFields {
    pub reference: Reference,
    pub more: bool,
    pub looped: bool,
    pub report: bool,
    pub reply: bool,
    pub pid: u8,
    pub stamp: Stamp,
    /// 0 to 3, where it is of a class.
    pub message_class: Option<u8>,
}

/// How the library is told a class: none is 0.
fn class_of(message_class: Option<u8>) -> u8 {
    message_class.map_or(0, |it| it.saturating_add(1))
}

impl DeliverFields {
    /// No flag is set, TP-PID is 0, and there is no class.
    pub fn new(reference: Reference, stamp: Stamp) -> DeliverFields {
        DeliverFields {
            reference,
            more: false,
            looped: false,
            report: false,
            reply: false,
            pid: 0,
            stamp,
            message_class: None,
        }
    }

    fn raw(&self) -> raw::DeliverFields {
        raw::DeliverFields {
            segments: self.reference.raw(),
            more: u8::from(self.more),
            looped: u8::from(self.looped),
            report: u8::from(self.report),
            reply: u8::from(self.reply),
            pid: self.pid,
            stamp: self.stamp.raw(),
            message_class: class_of(self.message_class),
            spare: [0; 6],
        }
    }
}

/// What an SMS-SUBMIT has besides a recipient and a text.
#[derive(Clone, Copy, Debug, PartialEq, Eq, Hash)]
pub struct SubmitFields {
    pub reference: Reference,
    pub reject: bool,
    pub report: bool,
    pub reply: bool,
    /// TP-MR.
    pub message_reference: u8,
    pub pid: u8,
    pub validity: Validity,
    /// 0 to 3, where it is of a class.
    pub message_class: Option<u8>,
}

impl SubmitFields {
    /// No flag is set, TP-MR and TP-PID are 0, and there is no class.
    pub fn new(reference: Reference, validity: Validity) -> SubmitFields {
        SubmitFields {
            reference,
            reject: false,
            report: false,
            reply: false,
            message_reference: 0,
            pid: 0,
            validity,
            message_class: None,
        }
    }

    fn raw(&self) -> raw::SubmitFields {
        raw::SubmitFields {
            segments: self.reference.raw(),
            reject: u8::from(self.reject),
            report: u8::from(self.report),
            reply: u8::from(self.reply),
            reference: self.message_reference,
            pid: self.pid,
            validity: self.validity.raw(),
            message_class: class_of(self.message_class),
            spare: [0; 6],
        }
    }
}

// ---- reports

/// SMS-DELIVER-REPORT or SMS-SUBMIT-REPORT (3GPP TS 23.040, 9.2.2.1a and 9.2.2.2a).
#[derive(Clone, Debug, PartialEq, Eq)]
pub struct Report {
    /// TP-UDHI: a header is announced, which may go beyond the data (`header` is none then).
    pub has_header: bool,
    /// TP-FCS.
    pub cause: Option<u8>,
    /// TP-SCTS.
    pub stamp: Option<Stamp>,
    pub pid: Option<u8>,
    pub dcs: Option<u8>,
    /// TP-UD.
    pub data: Option<Vec<u8>>,
    /// TP-UDH in it, after its length octet, where TP-UDHI is set and it lies within.
    pub header: Option<Vec<u8>>,
    /// TP-UDL.
    pub length: u8,
    /// By which TP-UDL counts.
    pub alphabet: Alphabet,
}

/// A header that is there has octets before it.
fn header_of(octets: &[u8], span: raw::Span) -> Result<Option<Vec<u8>>, Error> {
    copied_where(span.offset > 0, octets, span)
}

fn copied_where(there: bool, octets: &[u8], span: raw::Span) -> Result<Option<Vec<u8>>, Error> {
    there.then(|| copied(at(octets, span))).transpose()
}

fn report(call: Reader<raw::Report>, octets: &[u8]) -> Result<(Report, usize), Error> {
    let seen = read(call, octets)?;
    let report = Report {
        has_header: seen.has_header == 1,
        cause: (seen.has_cause == 1).then_some(seen.cause),
        stamp: (seen.has_stamp == 1).then_some(Stamp(seen.stamp.octets)),
        pid: (seen.has_pid == 1).then_some(seen.pid),
        dcs: (seen.has_dcs == 1).then_some(seen.dcs),
        data: copied_where(seen.has_data == 1, octets, seen.data)?,
        header: header_of(octets, seen.header)?,
        length: seen.length,
        alphabet: Alphabet::of(seen.alphabet),
    };
    Ok((report, seen.used))
}

/// Where a header lies in data that begin with it: behind its length octet.
fn header_in(header: &Option<Vec<u8>>) -> raw::Span {
    match header {
        Some(header) => raw::Span { offset: 1, length: header.len() },
        None => raw::Span::default(),
    }
}

impl Report {
    /// The text of the data after their header; `NotThere` where there are no data, or they are no text (8-bit,
    /// compressed), or the header goes beyond them.
    pub fn text(&self) -> Result<String, Error> {
        let data = self.data.as_deref().unwrap_or_default();
        let seen = raw::Report {
            data: raw::Span { offset: 0, length: data.len() },
            header: header_in(&self.header),
            has_header: u8::from(self.has_header),
            has_dcs: u8::from(self.dcs.is_some()),
            dcs: self.dcs.unwrap_or_default(),
            has_data: u8::from(self.data.is_some()),
            length: self.length,
            alphabet: self.alphabet.number(),
            ..raw::Report::default()
        };
        text_of(answer(raw::SMS_TEXT_MAX, |out, room, needed| {
            // SAFETY: the octets are as many as counted, and the rest is ours.
            unsafe { raw::sms_report_text(data.as_ptr(), data.len(), &seen, out, room, needed) }
        })?)
    }

    /// Reads an SMS-DELIVER-REPORT of an RP-ACK, and says how many octets it takes.
    pub fn read_deliver_ack(octets: &[u8]) -> Result<(Report, usize), Error> {
        report(raw::sms_deliver_ack_read, octets)
    }

    /// Reads an SMS-DELIVER-REPORT of an RP-ERROR.
    pub fn read_deliver_error(octets: &[u8]) -> Result<(Report, usize), Error> {
        report(raw::sms_deliver_error_read, octets)
    }

    /// Reads an SMS-SUBMIT-REPORT of an RP-ACK.
    pub fn read_submit_ack(octets: &[u8]) -> Result<(Report, usize), Error> {
        report(raw::sms_submit_ack_read, octets)
    }

    /// Reads an SMS-SUBMIT-REPORT of an RP-ERROR.
    pub fn read_submit_error(octets: &[u8]) -> Result<(Report, usize), Error> {
        report(raw::sms_submit_error_read, octets)
    }
}

/// What a report may have to be written: TP-PID, TP-DCS, and TP-UD.
#[derive(Clone, Copy, Debug, Default, PartialEq, Eq, Hash)]
pub struct ReportFields<'a> {
    pub pid: Option<u8>,
    pub dcs: Option<u8>,
    /// TP-UD, at most 159 octets.
    pub data: Option<&'a [u8]>,
    /// TP-UDHI: the data begin with a header, its length octet first.
    pub has_header: bool,
    /// TP-UDL: septets under the 7-bit alphabet, and where there is no TP-DCS; else octets.
    pub length: u8,
}

impl<'a> ReportFields<'a> {
    /// Data under a TP-DCS that counts in octets.
    pub fn octets(dcs: u8, data: &'a [u8]) -> ReportFields<'a> {
        let length = u8::try_from(data.len()).unwrap_or(u8::MAX);
        ReportFields { dcs: Some(dcs), data: Some(data), length, ..ReportFields::default() }
    }

    fn raw(&self, cause: u8, stamp: Stamp) -> raw::ReportFields {
        raw::ReportFields {
            stamp: stamp.raw(),
            cause,
            has_pid: u8::from(self.pid.is_some()),
            pid: self.pid.unwrap_or_default(),
            has_dcs: u8::from(self.dcs.is_some()),
            dcs: self.dcs.unwrap_or_default(),
            has_data: u8::from(self.data.is_some()),
            has_header: u8::from(self.has_header),
            length: self.length,
            spare: [0; 6],
        }
    }
}

type ReportWriter = unsafe extern "C" fn(*const raw::ReportFields, *const u8, usize, *mut u8, usize, *mut usize) -> u32;

fn write_report(call: ReportWriter, fields: &ReportFields<'_>, cause: u8, stamp: Stamp) -> Result<Vec<u8>, Error> {
    let (given, data) = (fields.raw(cause, stamp), fields.data.unwrap_or_default());
    answer(raw::SMS_UNIT_MAX, |out, room, needed| {
        // SAFETY: the octets are as many as counted, and the rest is ours.
        unsafe { call(&given, data.as_ptr(), data.len(), out, room, needed) }
    })
}

/// No report has it.
const NO_STAMP: Stamp = Stamp([0; 7]);

impl Report {
    /// An SMS-DELIVER-REPORT for an RP-ACK.
    pub fn write_deliver_ack(fields: &ReportFields<'_>) -> Result<Vec<u8>, Error> {
        write_report(raw::sms_deliver_ack_write, fields, 0, NO_STAMP)
    }

    /// An SMS-DELIVER-REPORT for an RP-ERROR, with TP-FCS.
    pub fn write_deliver_error(fields: &ReportFields<'_>, cause: u8) -> Result<Vec<u8>, Error> {
        write_report(raw::sms_deliver_error_write, fields, cause, NO_STAMP)
    }

    /// An SMS-SUBMIT-REPORT for an RP-ACK, with TP-SCTS.
    pub fn write_submit_ack(fields: &ReportFields<'_>, stamp: Stamp) -> Result<Vec<u8>, Error> {
        write_report(raw::sms_submit_ack_write, fields, 0, stamp)
    }

    /// An SMS-SUBMIT-REPORT for an RP-ERROR, with TP-FCS and TP-SCTS.
    pub fn write_submit_error(fields: &ReportFields<'_>, cause: u8, stamp: Stamp) -> Result<Vec<u8>, Error> {
        write_report(raw::sms_submit_error_write, fields, cause, stamp)
    }
}

// ---- status reports, and commands

/// What an SMS-STATUS-REPORT has besides a recipient.
#[derive(Clone, Copy, Debug, PartialEq, Eq, Hash)]
pub struct StatusReportFields<'a> {
    /// TP-SCTS: when the centre took the message.
    pub stamp: Stamp,
    /// TP-DT: when it came to its recipient, or when the centre last tried.
    pub discharged: Stamp,
    /// TP-ST.
    pub status: u8,
    /// TP-MR of the submission, or of the command.
    pub reference: u8,
    pub more: bool,
    pub looped: bool,
    pub qualifier: bool,
    pub parts: ReportFields<'a>,
}

impl<'a> StatusReportFields<'a> {
    /// No flag is set, TP-MR is 0, and there is neither TP-PID nor TP-DCS nor TP-UD.
    pub fn new(stamp: Stamp, discharged: Stamp, status: u8) -> StatusReportFields<'a> {
        let parts = ReportFields::default();
        StatusReportFields { stamp, discharged, status, reference: 0, more: false, looped: false, qualifier: false, parts }
    }

    fn raw(&self) -> raw::StatusReportFields {
        let parts = self.parts.raw(0, NO_STAMP);
        raw::StatusReportFields {
            stamp: self.stamp.raw(),
            discharged: self.discharged.raw(),
            more: u8::from(self.more),
            looped: u8::from(self.looped),
            qualifier: u8::from(self.qualifier),
            reference: self.reference,
            status: self.status,
            has_pid: parts.has_pid,
            pid: parts.pid,
            has_dcs: parts.has_dcs,
            dcs: parts.dcs,
            has_data: parts.has_data,
            has_header: parts.has_header,
            length: parts.length,
            spare: [0; 6],
        }
    }
}

/// SMS-STATUS-REPORT: how it stands with a message that a phone has submitted (3GPP TS 23.040, 9.2.2.3).
#[derive(Clone, Debug, PartialEq, Eq)]
pub struct StatusReport {
    /// TP-MMS: more messages wait in the centre.
    pub more: bool,
    /// TP-LP.
    pub looped: bool,
    /// TP-SRQ: it is the result of an SMS-COMMAND, and not of an SMS-SUBMIT.
    pub qualifier: bool,
    /// TP-UDHI: a header is announced, which may go beyond the data (`header` is none then).
    pub has_header: bool,
    /// TP-MR of the submission, or of the command.
    pub reference: u8,
    /// TP-RA: the recipient's digits, after a + where the number is international, or its name.
    pub recipient: String,
    pub type_of_number: u8,
    pub plan: u8,
    /// TP-SCTS: when the centre took the message.
    pub stamp: Stamp,
    /// TP-DT: when it came to its recipient, or when the centre last tried.
    pub discharged: Stamp,
    /// TP-ST, the octet as it came (9.2.3.15). A reserved one (03 to 0F, 26 to 2F, 4A to 4F, 66 to 6F, 80 to FF) counts
    /// as 63: temporary error, no more attempts.
    pub status: u8,
    pub pid: Option<u8>,
    pub dcs: Option<u8>,
    /// TP-UD.
    pub data: Option<Vec<u8>>,
    /// TP-UDH in it, after its length octet, where TP-UDHI is set and it lies within.
    pub header: Option<Vec<u8>>,
    /// TP-UDL.
    pub length: u8,
    /// By which TP-UDL counts.
    pub alphabet: Alphabet,
}

impl StatusReport {
    /// The unit, to a recipient: + and digits, digits, or a name.
    pub fn write(fields: &StatusReportFields<'_>, recipient: &str) -> Result<Vec<u8>, Error> {
        let (given, data) = (fields.raw(), fields.parts.data.unwrap_or_default());
        answer(raw::SMS_UNIT_MAX, |out, room, needed| {
            // SAFETY: each pointer is to as many octets as are counted with it.
            unsafe {
                raw::sms_status_report_write(
                    &given, recipient.as_ptr(), recipient.len(), data.as_ptr(), data.len(), out, room, needed,
                )
            }
        })
    }

    /// As that of a [`Report`].
    pub fn text(&self) -> Result<String, Error> {
        let data = self.data.as_deref().unwrap_or_default();
        let seen = raw::StatusReport {
            data: raw::Span { offset: 0, length: data.len() },
            header: header_in(&self.header),
            has_header: u8::from(self.has_header),
            has_dcs: u8::from(self.dcs.is_some()),
            dcs: self.dcs.unwrap_or_default(),
            has_data: u8::from(self.data.is_some()),
            length: self.length,
            alphabet: self.alphabet.number(),
            ..raw::StatusReport::default()
        };
        text_of(answer(raw::SMS_TEXT_MAX, |out, room, needed| {
            // SAFETY: the octets are as many as counted, and the rest is ours.
            unsafe { raw::sms_status_report_text(data.as_ptr(), data.len(), &seen, out, room, needed) }
        })?)
    }

    /// Reads the unit at the front of the octets, and says how many it takes. TP-PI is read where another octet follows
    /// TP-ST.
    pub fn read(octets: &[u8]) -> Result<(StatusReport, usize), Error> {
        let seen = read(raw::sms_status_report_read, octets)?;
        let report = StatusReport {
            more: seen.more == 1,
            looped: seen.looped == 1,
            qualifier: seen.qualifier == 1,
            has_header: seen.has_header == 1,
            reference: seen.reference,
            recipient: address_of(octets, &seen.recipient)?,
            type_of_number: seen.recipient.type_of_number,
            plan: seen.recipient.plan,
            stamp: Stamp(seen.stamp.octets),
            discharged: Stamp(seen.discharged.octets),
            status: seen.status,
            pid: (seen.has_pid == 1).then_some(seen.pid),
            dcs: (seen.has_dcs == 1).then_some(seen.dcs),
            data: copied_where(seen.has_data == 1, octets, seen.data)?,
            header: header_of(octets, seen.header)?,
            length: seen.length,
            alphabet: Alphabet::of(seen.alphabet),
        };
        Ok((report, seen.used))
    }
}

/// SMS-COMMAND: what a phone asks of a centre about a message that it has submitted (3GPP TS 23.040, 9.2.2.4).
#[derive(Clone, Debug, PartialEq, Eq)]
pub struct Command {
    /// TP-UDHI: a header is announced, which may go beyond the data (`header` is none then).
    pub has_header: bool,
    /// TP-SRR.
    pub report: bool,
    /// TP-MR of the command.
    pub reference: u8,
    pub pid: u8,
    /// TP-CT, the octet as it came (9.2.3.19).
    pub kind: u8,
    /// TP-MN: TP-MR of the message in question.
    pub message: u8,
    /// TP-DA of the message in question: digits, after a + where the number is international, or a name.
    pub target: String,
    pub type_of_number: u8,
    pub plan: u8,
    /// TP-CD.
    pub data: Vec<u8>,
    /// TP-UDH in it, after its length octet, where TP-UDHI is set and it lies within.
    pub header: Option<Vec<u8>>,
}

impl Command {
    /// Reads the unit at the front of the octets, and says how many it takes.
    pub fn read(octets: &[u8]) -> Result<(Command, usize), Error> {
        let seen = read(raw::sms_command_read, octets)?;
        let command = Command {
            has_header: seen.has_header == 1,
            report: seen.report == 1,
            reference: seen.reference,
            pid: seen.pid,
            kind: seen.kind,
            message: seen.message,
            target: address_of(octets, &seen.target)?,
            type_of_number: seen.target.type_of_number,
            plan: seen.target.plan,
            data: copied(at(octets, seen.data))?,
            header: header_of(octets, seen.header)?,
        };
        Ok((command, seen.used))
    }
}

// ---- packets

/// A message of the connection (3GPP TS 24.011, 7.2), which lends its user data.
#[derive(Clone, Copy, Debug, PartialEq, Eq)]
pub enum CpBody<'a> {
    Data(&'a [u8]),
    Ack,
    Error(u8),
}

/// What a CP message has.
#[derive(Clone, Copy, Debug, PartialEq, Eq)]
pub struct Cp<'a> {
    /// TI flag: set where it goes to the side that opened the transaction.
    pub flag: bool,
    /// TI value, 0 to 6.
    pub value: u8,
    pub body: CpBody<'a>,
}

impl<'a> Cp<'a> {
    /// Reads the message at the front of the octets, and says how many it takes.
    pub fn read(octets: &'a [u8]) -> Result<(Cp<'a>, usize), Refused> {
        let seen = read(raw::sms_cp_read, octets)?;
        let body = match seen.kind {
            raw::KIND_DATA => CpBody::Data(at(octets, seen.user)),
            raw::KIND_ACK => CpBody::Ack,
            _ => CpBody::Error(seen.cause),
        };
        Ok((Cp { flag: seen.flag == 1, value: seen.value, body }, seen.used))
    }
}

/// A message of the relay (3GPP TS 24.011, 7.3), which lends its parts.
#[derive(Clone, Copy, Debug, PartialEq, Eq)]
pub enum RpBody<'a> {
    /// The centre's address with its length octet, where there is one, and a unit.
    Data { address: Option<&'a [u8]>, user: &'a [u8] },
    Ack { user: Option<&'a [u8]> },
    Error { cause: u8, diagnostic: Option<u8>, user: Option<&'a [u8]> },
}

/// What an RP message has.
#[derive(Clone, Copy, Debug, PartialEq, Eq)]
pub struct Rp<'a> {
    pub to_phone: bool,
    pub reference: u8,
    pub body: RpBody<'a>,
}

impl<'a> Rp<'a> {
    /// Reads the message at the front of the octets, and says how many it takes.
    pub fn read(octets: &'a [u8]) -> Result<(Rp<'a>, usize), Refused> {
        let seen = read(raw::sms_rp_read, octets)?;
        let user = (seen.has_user == 1).then(|| at(octets, seen.user));
        let body = match seen.kind {
            raw::KIND_DATA => RpBody::Data {
                address: (seen.has_address == 1).then(|| at(octets, seen.address)),
                user: at(octets, seen.user),
            },
            raw::KIND_ACK => RpBody::Ack { user },
            _ => RpBody::Error {
                cause: seen.cause,
                diagnostic: (seen.has_diagnostic == 1).then_some(seen.diagnostic),
                user,
            },
        };
        Ok((Rp { to_phone: seen.side == 1, reference: seen.reference, body }, seen.used))
    }

    /// The text of the centre's address in an RP-DATA: its digits, after a + where the type of number is 1. `NotThere`
    /// where there is no address, `BadAddress` where it has no text.
    pub fn centre(&self) -> Result<String, Error> {
        let address = match self.body {
            RpBody::Data { address, .. } => address.ok_or(Error::NotThere)?,
            _ => return Err(Error::NotThere),
        };
        centre_of(address)
    }
}

/// The text of a centre's address, given with its length octet.
fn centre_of(address: &[u8]) -> Result<String, Error> {
    let seen = raw::Rp {
        address: raw::Span { offset: 0, length: address.len() },
        has_address: 1,
        ..raw::Rp::default()
    };
    text_of(answer(raw::SMS_ADDRESS_TEXT_MAX, |out, room, needed| {
        // SAFETY: the octets are as many as counted, and the rest is ours.
        unsafe { raw::sms_relay_address_text(address.as_ptr(), address.len(), &seen, out, room, needed) }
    })?)
}

/// The transaction of a packet, and the reference of its message.
#[derive(Clone, Copy, Debug, PartialEq, Eq, Hash)]
pub struct Envelope {
    /// TI flag: not set from the side that opened the transaction.
    pub flag: bool,
    /// TI value, 0 to 6.
    pub value: u8,
    pub to_phone: bool,
    /// RP-Message Reference.
    pub reference: u8,
}

impl Envelope {
    fn raw(self) -> raw::Envelope {
        raw::Envelope {
            flag: u8::from(self.flag),
            value: self.value,
            side: u8::from(self.to_phone),
            reference: self.reference,
        }
    }

    /// A CP-DATA around an RP-DATA around the octets of a unit, at most 233, which are not looked at. The centre's
    /// address is given as text, or as no text.
    pub fn wrap(self, centre: &str, unit: &[u8]) -> Result<Vec<u8>, Error> {
        let envelope = self.raw();
        answer(raw::SMS_PACKET_MAX, |out, room, needed| {
            // SAFETY: each pointer is to as many octets as are counted with it.
            unsafe {
                raw::sms_wrap_data(
                    &envelope, centre.as_ptr(), centre.len(), unit.as_ptr(), unit.len(), out, room, needed,
                )
            }
        })
    }

    /// A CP-DATA around an RP-ACK, and a unit where the octets are not empty.
    pub fn wrap_ack(self, unit: &[u8]) -> Result<Vec<u8>, Error> {
        let envelope = self.raw();
        answer(raw::SMS_PACKET_MAX, |out, room, needed| {
            // SAFETY: each pointer is to as many octets as are counted with it.
            unsafe { raw::sms_wrap_ack(&envelope, unit.as_ptr(), unit.len(), out, room, needed) }
        })
    }

    /// A CP-DATA around an RP-ERROR with a cause of 0 to 127, and a unit where the octets are not empty.
    pub fn wrap_error(self, cause: u8, unit: &[u8]) -> Result<Vec<u8>, Error> {
        let envelope = self.raw();
        answer(raw::SMS_PACKET_MAX, |out, room, needed| {
            // SAFETY: each pointer is to as many octets as are counted with it.
            unsafe { raw::sms_wrap_error(&envelope, cause, unit.as_ptr(), unit.len(), out, room, needed) }
        })
    }

    /// A CP-ACK.
    pub fn cp_ack(self) -> Result<Vec<u8>, Error> {
        let envelope = self.raw();
        // SAFETY: the envelope is ours.
        answer(raw::SMS_PACKET_MAX, |out, room, needed| unsafe { raw::sms_cp_ack(&envelope, out, room, needed) })
    }

    /// A CP-ERROR.
    pub fn cp_error(self, cause: u8) -> Result<Vec<u8>, Error> {
        let envelope = self.raw();
        // SAFETY: the envelope is ours.
        answer(raw::SMS_PACKET_MAX, |out, room, needed| unsafe { raw::sms_cp_error(&envelope, cause, out, room, needed) })
    }
}

// ---- records of a card

/// How it stands with a record (3GPP TS 51.011, 10.5.3).
#[derive(Clone, Copy, Debug, PartialEq, Eq, Hash)]
#[repr(u8)]
pub enum RecordStatus {
    Free = raw::SMS_RECORD_FREE,
    /// It came from the network, and was read.
    Read = raw::SMS_RECORD_READ,
    /// It came from the network, and is to be read.
    Unread = raw::SMS_RECORD_UNREAD,
    /// The phone sent it, and asked for no status report.
    Sent = raw::SMS_RECORD_SENT,
    /// The phone is to send it.
    ToBeSent = raw::SMS_RECORD_TO_BE_SENT,
    /// The phone sent it; a status report was asked for, and has not come.
    SentAwaited = raw::SMS_RECORD_SENT_AWAITED,
    /// The phone sent it; its status report has come, and does not stand in EF-SMSR.
    SentReceived = raw::SMS_RECORD_SENT_RECEIVED,
    /// The phone sent it; its status report has come, and stands in EF-SMSR.
    SentStored = raw::SMS_RECORD_SENT_STORED,
}

impl RecordStatus {
    fn of(octet: u8) -> RecordStatus {
        match octet {
            raw::SMS_RECORD_FREE => RecordStatus::Free,
            raw::SMS_RECORD_READ => RecordStatus::Read,
            raw::SMS_RECORD_UNREAD => RecordStatus::Unread,
            raw::SMS_RECORD_SENT => RecordStatus::Sent,
            raw::SMS_RECORD_TO_BE_SENT => RecordStatus::ToBeSent,
            raw::SMS_RECORD_SENT_AWAITED => RecordStatus::SentAwaited,
            raw::SMS_RECORD_SENT_RECEIVED => RecordStatus::SentReceived,
            _ => RecordStatus::SentStored,
        }
    }
}

/// The unit of a record, and its octets: the first two come from the network, the others are the phone's.
#[derive(Clone, Copy, Debug, PartialEq, Eq)]
pub enum RecordUnit<'a> {
    Deliver(&'a [u8]),
    StatusReport(&'a [u8]),
    Submit(&'a [u8]),
    Command(&'a [u8]),
}

/// A record of a card's file of short messages, EF-SMS (3GPP TS 51.011, 10.5.3), which lends its parts.
#[derive(Clone, Copy, Debug, PartialEq, Eq)]
pub struct Record<'a> {
    pub status: RecordStatus,
    /// The centre's address with its length octet, where there is one.
    pub address: Option<&'a [u8]>,
    /// None where the record is free.
    pub unit: Option<RecordUnit<'a>>,
}

impl<'a> Record<'a> {
    /// Reads the record that all the octets are: 176, or fewer where FF were cut from its end. Its unit's octets are read
    /// by the reader of the unit, which takes all of them.
    pub fn read(octets: &'a [u8]) -> Result<Record<'a>, Refused> {
        let seen = read(raw::sms_record_read, octets)?;
        let unit = at(octets, seen.unit);
        let unit = match seen.kind {
            raw::SMS_UNIT_DELIVER => RecordUnit::Deliver(unit),
            raw::SMS_UNIT_STATUS_REPORT => RecordUnit::StatusReport(unit),
            raw::SMS_UNIT_SUBMIT => RecordUnit::Submit(unit),
            raw::SMS_UNIT_COMMAND => RecordUnit::Command(unit),
            _ => return Ok(Record { status: RecordStatus::Free, address: None, unit: None }),
        };
        let address = (seen.has_address == 1).then(|| at(octets, seen.address));
        Ok(Record { status: RecordStatus::of(seen.status), address, unit: Some(unit) })
    }

    /// The 176 octets of a record: the status, the centre's address (none where it is empty), the octets of a unit, and FF
    /// to the end. A free one has neither address nor unit (`OutOfRange`). `Refused` where it would be no record.
    pub fn write(status: RecordStatus, centre: &str, unit: &[u8]) -> Result<Vec<u8>, Error> {
        let fields = raw::RecordFields { status: status as u8, ..Default::default() };
        let (mut out, mut needed, mut refused) = (Vec::new(), 0, raw::Refused::default());
        grow(&mut out, 176)?;
        // SAFETY: each pointer is to as many octets as are counted with it, and the rest is ours.
        let status = unsafe {
            raw::sms_record_write(
                &fields, centre.as_ptr(), centre.len(), unit.as_ptr(), unit.len(), out.as_mut_ptr(), out.len(),
                &mut needed, &mut refused,
            )
        };
        match status {
            raw::SMS_OK => Ok(out),
            status => Err(Error::of(status, refused)),
        }
    }

    /// The text of the centre's address, as that of an [`Rp`]; `NotThere` where there is none.
    pub fn centre(&self) -> Result<String, Error> {
        centre_of(self.address.ok_or(Error::NotThere)?)
    }
}

// ---- user data alone

/// How the septets of user data alone stand. Under the other alphabets `Single` is as `Whole`.
#[derive(Clone, Copy, Debug, PartialEq, Eq, Hash)]
pub enum Standing {
    /// Packed, all that fit whole.
    Whole,
    /// Packed, as many as TP-UDL counts: septets under the 7-bit alphabet, those that a header takes among them, else octets.
    Counted(u8),
    /// One an octet.
    Single,
}

impl Standing {
    /// Its number, and TP-UDL where it is told.
    fn raw(self) -> (u8, u8) {
        match self {
            Standing::Whole => (raw::SMS_WHOLE, 0),
            Standing::Counted(length) => (raw::SMS_COUNTED, length),
            Standing::Single => (raw::SMS_SINGLE, 0),
        }
    }
}

/// User data alone, with no unit around them, as SMPP and other gateways hand them over (3GPP TS 23.040, 9.2.3.24).
#[derive(Clone, Copy, Debug, PartialEq, Eq)]
pub struct Data<'a> {
    octets: &'a [u8],
    form: raw::DataForm,
    parts: raw::Data,
}

impl<'a> Data<'a> {
    /// Reads user data at the front of the octets, under a TP-DCS, with a header in front (its length octet first) or
    /// without, and says how many octets they take.
    pub fn read(octets: &'a [u8], dcs: u8, has_header: bool, standing: Standing) -> Result<(Data<'a>, usize), Error> {
        let (standing, length) = standing.raw();
        let form = raw::DataForm { dcs, has_header: u8::from(has_header), standing, length, ..Default::default() };
        let (mut parts, mut refused) = (raw::Data::default(), raw::Refused::default());
        // SAFETY: the octets are as many as counted, and the structs are ours.
        match unsafe { raw::sms_data_read(octets.as_ptr(), octets.len(), &form, &mut parts, &mut refused) } {
            raw::SMS_OK => Ok((Data { octets: &octets[..parts.used], form, parts }, parts.used)),
            status => Err(Error::of(status, refused)),
        }
    }

    pub fn alphabet(&self) -> Alphabet {
        Alphabet::of(self.parts.alphabet)
    }

    /// The header's octets after its length octet, where there is one.
    pub fn header(&self) -> Option<&'a [u8]> {
        (self.parts.has_header == 1).then(|| at(self.octets, self.parts.header))
    }

    /// The octets after the header.
    pub fn body(&self) -> &'a [u8] {
        at(self.octets, self.parts.body)
    }

    /// The septets of the body, or its octets.
    pub fn count(&self) -> usize {
        self.parts.count
    }

    /// Whether septets stand one an octet.
    pub fn single(&self) -> bool {
        self.parts.single == 1
    }

    /// The bits of the body before its first septet, where septets are packed; else 0.
    pub fn fill(&self) -> u8 {
        self.parts.fill
    }

    /// The place among the segments of its message, where it is one.
    pub fn place(&self) -> Option<Place> {
        Place::of(self.parts.place)
    }

    /// The octets of the user data.
    pub fn octets(&self) -> &'a [u8] {
        self.octets
    }

    /// The text; `NotThere` where they are none (8-bit, compressed).
    pub fn text(&self) -> Result<String, Error> {
        self.text_by(0)
    }

    /// The text, septets by the national language tables that the header tells.
    pub fn language_text(&self) -> Result<String, Error> {
        self.text_by(1)
    }

    /// As a joiner is offered them.
    fn offer(&self, stamp: Option<Stamp>, languages: bool) -> raw::DataOffer {
        let form = raw::DataForm { languages: u8::from(languages), ..self.form };
        let has_stamp = u8::from(stamp.is_some());
        raw::DataOffer { has_stamp, stamp: stamp.map(Stamp::raw).unwrap_or_default(), form }
    }

    fn text_by(&self, languages: u8) -> Result<String, Error> {
        let form = raw::DataForm { languages, ..self.form };
        let text = answer(raw::SMS_TEXT_MAX, |out, room, needed| {
            // SAFETY: the octets are as many as counted, and the rest is ours.
            unsafe { raw::sms_data_text(self.octets.as_ptr(), self.octets.len(), &form, out, room, needed) }
        })?;
        text_of(text)
    }
}

// ---- texts cut, and segments joined

/// The user data of the segments of a text, each from TP-UDL on, and the TP-DCS of all.
pub fn split(reference: Reference, text: &str) -> Result<(Vec<Vec<u8>>, u8), Error> {
    let reference = reference.raw();
    let (mut spans, mut segments, mut dcs) = ([raw::Span::default(); 255], 0, 0);
    let out = answer(1024, |out, room, needed| {
        // SAFETY: each pointer is to as many values as are counted with it.
        unsafe {
            raw::sms_split(
                &reference, text.as_ptr(), text.len(), out, room, needed, spans.as_mut_ptr(), spans.len(),
                &mut segments, &mut dcs,
            )
        }
    })?;
    let mut users = Vec::new();
    reserve(&mut users, segments)?;
    for span in &spans[..segments] {
        users.push(copied(at(&out, *span))?);
    }
    Ok((users, dcs))
}

/// A segment as user data alone, as SMPP and other gateways take it.
#[derive(Clone, Debug, PartialEq, Eq)]
#[non_exhaustive]
pub struct DataSegment {
    /// The header, where there is one, and the text (SMPP: short_message).
    pub octets: Vec<u8>,
    /// TP-DCS (SMPP: data_coding): 0 septets, 8 UCS-2.
    pub dcs: u8,
    /// TP-UDHI, whether a header stands in front (SMPP: bit 6 of esm_class).
    pub has_header: bool,
    /// TP-UDL: the septets, those that the header takes among them, or the octets.
    pub length: u8,
}

/// The segments of a text as user data alone: septets packed, or, where `single`, one an octet.
pub fn split_data(reference: Reference, text: &str, single: bool) -> Result<Vec<DataSegment>, Error> {
    let fields = raw::DataFields { segments: reference.raw(), single: u8::from(single), ..Default::default() };
    let (mut parts, mut segments) = ([raw::DataSegment::default(); 255], 0);
    let out = answer(1024, |out, room, needed| {
        // SAFETY: each pointer is to as many values as are counted with it.
        unsafe {
            raw::sms_data_split(
                &fields, text.as_ptr(), text.len(), out, room, needed, parts.as_mut_ptr(), parts.len(), &mut segments,
            )
        }
    })?;
    let mut found = Vec::new();
    reserve(&mut found, segments)?;
    for part in &parts[..segments] {
        let octets = copied(at(&out, part.octets))?;
        found.push(DataSegment { octets, dcs: part.dcs, has_header: part.has_header == 1, length: part.length });
    }
    Ok(found)
}

/// What becomes of a segment that is offered.
#[derive(Clone, Debug, PartialEq, Eq)]
pub enum Offer {
    /// It is there already, or its message is a finished one that is remembered.
    Repeat,
    /// Others are missing.
    Kept,
    /// The text of its message, which is whole.
    Finished(String),
}

/// A message of which some segments have come, and not all, as it was when it was told.
#[derive(Clone, Debug, PartialEq, Eq)]
#[non_exhaustive]
pub struct OpenMessage {
    /// Whom it is from (TP-OA).
    pub origin: String,
    pub type_of_number: u8,
    pub plan: u8,
    /// How many bits the reference has: 8 or 16.
    pub width: u16,
    /// What its segments share.
    pub reference: u16,
    /// How many segments it has.
    pub maximum: u8,
    /// The moment at which its first segment was offered, in seconds from the beginning of 2000.
    pub seconds: u64,
    /// The number of its opening: a message that is opened later has a greater one.
    pub opening: u64,
    come: [u8; 32],
}

impl OpenMessage {
    fn of(origin: String, seen: raw::OpenMessage) -> OpenMessage {
        OpenMessage {
            origin,
            type_of_number: seen.type_of_number,
            plan: seen.plan,
            width: seen.width,
            reference: seen.reference,
            maximum: seen.maximum,
            seconds: seen.seconds,
            opening: seen.opening,
            come: seen.come,
        }
    }

    /// Whether the segment of a sequence, from 1 on, has come.
    pub fn has(&self, sequence: u8) -> bool {
        self.come[usize::from(sequence / 8)] >> (sequence % 8) & 1 == 1
    }

    /// The segments that have come, in order.
    pub fn sequences(&self) -> impl Iterator<Item = u8> + '_ {
        (1..=self.maximum).filter(move |&it| self.has(it))
    }

    /// The segments that have not come, in order.
    pub fn missing(&self) -> impl Iterator<Item = u8> + '_ {
        (1..=self.maximum).filter(move |&it| !self.has(it))
    }
}

/// The open messages of a joiner, in order of opening: [`Joiner::open_messages`]. As long as it is there the joiner cannot
/// change.
#[derive(Debug)]
pub struct OpenMessages<'a> {
    joiner: &'a mut Joiner,
    cursor: raw::Cursor,
}

impl Iterator for OpenMessages<'_> {
    type Item = Result<OpenMessage, Error>;

    /// The next one; `NoMemory` where there is none for the text of its origin, and the one after it comes next.
    fn next(&mut self) -> Option<Self::Item> {
        let mut seen = raw::OpenMessage::default();
        // SAFETY: the joiner, the cursor and the struct are ours.
        match unsafe { raw::sms_joiner_each(&mut self.joiner.0, &mut self.cursor, &mut seen) } {
            raw::SMS_OK => Some(self.joiner.open_message(seen)),
            raw::SMS_NOT_THERE => None,
            status => Some(Err(Error::of(status, raw::Refused::default()))),
        }
    }
}

impl FusedIterator for OpenMessages<'_> {}

/// What becomes of a segment, with the text where it is the last.
fn answered(
    status: u32, outcome: u32, refused: raw::Refused, text: impl FnOnce() -> Result<String, Error>,
) -> Result<Offer, Error> {
    match (status, outcome) {
        (raw::SMS_OK, raw::SMS_REPEAT) => Ok(Offer::Repeat),
        (raw::SMS_OK, raw::SMS_KEPT) => Ok(Offer::Kept),
        (raw::SMS_OK, _) => Ok(Offer::Finished(text()?)),
        (status, _) => Err(Error::of(status, refused)),
    }
}

/// A seed from the keys of a new [`RandomState`].
fn drawn() -> u128 {
    let keys = RandomState::new();
    let [low, high] = [0u8, 1].map(|which| {
        let mut hasher = keys.build_hasher();
        hasher.write_u8(which);
        u128::from(hasher.finish())
    });
    high << 64 | low
}

/// Joins segments, whichever way they come, to texts, each once.
///
/// It may go from thread to thread (`Send`), takes one call at a time (`&mut`), and is neither shared (`Sync`) nor
/// copied: threads that offer to one joiner have it in a `Mutex`.
#[derive(Debug)]
pub struct Joiner(raw::Joiner);

// SAFETY: what a joiner holds is its own, and the library's calls on it may be made from any thread, one at a time.
unsafe impl Send for Joiner {}

impl Joiner {
    /// A joiner for at most so many messages at a time that are not whole, and so many finished ones that are
    /// remembered, so that none finishes twice: they are forgotten by number, never by time. Both are from 1 on.
    ///
    /// What it holds is found by a hash with a seed, which is drawn from the keys of a new [`RandomState`]. Who does not
    /// know it cannot pick messages that are slow to find; what a joiner answers does not depend on it.
    pub fn open(open_max: usize, remembered: usize) -> Result<Joiner, Error> {
        Joiner::open_seeded(open_max, remembered, drawn())
    }

    /// The same with a seed of one's own.
    pub fn open_seeded(open_max: usize, remembered: usize, seed: u128) -> Result<Joiner, Error> {
        let mut joiner = raw::Joiner::CLOSED;
        let (low, high) = (seed as u64, (seed >> 64) as u64);
        // SAFETY: it is ours, and closed.
        match unsafe { raw::sms_joiner_open_seeded(&mut joiner, open_max, remembered, low, high) } {
            raw::SMS_OK => Ok(Joiner(joiner)),
            status => Err(Error::of(status, raw::Refused::default())),
        }
    }

    /// Offers an SMS-DELIVER that came at a moment, in seconds from the beginning of 2000; `NotThere` where its user
    /// data are no text (8-bit, compressed). After `NoMemory` it may be offered again: where memory ended once its message
    /// was whole, it is a repeat then, and [`text`](Joiner::text) has the text.
    pub fn offer(&mut self, seconds: u64, octets: &[u8]) -> Result<Offer, Error> {
        let (mut outcome, mut refused) = (0, raw::Refused::default());
        // SAFETY: the octets are as many as counted, and the rest is ours.
        let status = unsafe {
            raw::sms_joiner_offer(&mut self.0, seconds, octets.as_ptr(), octets.len(), &mut outcome, &mut refused)
        };
        answered(status, outcome, refused, || self.text())
    }

    /// Offers user data alone from an origin (a number, after a + where it is international, or a name), that came at a
    /// moment. A segment is known by its place, and a message in one piece by its stamp; without one it is finished each
    /// time. With `languages` septets are read by the national language tables that the header tells. `BadAddress` where
    /// the origin is none; else as [`offer`](Joiner::offer).
    pub fn offer_data(
        &mut self, seconds: u64, origin: &str, data: &Data, stamp: Option<Stamp>, languages: bool,
    ) -> Result<Offer, Error> {
        let (offer, octets) = (data.offer(stamp, languages), data.octets);
        let (mut outcome, mut refused) = (0, raw::Refused::default());
        // SAFETY: each pointer is to as many octets as are counted with it, and the rest is ours.
        let status = unsafe {
            raw::sms_joiner_offer_data(
                &mut self.0, seconds, &offer, origin.as_ptr(), origin.len(), octets.as_ptr(), octets.len(),
                &mut outcome, &mut refused,
            )
        };
        answered(status, outcome, refused, || self.text())
    }

    /// The text that finished last; empty before one did.
    pub fn text(&mut self) -> Result<String, Error> {
        // SAFETY: the room is as counted, and the joiner is ours.
        let text = answer(raw::SMS_TEXT_MAX, |out, room, needed| unsafe {
            raw::sms_joiner_text(&mut self.0, out, room, needed)
        })?;
        text_of(text)
    }

    /// Whether an SMS-DELIVER would finish its message; nothing changes. `NotThere` where `offer` answers so.
    pub fn would_finish(&mut self, octets: &[u8]) -> Result<bool, Error> {
        let (mut finishes, mut refused) = (0, raw::Refused::default());
        // SAFETY: the octets are as many as counted, and the rest is ours.
        match unsafe {
            raw::sms_joiner_would_finish(&mut self.0, octets.as_ptr(), octets.len(), &mut finishes, &mut refused)
        } {
            raw::SMS_OK => Ok(finishes == 1),
            status => Err(Error::of(status, refused)),
        }
    }

    /// Whether user data alone would finish their message; nothing changes. Errors as `offer_data`.
    pub fn would_finish_data(&mut self, origin: &str, data: &Data, stamp: Option<Stamp>) -> Result<bool, Error> {
        let (offer, octets) = (data.offer(stamp, false), data.octets);
        let (mut finishes, mut refused) = (0, raw::Refused::default());
        // SAFETY: each pointer is to as many octets as are counted with it, and the rest is ours.
        match unsafe {
            raw::sms_joiner_would_finish_data(
                &mut self.0, &offer, origin.as_ptr(), origin.len(), octets.as_ptr(), octets.len(), &mut finishes,
                &mut refused,
            )
        } {
            raw::SMS_OK => Ok(finishes == 1),
            status => Err(Error::of(status, refused)),
        }
    }

    /// Drops the messages whose first segment came 604,800 seconds before the moment, or earlier.
    pub fn age(&mut self, seconds: u64) {
        // SAFETY: it is ours. An open joiner answers nothing but 0.
        unsafe { raw::sms_joiner_age(&mut self.0, seconds) };
    }

    /// How many messages are open: some of their segments have come, and not all.
    pub fn open_count(&mut self) -> usize {
        let mut open_count = 0;
        // SAFETY: both are ours. An open joiner answers nothing but 0.
        unsafe { raw::sms_joiner_count(&mut self.0, &mut open_count) };
        open_count
    }

    /// The open messages, in order of opening.
    pub fn open_messages(&mut self) -> OpenMessages<'_> {
        OpenMessages { joiner: self, cursor: raw::Cursor::default() }
    }

    /// The same, by another name.
    pub fn open_sets(&mut self) -> OpenMessages<'_> {
        self.open_messages()
    }

    /// An open message, with the text of its origin.
    fn open_message(&mut self, seen: raw::OpenMessage) -> Result<OpenMessage, Error> {
        // SAFETY: the room is as counted, and the joiner is ours.
        let origin = answer(raw::SMS_ADDRESS_TEXT_MAX, |out, room, needed| unsafe {
            raw::sms_joiner_origin(&mut self.0, seen.opening, out, room, needed)
        })?;
        Ok(OpenMessage::of(text_of(origin)?, seen))
    }
}

impl Drop for Joiner {
    fn drop(&mut self) {
        // SAFETY: it is ours.
        unsafe { raw::sms_joiner_close(&mut self.0) }
    }
}
