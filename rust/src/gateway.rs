//! A gateway's joiner: one for many recipients.

use crate::{answer, answered, drawn, raw, text_of, Data, Error, Offer, OpenMessage, Stamp};
use std::iter::FusedIterator;

/// How much a gateway's joiner keeps.
#[derive(Clone, Debug)]
#[non_exhaustive]
pub struct GatewayLimits {
    /// The messages of all recipients that may be open at a time: from 1 on.
    pub open_max: usize,
    /// The finished messages of all recipients that are remembered, so that none finishes twice: from 1 on.
    pub remembered: usize,
    /// [`age`](Gateway::age) drops a message so many seconds after its first segment.
    pub open_for: u64,
    /// And forgets a finished one so many seconds, from 1 on, after it finished. Without a number it is remembered as long
    /// as it is among the last.
    pub remember_for: Option<u64>,
    /// A message in one piece finishes each time it comes.
    pub pass_alone: bool,
    /// As of [`Joiner::open_seeded`](crate::Joiner::open_seeded). Without one it is drawn.
    pub seed: Option<u128>,
}

impl GatewayLimits {
    /// These numbers, a week, no finished message that is forgotten by its age, messages in one piece that are
    /// remembered, and a seed that is drawn.
    pub fn new(open_max: usize, remembered: usize) -> GatewayLimits {
        GatewayLimits { open_max, remembered, open_for: 604_800, remember_for: None, pass_alone: false, seed: None }
    }

    /// `OutOfRange` where a number of seconds is 0 that is from 1 on.
    fn raw(&self) -> Result<raw::GatewayLimits, Error> {
        if self.remember_for == Some(0) {
            return Err(Error::OutOfRange);
        }
        let seed = self.seed.unwrap_or_else(drawn);
        Ok(raw::GatewayLimits {
            open_max: self.open_max,
            remembered: self.remembered,
            open_for: self.open_for,
            remember_for: self.remember_for.unwrap_or(0),
            seed_low: seed as u64,
            seed_high: (seed >> 64) as u64,
            has_seed: 1,
            pass_alone: u8::from(self.pass_alone),
            spare: [0; 6],
        })
    }
}

/// How much room the next state is given, after one of so many octets, so that it is seldom written twice.
fn room_beside(octets: usize) -> usize {
    octets.saturating_add(octets / 8).saturating_add(4_096)
}

/// An open message of a gateway's joiner.
#[derive(Clone, Debug, PartialEq, Eq)]
pub struct GatewayMessage {
    /// For whom it is, as the gateway said; none where it said none.
    pub recipient: Option<String>,
    pub message: OpenMessage,
}

/// The open messages of a gateway's joiner, in order of opening.
#[derive(Debug)]
pub struct GatewayMessages<'a> {
    gateway: &'a mut Gateway,
    cursor: raw::Cursor,
}

impl Iterator for GatewayMessages<'_> {
    type Item = Result<GatewayMessage, Error>;

    /// The next one; `NoMemory` where there is none for the texts of its origin and recipient, and the one after it comes
    /// next.
    fn next(&mut self) -> Option<Self::Item> {
        let mut seen = raw::GatewayMessage::default();
        // SAFETY: the joiner, the cursor and the struct are ours.
        match unsafe { raw::sms_gateway_each(&mut self.gateway.handle, &mut self.cursor, &mut seen) } {
            raw::SMS_OK => Some(self.gateway.message(seen)),
            raw::SMS_NOT_THERE => None,
            status => Some(Err(Error::of(status, raw::Refused::default()))),
        }
    }
}

impl FusedIterator for GatewayMessages<'_> {}

/// Joins segments for many recipients, whichever way they come, to texts, each once.
///
/// A recipient is an address (a number, after a + where it is international, or a name). Segments for one are never joined
/// into a text for another, and are no repeats of the other's; those for none (also an empty text) are as for a recipient
/// of their own. Of threads what is said of a [`Joiner`](crate::Joiner) holds.
#[derive(Debug)]
pub struct Gateway {
    handle: raw::Gateway,
    /// How much room the next state is given.
    room: usize,
}

// SAFETY: what a joiner holds is its own, and the library's calls on it may be made from any thread, one at a time.
unsafe impl Send for Gateway {}

impl Gateway {
    /// A joiner with these limits that holds nothing; `OutOfRange` where one of them cannot be.
    pub fn open(limits: &GatewayLimits) -> Result<Gateway, Error> {
        let (mut gateway, limits) = (raw::Gateway::CLOSED, limits.raw()?);
        // SAFETY: both are ours, and it is closed.
        match unsafe { raw::sms_gateway_open(&mut gateway, &limits) } {
            raw::SMS_OK => Ok(Gateway { handle: gateway, room: room_beside(0) }),
            status => Err(Error::of(status, raw::Refused::default())),
        }
    }

    /// The joiner that holds what was saved of one with these limits, and the number that was saved beside: it answers all
    /// that comes as that one would. `Refused` where the octets are no such state. Nothing is forgotten till
    /// [`age`](Gateway::age), the text is empty, and the seed may be another.
    pub fn read(limits: &GatewayLimits, octets: &[u8]) -> Result<(Gateway, u64), Error> {
        let (mut gateway, limits) = (raw::Gateway::CLOSED, limits.raw()?);
        let (mut taken, mut refused) = (0, raw::Refused::default());
        // SAFETY: the pointer is to as many octets as are counted with it, the rest is ours, and the joiner is closed.
        match unsafe {
            raw::sms_gateway_read(&mut gateway, &limits, octets.as_ptr(), octets.len(), &mut taken, &mut refused)
        } {
            raw::SMS_OK => Ok((Gateway { handle: gateway, room: room_beside(octets.len()) }, taken)),
            status => Err(Error::of(status, refused)),
        }
    }

    /// All that it holds but [`text`](Gateway::text), for [`read`](Gateway::read) at the next start, with a number of the
    /// caller's, which tells how much of its input is in there.
    pub fn save(&mut self, taken: u64) -> Result<Vec<u8>, Error> {
        // SAFETY: the room is as counted, and the joiner is ours.
        let octets = answer(self.room, |out, room, needed| unsafe {
            raw::sms_gateway_save(&mut self.handle, taken, out, room, needed)
        })?;
        self.room = room_beside(octets.len());
        Ok(octets)
    }

    /// Offers an SMS-DELIVER for a recipient that came at a moment, in seconds from the beginning of 2000. `BadAddress`
    /// where the recipient is none; else as [`Joiner::offer`](crate::Joiner::offer).
    pub fn offer(&mut self, seconds: u64, recipient: Option<&str>, octets: &[u8]) -> Result<Offer, Error> {
        let to = recipient.unwrap_or("");
        let (mut outcome, mut refused) = (0, raw::Refused::default());
        // SAFETY: each pointer is to as many octets as are counted with it, and the rest is ours.
        let status = unsafe {
            raw::sms_gateway_offer(
                &mut self.handle, seconds, to.as_ptr(), to.len(), octets.as_ptr(), octets.len(), &mut outcome, &mut refused,
            )
        };
        answered(status, outcome, refused, || self.text())
    }

    /// Offers user data alone for a recipient and from an origin, that came at a moment: as
    /// [`Joiner::offer_data`](crate::Joiner::offer_data). `BadAddress` where the recipient or the origin is none.
    pub fn offer_data(
        &mut self, seconds: u64, recipient: Option<&str>, origin: &str, data: &Data, stamp: Option<Stamp>,
        languages: bool,
    ) -> Result<Offer, Error> {
        let (offer, octets, to) = (data.offer(stamp, languages), data.octets, recipient.unwrap_or(""));
        let (mut outcome, mut refused) = (0, raw::Refused::default());
        // SAFETY: each pointer is to as many octets as are counted with it, and the rest is ours.
        let status = unsafe {
            raw::sms_gateway_offer_data(
                &mut self.handle, seconds, &offer, to.as_ptr(), to.len(), origin.as_ptr(), origin.len(), octets.as_ptr(),
                octets.len(), &mut outcome, &mut refused,
            )
        };
        answered(status, outcome, refused, || self.text())
    }

    /// The text that finished last, of whatever recipient; empty before one did.
    pub fn text(&mut self) -> Result<String, Error> {
        // SAFETY: the room is as counted, and the joiner is ours.
        let text = answer(raw::SMS_TEXT_MAX, |out, room, needed| unsafe {
            raw::sms_gateway_text(&mut self.handle, out, room, needed)
        })?;
        text_of(text)
    }

    /// Whether an SMS-DELIVER for a recipient would finish its message; nothing changes. Errors as `offer`.
    pub fn would_finish(&mut self, recipient: Option<&str>, octets: &[u8]) -> Result<bool, Error> {
        let to = recipient.unwrap_or("");
        let (mut finishes, mut refused) = (0, raw::Refused::default());
        // SAFETY: each pointer is to as many octets as are counted with it, and the rest is ours.
        match unsafe {
            raw::sms_gateway_would_finish(
                &mut self.handle, to.as_ptr(), to.len(), octets.as_ptr(), octets.len(), &mut finishes, &mut refused,
            )
        } {
            raw::SMS_OK => Ok(finishes == 1),
            status => Err(Error::of(status, refused)),
        }
    }

    /// Whether user data alone for a recipient would finish their message; nothing changes. Errors as `offer_data`.
    pub fn would_finish_data(
        &mut self, recipient: Option<&str>, origin: &str, data: &Data, stamp: Option<Stamp>,
    ) -> Result<bool, Error> {
        let (offer, octets, to) = (data.offer(stamp, false), data.octets, recipient.unwrap_or(""));
        let (mut finishes, mut refused) = (0, raw::Refused::default());
        // SAFETY: each pointer is to as many octets as are counted with it, and the rest is ours.
        match unsafe {
            raw::sms_gateway_would_finish_data(
                &mut self.handle, &offer, to.as_ptr(), to.len(), origin.as_ptr(), origin.len(), octets.as_ptr(),
                octets.len(), &mut finishes, &mut refused,
            )
        } {
            raw::SMS_OK => Ok(finishes == 1),
            status => Err(Error::of(status, refused)),
        }
    }

    /// Drops the messages whose first segment came `open_for` seconds before the moment, or earlier, and forgets the
    /// finished ones that finished `remember_for` seconds before it, or earlier.
    pub fn age(&mut self, seconds: u64) {
        // SAFETY: it is ours. An open joiner answers nothing but 0.
        unsafe { raw::sms_gateway_age(&mut self.handle, seconds) };
    }

    /// How many messages of all recipients are open: some of their segments have come, and not all.
    pub fn open_count(&mut self) -> usize {
        let mut open_count = 0;
        // SAFETY: both are ours. An open joiner answers nothing but 0.
        unsafe { raw::sms_gateway_count(&mut self.handle, &mut open_count) };
        open_count
    }

    /// The open messages of all recipients, in order of opening.
    pub fn open_messages(&mut self) -> GatewayMessages<'_> {
        GatewayMessages { gateway: self, cursor: raw::Cursor::default() }
    }

    /// The same, by another name.
    pub fn open_sets(&mut self) -> GatewayMessages<'_> {
        self.open_messages()
    }

    /// An open message, with the texts of its origin and recipient.
    fn message(&mut self, seen: raw::GatewayMessage) -> Result<GatewayMessage, Error> {
        let opening = seen.message.opening;
        // SAFETY: the room is as counted, and the joiner is ours.
        let origin = answer(raw::SMS_ADDRESS_TEXT_MAX, |out, room, needed| unsafe {
            raw::sms_gateway_origin(&mut self.handle, opening, out, room, needed)
        })?;
        let mut recipient = None;
        if seen.has_recipient == 1 {
            // SAFETY: as above.
            recipient = Some(text_of(answer(raw::SMS_ADDRESS_TEXT_MAX, |out, room, needed| unsafe {
                raw::sms_gateway_recipient(&mut self.handle, opening, out, room, needed)
            })?)?);
        }
        Ok(GatewayMessage { recipient, message: OpenMessage::of(text_of(origin)?, seen.message) })
    }
}

impl Drop for Gateway {
    fn drop(&mut self) {
        // SAFETY: it is ours.
        unsafe { raw::sms_gateway_close(&mut self.handle) }
    }
}
