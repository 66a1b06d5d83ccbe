//! The numbers, structs and calls of sms.h. The rest of this crate is the safe way to them.

pub const SMS_ABI: u32 = 2;
/// Of the header that these are the declarations of.
pub const SMS_VERSION: u32 = 2_004_000;

pub const SMS_TEXT_MAX: usize = 480;
pub const SMS_UNIT_MAX: usize = 192;
pub const SMS_PACKET_MAX: usize = 258;
pub const SMS_ADDRESS_TEXT_MAX: usize = 33;

pub const SMS_OK: u32 = 0;
pub const SMS_REFUSED: u32 = 1;
pub const SMS_NO_MEMORY: u32 = 2;
pub const SMS_NO_ROOM: u32 = 3;
pub const SMS_NOT_UTF8: u32 = 4;
pub const SMS_BAD_ADDRESS: u32 = 5;
pub const SMS_TOO_LONG: u32 = 6;
pub const SMS_OUT_OF_RANGE: u32 = 7;
pub const SMS_NOT_THERE: u32 = 8;
pub const SMS_TOO_MANY_OPEN: u32 = 9;
pub const SMS_CLOSED: u32 = 10;
pub const SMS_CHANGED: u32 = 11;

pub const SMS_SHORT: u32 = 1;
pub const SMS_WRONG_TYPE: u32 = 2;
pub const SMS_ADDRESS_TOO_LONG: u32 = 3;
pub const SMS_BAD_DIGIT: u32 = 4;
pub const SMS_DATA_TOO_LONG: u32 = 5;
pub const SMS_HEADER_TOO_LONG: u32 = 6;
pub const SMS_NOT_SMS: u32 = 7;
pub const SMS_BAD_TRANSACTION: u32 = 8;
pub const SMS_UNKNOWN_TYPE: u32 = 9;
pub const SMS_BAD_RELAY_ADDRESS: u32 = 10;
pub const SMS_BAD_CAUSE: u32 = 11;
pub const SMS_BAD_SEPTET: u32 = 12;
pub const SMS_BAD_STATUS: u32 = 13;
pub const SMS_NOT_PADDING: u32 = 14;
pub const SMS_OTHER_LENGTH: u32 = 15;
pub const SMS_NO_STATE: u32 = 16;
pub const SMS_NEWER: u32 = 17;
pub const SMS_BAD_FLAG: u32 = 18;
pub const SMS_OTHER_LIMITS: u32 = 19;
pub const SMS_TOO_MANY: u32 = 20;
pub const SMS_NOT_OPEN: u32 = 21;
pub const SMS_OUT_OF_ORDER: u32 = 22;
pub const SMS_REPEATED: u32 = 23;
pub const SMS_TRAILING: u32 = 24;
pub const SMS_BAD_CHECKSUM: u32 = 25;
pub const SMS_BAD_KEY: u32 = 26;
pub const SMS_MOMENTS_FALL: u32 = 27;

pub const SMS_GSM7: u8 = 0;
pub const SMS_EIGHT_BIT: u8 = 1;
pub const SMS_UCS2: u8 = 2;
pub const SMS_COMPRESSED: u8 = 3;

pub const SMS_VALIDITY_ABSENT: u8 = 0;
pub const SMS_VALIDITY_RELATIVE: u8 = 1;
pub const SMS_VALIDITY_ENHANCED: u8 = 2;
pub const SMS_VALIDITY_ABSOLUTE: u8 = 3;

pub const SMS_WHOLE: u8 = 0;
pub const SMS_COUNTED: u8 = 1;
pub const SMS_SINGLE: u8 = 2;

pub const SMS_RECORD_FREE: u8 = 0;
pub const SMS_RECORD_READ: u8 = 1;
pub const SMS_RECORD_UNREAD: u8 = 3;
pub const SMS_RECORD_SENT: u8 = 5;
pub const SMS_RECORD_TO_BE_SENT: u8 = 7;
pub const SMS_RECORD_SENT_AWAITED: u8 = 13;
pub const SMS_RECORD_SENT_RECEIVED: u8 = 21;
pub const SMS_RECORD_SENT_STORED: u8 = 29;

pub const SMS_NO_UNIT: u8 = 0;
pub const SMS_UNIT_DELIVER: u8 = 1;
pub const SMS_UNIT_STATUS_REPORT: u8 = 2;
pub const SMS_UNIT_SUBMIT: u8 = 3;
pub const SMS_UNIT_COMMAND: u8 = 4;

pub const SMS_REPEAT: u32 = 0;
pub const SMS_KEPT: u32 = 1;
pub const SMS_FINISHED: u32 = 2;

/// CP-DATA and RP-DATA, CP-ACK and RP-ACK, CP-ERROR and RP-ERROR.
pub const KIND_DATA: u8 = 0;
pub const KIND_ACK: u8 = 1;
pub const KIND_ERROR: u8 = 2;

macro_rules! structs {
    ($($(#[$doc:meta])* $c:literal $name:ident { $($field:ident: $type:ty,)* })*) => {
        $(
            $(#[$doc])*
            #[repr(C)]
            #[derive(Clone, Copy, Debug, Default, PartialEq, Eq)]
            pub struct $name {
                $(pub $field: $type,)*
            }
        )*

        /// A line for each struct, its size, and for each field its offset and size.
        pub fn layout() -> Vec<String> {
            let mut lines = Vec::new();
            $(
                let size = core::mem::size_of::<$name>();
                lines.push(format!("{} {size}", $c));
                let value = $name::default();
                let start = core::ptr::addr_of!(value) as usize;
                $(
                    let offset = core::ptr::addr_of!(value.$field) as usize - start;
                    let size = core::mem::size_of_val(&value.$field);
                    lines.push(format!("{}.{} {offset} {size}", $c, stringify!($field)));
                )*
            )*
            handles(&mut lines);
            lines
        }
    };
}

structs! {
    /// Where octets are refused, and why.
    "sms_refused" Refused { place: usize, reason: u32, }
    /// Octets in the caller's octets.
    "sms_span" Span { offset: usize, length: usize, }
    "sms_address" Address { octets: Span, type_of_number: u8, plan: u8, }
    "sms_place" Place { width: u16, reference: u16, maximum: u8, sequence: u8, }
    "sms_user" User {
        header: Span,
        body: Span,
        place: Place,
        length: u8,
        alphabet: u8,
        has_header: u8,
        fill: u8,
        count: u8,
    }
    "sms_stamp" Stamp { octets: [u8; 7], }
    "sms_validity" Validity { format: u8, octets: [u8; 7], }
    "sms_date" Date {
        year: u16,
        month: u8,
        day: u8,
        hour: u8,
        minute: u8,
        second: u8,
        quarters: i8,
    }
    "sms_deliver" Deliver {
        origin: Address,
        user: User,
        used: usize,
        more: u8,
        looped: u8,
        report: u8,
        reply: u8,
        pid: u8,
        dcs: u8,
        stamp: Stamp,
    }
    "sms_submit" Submit {
        target: Address,
        user: User,
        used: usize,
        reject: u8,
        report: u8,
        reply: u8,
        reference: u8,
        pid: u8,
        dcs: u8,
        validity: Validity,
    }
    "sms_report" Report {
        data: Span,
        header: Span,
        used: usize,
        has_header: u8,
        has_cause: u8,
        cause: u8,
        has_stamp: u8,
        stamp: Stamp,
        has_pid: u8,
        pid: u8,
        has_dcs: u8,
        dcs: u8,
        has_data: u8,
        length: u8,
        alphabet: u8,
    }
    "sms_status_report" StatusReport {
        recipient: Address,
        data: Span,
        header: Span,
        used: usize,
        more: u8,
        looped: u8,
        qualifier: u8,
        has_header: u8,
        reference: u8,
        stamp: Stamp,
        discharged: Stamp,
        status: u8,
        has_pid: u8,
        pid: u8,
        has_dcs: u8,
        dcs: u8,
        has_data: u8,
        length: u8,
        alphabet: u8,
    }
    "sms_command" Command {
        target: Address,
        data: Span,
        header: Span,
        used: usize,
        has_header: u8,
        report: u8,
        reference: u8,
        pid: u8,
        kind: u8,
        message: u8,
    }
    "sms_cp" Cp { user: Span, used: usize, flag: u8, value: u8, kind: u8, cause: u8, }
    "sms_rp" Rp {
        address: Span,
        user: Span,
        used: usize,
        side: u8,
        reference: u8,
        kind: u8,
        has_address: u8,
        has_user: u8,
        cause: u8,
        has_diagnostic: u8,
        diagnostic: u8,
    }
    "sms_envelope" Envelope { flag: u8, value: u8, side: u8, reference: u8, }
    "sms_reference" Reference { width: u16, reference: u16, }
    "sms_submit_fields" SubmitFields {
        segments: Reference,
        reject: u8,
        report: u8,
        reply: u8,
        reference: u8,
        pid: u8,
        validity: Validity,
        message_class: u8,
        spare: [u8; 6],
    }
    "sms_deliver_fields" DeliverFields {
        segments: Reference,
        more: u8,
        looped: u8,
        report: u8,
        reply: u8,
        pid: u8,
        stamp: Stamp,
        message_class: u8,
        spare: [u8; 6],
    }
    "sms_report_fields" ReportFields {
        stamp: Stamp,
        cause: u8,
        has_pid: u8,
        pid: u8,
        has_dcs: u8,
        dcs: u8,
        has_data: u8,
        has_header: u8,
        length: u8,
        spare: [u8; 6],
    }
    "sms_status_report_fields" StatusReportFields {
        stamp: Stamp,
        discharged: Stamp,
        more: u8,
        looped: u8,
        qualifier: u8,
        reference: u8,
        status: u8,
        has_pid: u8,
        pid: u8,
        has_dcs: u8,
        dcs: u8,
        has_data: u8,
        has_header: u8,
        length: u8,
        spare: [u8; 6],
    }
    "sms_data_form" DataForm {
        dcs: u8,
        has_header: u8,
        standing: u8,
        length: u8,
        languages: u8,
        spare: [u8; 6],
    }
    "sms_data" Data {
        header: Span,
        body: Span,
        used: usize,
        count: usize,
        place: Place,
        alphabet: u8,
        has_header: u8,
        single: u8,
        fill: u8,
    }
    "sms_data_fields" DataFields { segments: Reference, single: u8, spare: [u8; 6], }
    "sms_data_segment" DataSegment { octets: Span, dcs: u8, has_header: u8, length: u8, }
    "sms_record" Record { address: Span, unit: Span, status: u8, has_address: u8, kind: u8, }
    "sms_record_fields" RecordFields { status: u8, spare: [u8; 6], }
    "sms_data_offer" DataOffer { has_stamp: u8, stamp: Stamp, form: DataForm, }
    "sms_open_message" OpenMessage {
        seconds: u64,
        opening: u64,
        width: u16,
        reference: u16,
        maximum: u8,
        count: u8,
        type_of_number: u8,
        plan: u8,
        come: [u8; 32],
    }
    "sms_cursor" Cursor { change: u64, opening: u64, }
    "sms_gateway_limits" GatewayLimits {
        open_max: usize,
        remembered: usize,
        open_for: u64,
        remember_for: u64,
        seed_low: u64,
        seed_high: u64,
        has_seed: u8,
        pass_alone: u8,
        spare: [u8; 6],
    }
    "sms_gateway_message" GatewayMessage { message: OpenMessage, has_recipient: u8, }
}

/// A joiner: closed, or with what the library holds for it.
#[repr(C)]
#[derive(Debug)]
pub struct Joiner {
    pub open: u32,
    pub inside: *mut core::ffi::c_void,
}

impl Joiner {
    pub const CLOSED: Joiner = Joiner { open: 0, inside: core::ptr::null_mut() };
}

/// A gateway's joiner: closed, or with what the library holds for it.
#[repr(C)]
#[derive(Debug)]
pub struct Gateway {
    pub open: u32,
    pub inside: *mut core::ffi::c_void,
}

impl Gateway {
    pub const CLOSED: Gateway = Gateway { open: 0, inside: core::ptr::null_mut() };
}

/// The lines of the structs that hold a pointer.
fn handles(lines: &mut Vec<String>) {
    macro_rules! handle {
        ($c:literal, $name:ident) => {
            let value = $name::CLOSED;
            let start = core::ptr::addr_of!(value) as usize;
            let open = core::ptr::addr_of!(value.open) as usize - start;
            let inside = core::ptr::addr_of!(value.inside) as usize - start;
            lines.push(format!("{} {}", $c, core::mem::size_of::<$name>()));
            lines.push(format!("{}.open {open} {}", $c, core::mem::size_of_val(&value.open)));
            lines.push(format!("{}.inside {inside} {}", $c, core::mem::size_of_val(&value.inside)));
        };
    }
    handle!("sms_joiner", Joiner);
    handle!("sms_gateway", Gateway);
}

extern "C" {
    pub fn sms_deliver_read(octets: *const u8, count: usize, out: *mut Deliver, refused: *mut Refused) -> u32;
    pub fn sms_submit_read(octets: *const u8, count: usize, out: *mut Submit, refused: *mut Refused) -> u32;
    pub fn sms_deliver_ack_read(octets: *const u8, count: usize, out: *mut Report, refused: *mut Refused) -> u32;
    pub fn sms_deliver_error_read(octets: *const u8, count: usize, out: *mut Report, refused: *mut Refused) -> u32;
    pub fn sms_submit_ack_read(octets: *const u8, count: usize, out: *mut Report, refused: *mut Refused) -> u32;
    pub fn sms_submit_error_read(octets: *const u8, count: usize, out: *mut Report, refused: *mut Refused) -> u32;
    pub fn sms_status_report_read(
        octets: *const u8, count: usize, out: *mut StatusReport, refused: *mut Refused,
    ) -> u32;
    pub fn sms_command_read(octets: *const u8, count: usize, out: *mut Command, refused: *mut Refused) -> u32;
    pub fn sms_address_text(
        octets: *const u8, count: usize, address: *const Address, out: *mut u8, room: usize, needed: *mut usize,
    ) -> u32;
    pub fn sms_user_text(
        octets: *const u8, count: usize, user: *const User, out: *mut u8, room: usize, needed: *mut usize,
    ) -> u32;
    pub fn sms_stamp_date(stamp: *const Stamp, out: *mut Date) -> u32;
    pub fn sms_stamp_moment(stamp: *const Stamp, seconds: *mut u64) -> u32;
    pub fn sms_stamp_at(seconds: u64, quarters: i8, out: *mut Stamp) -> u32;
    pub fn sms_validity_end(validity: *const Validity, accepted: u64, seconds: *mut u64) -> u32;
    pub fn sms_cp_read(octets: *const u8, count: usize, out: *mut Cp, refused: *mut Refused) -> u32;
    pub fn sms_rp_read(octets: *const u8, count: usize, out: *mut Rp, refused: *mut Refused) -> u32;
    pub fn sms_wrap_data(
        envelope: *const Envelope, address: *const u8, address_count: usize, unit: *const u8, unit_count: usize,
        out: *mut u8, room: usize, needed: *mut usize,
    ) -> u32;
    pub fn sms_wrap_ack(
        envelope: *const Envelope, unit: *const u8, unit_count: usize, out: *mut u8, room: usize, needed: *mut usize,
    ) -> u32;
    pub fn sms_wrap_error(
        envelope: *const Envelope, cause: u8, unit: *const u8, unit_count: usize, out: *mut u8, room: usize,
        needed: *mut usize,
    ) -> u32;
    pub fn sms_cp_ack(envelope: *const Envelope, out: *mut u8, room: usize, needed: *mut usize) -> u32;
    pub fn sms_cp_error(envelope: *const Envelope, cause: u8, out: *mut u8, room: usize, needed: *mut usize) -> u32;
    pub fn sms_submit_write(
        fields: *const SubmitFields, target: *const u8, target_count: usize, text: *const u8, text_count: usize,
        index: usize, out: *mut u8, room: usize, needed: *mut usize, segments: *mut usize,
    ) -> u32;
    pub fn sms_deliver_write(
        fields: *const DeliverFields, origin: *const u8, origin_count: usize, text: *const u8, text_count: usize,
        index: usize, out: *mut u8, room: usize, needed: *mut usize, segments: *mut usize,
    ) -> u32;
    pub fn sms_split(
        reference: *const Reference, text: *const u8, text_count: usize, out: *mut u8, room: usize,
        needed: *mut usize, spans: *mut Span, span_count: usize, segments: *mut usize, dcs: *mut u8,
    ) -> u32;
    pub fn sms_version() -> u32;
    pub fn sms_relay_address_text(
        octets: *const u8, count: usize, rp: *const Rp, out: *mut u8, room: usize, needed: *mut usize,
    ) -> u32;
    pub fn sms_report_text(
        octets: *const u8, count: usize, report: *const Report, out: *mut u8, room: usize, needed: *mut usize,
    ) -> u32;
    pub fn sms_status_report_text(
        octets: *const u8, count: usize, report: *const StatusReport, out: *mut u8, room: usize, needed: *mut usize,
    ) -> u32;
    pub fn sms_deliver_ack_write(
        fields: *const ReportFields, octets: *const u8, count: usize, out: *mut u8, room: usize, needed: *mut usize,
    ) -> u32;
    pub fn sms_deliver_error_write(
        fields: *const ReportFields, octets: *const u8, count: usize, out: *mut u8, room: usize, needed: *mut usize,
    ) -> u32;
    pub fn sms_submit_ack_write(
        fields: *const ReportFields, octets: *const u8, count: usize, out: *mut u8, room: usize, needed: *mut usize,
    ) -> u32;
    pub fn sms_submit_error_write(
        fields: *const ReportFields, octets: *const u8, count: usize, out: *mut u8, room: usize, needed: *mut usize,
    ) -> u32;
    pub fn sms_status_report_write(
        fields: *const StatusReportFields, recipient: *const u8, recipient_count: usize, octets: *const u8,
        count: usize, out: *mut u8, room: usize, needed: *mut usize,
    ) -> u32;
    pub fn sms_submit_data_write(
        fields: *const SubmitFields, dcs: u8, has_header: u8, target: *const u8, target_count: usize,
        octets: *const u8, count: usize, out: *mut u8, room: usize, needed: *mut usize,
    ) -> u32;
    pub fn sms_deliver_data_write(
        fields: *const DeliverFields, dcs: u8, has_header: u8, origin: *const u8, origin_count: usize,
        octets: *const u8, count: usize, out: *mut u8, room: usize, needed: *mut usize,
    ) -> u32;
    pub fn sms_data_read(
        octets: *const u8, count: usize, form: *const DataForm, out: *mut Data, refused: *mut Refused,
    ) -> u32;
    pub fn sms_data_text(
        octets: *const u8, count: usize, form: *const DataForm, out: *mut u8, room: usize, needed: *mut usize,
    ) -> u32;
    pub fn sms_data_split(
        fields: *const DataFields, text: *const u8, text_count: usize, out: *mut u8, room: usize, needed: *mut usize,
        parts: *mut DataSegment, part_count: usize, segments: *mut usize,
    ) -> u32;
    pub fn sms_record_read(octets: *const u8, count: usize, out: *mut Record, refused: *mut Refused) -> u32;
    pub fn sms_record_write(
        fields: *const RecordFields, centre: *const u8, centre_count: usize, unit: *const u8, unit_count: usize,
        out: *mut u8, room: usize, needed: *mut usize, refused: *mut Refused,
    ) -> u32;
    pub fn sms_joiner_open(joiner: *mut Joiner, open_max: usize, remembered: usize) -> u32;
    pub fn sms_joiner_open_seeded(
        joiner: *mut Joiner, open_max: usize, remembered: usize, seed_low: u64, seed_high: u64,
    ) -> u32;
    pub fn sms_joiner_close(joiner: *mut Joiner);
    pub fn sms_joiner_offer(
        joiner: *mut Joiner, seconds: u64, octets: *const u8, count: usize, outcome: *mut u32, refused: *mut Refused,
    ) -> u32;
    pub fn sms_joiner_offer_data(
        joiner: *mut Joiner, seconds: u64, offer: *const DataOffer, origin: *const u8, origin_count: usize,
        octets: *const u8, count: usize, outcome: *mut u32, refused: *mut Refused,
    ) -> u32;
    pub fn sms_joiner_text(joiner: *mut Joiner, out: *mut u8, room: usize, needed: *mut usize) -> u32;
    pub fn sms_joiner_would_finish(
        joiner: *mut Joiner, octets: *const u8, count: usize, finishes: *mut u8, refused: *mut Refused,
    ) -> u32;
    pub fn sms_joiner_would_finish_data(
        joiner: *mut Joiner, offer: *const DataOffer, origin: *const u8, origin_count: usize, octets: *const u8,
        count: usize, finishes: *mut u8, refused: *mut Refused,
    ) -> u32;
    pub fn sms_joiner_age(joiner: *mut Joiner, seconds: u64) -> u32;
    pub fn sms_joiner_count(joiner: *mut Joiner, open_count: *mut usize) -> u32;
    pub fn sms_joiner_each(joiner: *mut Joiner, cursor: *mut Cursor, message: *mut OpenMessage) -> u32;
    pub fn sms_joiner_origin(
        joiner: *mut Joiner, opening: u64, out: *mut u8, room: usize, needed: *mut usize,
    ) -> u32;
    pub fn sms_gateway_open(gateway: *mut Gateway, limits: *const GatewayLimits) -> u32;
    pub fn sms_gateway_close(gateway: *mut Gateway);
    pub fn sms_gateway_offer(
        gateway: *mut Gateway, seconds: u64, recipient: *const u8, recipient_count: usize, octets: *const u8,
        count: usize, outcome: *mut u32, refused: *mut Refused,
    ) -> u32;
    pub fn sms_gateway_would_finish(
        gateway: *mut Gateway, recipient: *const u8, recipient_count: usize, octets: *const u8, count: usize,
        finishes: *mut u8, refused: *mut Refused,
    ) -> u32;
    pub fn sms_gateway_offer_data(
        gateway: *mut Gateway, seconds: u64, offer: *const DataOffer, recipient: *const u8, recipient_count: usize,
        origin: *const u8, origin_count: usize, octets: *const u8, count: usize, outcome: *mut u32,
        refused: *mut Refused,
    ) -> u32;
    pub fn sms_gateway_would_finish_data(
        gateway: *mut Gateway, offer: *const DataOffer, recipient: *const u8, recipient_count: usize,
        origin: *const u8, origin_count: usize, octets: *const u8, count: usize, finishes: *mut u8,
        refused: *mut Refused,
    ) -> u32;
    pub fn sms_gateway_text(gateway: *mut Gateway, out: *mut u8, room: usize, needed: *mut usize) -> u32;
    pub fn sms_gateway_age(gateway: *mut Gateway, seconds: u64) -> u32;
    pub fn sms_gateway_save(
        gateway: *mut Gateway, taken: u64, out: *mut u8, room: usize, needed: *mut usize,
    ) -> u32;
    pub fn sms_gateway_read(
        gateway: *mut Gateway, limits: *const GatewayLimits, octets: *const u8, count: usize, taken: *mut u64,
        refused: *mut Refused,
    ) -> u32;
    pub fn sms_gateway_count(gateway: *mut Gateway, open_count: *mut usize) -> u32;
    pub fn sms_gateway_each(gateway: *mut Gateway, cursor: *mut Cursor, message: *mut GatewayMessage) -> u32;
    pub fn sms_gateway_origin(
        gateway: *mut Gateway, opening: u64, out: *mut u8, room: usize, needed: *mut usize,
    ) -> u32;
    pub fn sms_gateway_recipient(
        gateway: *mut Gateway, opening: u64, out: *mut u8, room: usize, needed: *mut usize,
    ) -> u32;
}
