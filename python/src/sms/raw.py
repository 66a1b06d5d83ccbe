"""The structs and calls of sms.h, by ctypes. `sms` is the package to use."""

from __future__ import annotations

import ctypes
import enum
import os
from ctypes import POINTER, Structure, c_char_p, c_int8, c_size_t, c_uint8, c_uint16, c_uint32, c_uint64, c_void_p
from pathlib import Path
from typing import Any, Dict, List

# The version of the header that these are the declarations of, the number of its interface, and the sizes that are
# always enough.
VERSION = 2_004_000
ABI = VERSION // 1_000_000
TEXT_MAX, UNIT_MAX, PACKET_MAX, ADDRESS_TEXT_MAX = 480, 192, 258, 33
# Of packets: CP-DATA and RP-DATA, CP-ACK and RP-ACK, CP-ERROR and RP-ERROR.
KINDS = ("data", "ack", "error")


class Status(enum.IntEnum):
    """What a call answers."""

    OK = 0
    REFUSED = 1
    NO_MEMORY = 2
    NO_ROOM = 3
    NOT_UTF8 = 4
    BAD_ADDRESS = 5
    TOO_LONG = 6
    OUT_OF_RANGE = 7
    NOT_THERE = 8
    TOO_MANY_OPEN = 9
    CLOSED = 10
    CHANGED = 11


class Span(Structure):
    _fields_ = [("offset", c_size_t), ("length", c_size_t)]


class Refused(Structure):
    _fields_ = [("place", c_size_t), ("reason", c_uint32)]


class Address(Structure):
    _fields_ = [("octets", Span), ("type_of_number", c_uint8), ("plan", c_uint8)]


class Place(Structure):
    _fields_ = [("width", c_uint16), ("reference", c_uint16), ("maximum", c_uint8), ("sequence", c_uint8)]


class User(Structure):
    _fields_ = [
        ("header", Span),
        ("body", Span),
        ("place", Place),
        ("length", c_uint8),
        ("alphabet", c_uint8),
        ("has_header", c_uint8),
        ("fill", c_uint8),
        ("count", c_uint8),
    ]


class Stamp(Structure):
    _fields_ = [("octets", c_uint8 * 7)]


class Validity(Structure):
    _fields_ = [("format", c_uint8), ("octets", c_uint8 * 7)]


class Date(Structure):
    _fields_ = [
        ("year", c_uint16),
        ("month", c_uint8),
        ("day", c_uint8),
        ("hour", c_uint8),
        ("minute", c_uint8),
        ("second", c_uint8),
        ("quarters", c_int8),
    ]


class Deliver(Structure):
    _fields_ = [
        ("origin", Address),
        ("user", User),
        ("used", c_size_t),
        ("more", c_uint8),
        ("looped", c_uint8),
        ("report", c_uint8),
        ("reply", c_uint8),
        ("pid", c_uint8),
        ("dcs", c_uint8),
        ("stamp", Stamp),
    ]


class Submit(Structure):
    _fields_ = [
        ("target", Address),
        ("user", User),
        ("used", c_size_t),
        ("reject", c_uint8),
        ("report", c_uint8),
        ("reply", c_uint8),
        ("reference", c_uint8),
        ("pid", c_uint8),
        ("dcs", c_uint8),
        ("validity", Validity),
    ]


class Report(Structure):
    _fields_ = [
        ("data", Span),
        ("header", Span),
        ("used", c_size_t),
        ("has_header", c_uint8),
        ("has_cause", c_uint8),
        ("cause", c_uint8),
        ("has_stamp", c_uint8),
        ("stamp", Stamp),
        ("has_pid", c_uint8),
        ("pid", c_uint8),
        ("has_dcs", c_uint8),
        ("dcs", c_uint8),
        ("has_data", c_uint8),
        ("length", c_uint8),
        ("alphabet", c_uint8),
    ]


class StatusReport(Structure):
    _fields_ = [
        ("recipient", Address),
        ("data", Span),
        ("header", Span),
        ("used", c_size_t),
        ("more", c_uint8),
        ("looped", c_uint8),
        ("qualifier", c_uint8),
        ("has_header", c_uint8),
        ("reference", c_uint8),
        ("stamp", Stamp),
        ("discharged", Stamp),
        ("status", c_uint8),
        ("has_pid", c_uint8),
        ("pid", c_uint8),
        ("has_dcs", c_uint8),
        ("dcs", c_uint8),
        ("has_data", c_uint8),
        ("length", c_uint8),
        ("alphabet", c_uint8),
    ]


class Command(Structure):
    _fields_ = [
        ("target", Address),
        ("data", Span),
        ("header", Span),
        ("used", c_size_t),
        ("has_header", c_uint8),
        ("report", c_uint8),
        ("reference", c_uint8),
        ("pid", c_uint8),
        ("kind", c_uint8),
        ("message", c_uint8),
    ]


class Cp(Structure):
    _fields_ = [
        ("user", Span),
        ("used", c_size_t),
        ("flag", c_uint8),
        ("value", c_uint8),
        ("kind", c_uint8),
        ("cause", c_uint8),
    ]


class Rp(Structure):
    _fields_ = [
        ("address", Span),
        ("user", Span),
        ("used", c_size_t),
        ("side", c_uint8),
        ("reference", c_uint8),
        ("kind", c_uint8),
        ("has_address", c_uint8),
        ("has_user", c_uint8),
        ("cause", c_uint8),
        ("has_diagnostic", c_uint8),
        ("diagnostic", c_uint8),
    ]


class Envelope(Structure):
    _fields_ = [("flag", c_uint8), ("value", c_uint8), ("side", c_uint8), ("reference", c_uint8)]


class Reference(Structure):
    _fields_ = [("width", c_uint16), ("reference", c_uint16)]


class SubmitFields(Structure):
    _fields_ = [
        ("segments", Reference),
        ("reject", c_uint8),
        ("report", c_uint8),
        ("reply", c_uint8),
        ("reference", c_uint8),
        ("pid", c_uint8),
        ("validity", Validity),
        ("message_class", c_uint8),
        ("spare", c_uint8 * 6),
    ]


class DeliverFields(Structure):
    _fields_ = [
        ("segments", Reference),
        ("more", c_uint8),
        ("looped", c_uint8),
        ("report", c_uint8),
        ("reply", c_uint8),
        ("pid", c_uint8),
        ("stamp", Stamp),
        ("message_class", c_uint8),
        ("spare", c_uint8 * 6),
    ]


class ReportFields(Structure):
    _fields_ = [
        ("stamp", Stamp),
        ("cause", c_uint8),
        ("has_pid", c_uint8),
        ("pid", c_uint8),
        ("has_dcs", c_uint8),
        ("dcs", c_uint8),
        ("has_data", c_uint8),
        ("has_header", c_uint8),
        ("length", c_uint8),
        ("spare", c_uint8 * 6),
    ]


class StatusReportFields(Structure):
    _fields_ = [
        ("stamp", Stamp),
        ("discharged", Stamp),
        ("more", c_uint8),
        ("looped", c_uint8),
        ("qualifier", c_uint8),
        ("reference", c_uint8),
        ("status", c_uint8),
        ("has_pid", c_uint8),
        ("pid", c_uint8),
        ("has_dcs", c_uint8),
        ("dcs", c_uint8),
        ("has_data", c_uint8),
        ("has_header", c_uint8),
        ("length", c_uint8),
        ("spare", c_uint8 * 6),
    ]


class DataForm(Structure):
    _fields_ = [
        ("dcs", c_uint8),
        ("has_header", c_uint8),
        ("standing", c_uint8),
        ("length", c_uint8),
        ("languages", c_uint8),
        ("spare", c_uint8 * 6),
    ]


class Data(Structure):
    _fields_ = [
        ("header", Span),
        ("body", Span),
        ("used", c_size_t),
        ("count", c_size_t),
        ("place", Place),
        ("alphabet", c_uint8),
        ("has_header", c_uint8),
        ("single", c_uint8),
        ("fill", c_uint8),
    ]


class DataFields(Structure):
    _fields_ = [("segments", Reference), ("single", c_uint8), ("spare", c_uint8 * 6)]


class DataSegment(Structure):
    _fields_ = [("octets", Span), ("dcs", c_uint8), ("has_header", c_uint8), ("length", c_uint8)]


class Record(Structure):
    _fields_ = [
        ("address", Span),
        ("unit", Span),
        ("status", c_uint8),
        ("has_address", c_uint8),
        ("kind", c_uint8),
    ]


class RecordFields(Structure):
    _fields_ = [("status", c_uint8), ("spare", c_uint8 * 6)]


class DataOffer(Structure):
    _fields_ = [("has_stamp", c_uint8), ("stamp", Stamp), ("form", DataForm)]


class Joiner(Structure):
    _fields_ = [("open", c_uint32), ("inside", c_void_p)]


class OpenMessage(Structure):
    _fields_ = [
        ("seconds", c_uint64),
        ("opening", c_uint64),
        ("width", c_uint16),
        ("reference", c_uint16),
        ("maximum", c_uint8),
        ("count", c_uint8),
        ("type_of_number", c_uint8),
        ("plan", c_uint8),
        ("come", c_uint8 * 32),
    ]


class Cursor(Structure):
    _fields_ = [("change", c_uint64), ("opening", c_uint64)]


class Gateway(Structure):
    _fields_ = [("open", c_uint32), ("inside", c_void_p)]


class GatewayLimits(Structure):
    _fields_ = [
        ("open_max", c_size_t),
        ("remembered", c_size_t),
        ("open_for", c_uint64),
        ("remember_for", c_uint64),
        ("seed_low", c_uint64),
        ("seed_high", c_uint64),
        ("has_seed", c_uint8),
        ("pass_alone", c_uint8),
        ("spare", c_uint8 * 6),
    ]


class GatewayMessage(Structure):
    _fields_ = [("message", OpenMessage), ("has_recipient", c_uint8)]


# The structs by their names in sms.h.
STRUCTS: Dict[str, Any] = {
    "sms_refused": Refused,
    "sms_span": Span,
    "sms_address": Address,
    "sms_place": Place,
    "sms_user": User,
    "sms_stamp": Stamp,
    "sms_validity": Validity,
    "sms_date": Date,
    "sms_deliver": Deliver,
    "sms_submit": Submit,
    "sms_report": Report,
    "sms_status_report": StatusReport,
    "sms_command": Command,
    "sms_cp": Cp,
    "sms_rp": Rp,
    "sms_envelope": Envelope,
    "sms_reference": Reference,
    "sms_submit_fields": SubmitFields,
    "sms_deliver_fields": DeliverFields,
    "sms_report_fields": ReportFields,
    "sms_status_report_fields": StatusReportFields,
    "sms_data_form": DataForm,
    "sms_data": Data,
    "sms_data_fields": DataFields,
    "sms_data_segment": DataSegment,
    "sms_record": Record,
    "sms_record_fields": RecordFields,
    "sms_joiner": Joiner,
    "sms_data_offer": DataOffer,
    "sms_open_message": OpenMessage,
    "sms_cursor": Cursor,
    "sms_gateway": Gateway,
    "sms_gateway_limits": GatewayLimits,
    "sms_gateway_message": GatewayMessage,
}

_IN: List[Any] = [c_char_p, c_size_t]
_OUT: List[Any] = [POINTER(c_uint8), c_size_t, POINTER(c_size_t)]
_REFUSED = POINTER(Refused)
_ENVELOPE = POINTER(Envelope)
_JOINER = POINTER(Joiner)
_GATEWAY = POINTER(Gateway)

# The parameters of each call, as sms.h declares them.
CALLS: Dict[str, List[Any]] = {
    "sms_deliver_read": [*_IN, POINTER(Deliver), _REFUSED],
    "sms_submit_read": [*_IN, POINTER(Submit), _REFUSED],
    "sms_deliver_ack_read": [*_IN, POINTER(Report), _REFUSED],
    "sms_deliver_error_read": [*_IN, POINTER(Report), _REFUSED],
    "sms_submit_ack_read": [*_IN, POINTER(Report), _REFUSED],
    "sms_submit_error_read": [*_IN, POINTER(Report), _REFUSED],
    "sms_status_report_read": [*_IN, POINTER(StatusReport), _REFUSED],
    "sms_command_read": [*_IN, POINTER(Command), _REFUSED],
    "sms_address_text": [*_IN, POINTER(Address), *_OUT],
    "sms_user_text": [*_IN, POINTER(User), *_OUT],
    "sms_stamp_date": [POINTER(Stamp), POINTER(Date)],
    "sms_stamp_moment": [POINTER(Stamp), POINTER(c_uint64)],
    "sms_stamp_at": [c_uint64, c_int8, POINTER(Stamp)],
    "sms_validity_end": [POINTER(Validity), c_uint64, POINTER(c_uint64)],
    "sms_cp_read": [*_IN, POINTER(Cp), _REFUSED],
    "sms_rp_read": [*_IN, POINTER(Rp), _REFUSED],
    "sms_wrap_data": [_ENVELOPE, *_IN, *_IN, *_OUT],
    "sms_wrap_ack": [_ENVELOPE, *_IN, *_OUT],
    "sms_wrap_error": [_ENVELOPE, c_uint8, *_IN, *_OUT],
    "sms_cp_ack": [_ENVELOPE, *_OUT],
    "sms_cp_error": [_ENVELOPE, c_uint8, *_OUT],
    "sms_submit_write": [POINTER(SubmitFields), *_IN, *_IN, c_size_t, *_OUT, POINTER(c_size_t)],
    "sms_deliver_write": [POINTER(DeliverFields), *_IN, *_IN, c_size_t, *_OUT, POINTER(c_size_t)],
    "sms_split": [
        POINTER(Reference),
        *_IN,
        *_OUT,
        POINTER(Span),
        c_size_t,
        POINTER(c_size_t),
        POINTER(c_uint8),
    ],
    "sms_version": [],
    "sms_relay_address_text": [*_IN, POINTER(Rp), *_OUT],
    "sms_report_text": [*_IN, POINTER(Report), *_OUT],
    "sms_status_report_text": [*_IN, POINTER(StatusReport), *_OUT],
    "sms_deliver_ack_write": [POINTER(ReportFields), *_IN, *_OUT],
    "sms_deliver_error_write": [POINTER(ReportFields), *_IN, *_OUT],
    "sms_submit_ack_write": [POINTER(ReportFields), *_IN, *_OUT],
    "sms_submit_error_write": [POINTER(ReportFields), *_IN, *_OUT],
    "sms_status_report_write": [POINTER(StatusReportFields), *_IN, *_IN, *_OUT],
    "sms_submit_data_write": [POINTER(SubmitFields), c_uint8, c_uint8, *_IN, *_IN, *_OUT],
    "sms_deliver_data_write": [POINTER(DeliverFields), c_uint8, c_uint8, *_IN, *_IN, *_OUT],
    "sms_data_read": [*_IN, POINTER(DataForm), POINTER(Data), _REFUSED],
    "sms_data_text": [*_IN, POINTER(DataForm), *_OUT],
    "sms_data_split": [POINTER(DataFields), *_IN, *_OUT, POINTER(DataSegment), c_size_t, POINTER(c_size_t)],
    "sms_record_read": [*_IN, POINTER(Record), _REFUSED],
    "sms_record_write": [POINTER(RecordFields), *_IN, *_IN, *_OUT, _REFUSED],
    "sms_joiner_open": [_JOINER, c_size_t, c_size_t],
    "sms_joiner_open_seeded": [_JOINER, c_size_t, c_size_t, c_uint64, c_uint64],
    "sms_joiner_close": [_JOINER],
    "sms_joiner_offer": [_JOINER, c_uint64, *_IN, POINTER(c_uint32), _REFUSED],
    "sms_joiner_offer_data": [_JOINER, c_uint64, POINTER(DataOffer), *_IN, *_IN, POINTER(c_uint32), _REFUSED],
    "sms_joiner_text": [_JOINER, *_OUT],
    "sms_joiner_would_finish": [_JOINER, *_IN, POINTER(c_uint8), _REFUSED],
    "sms_joiner_would_finish_data": [_JOINER, POINTER(DataOffer), *_IN, *_IN, POINTER(c_uint8), _REFUSED],
    "sms_joiner_age": [_JOINER, c_uint64],
    "sms_joiner_count": [_JOINER, POINTER(c_size_t)],
    "sms_joiner_each": [_JOINER, POINTER(Cursor), POINTER(OpenMessage)],
    "sms_joiner_origin": [_JOINER, c_uint64, *_OUT],
    "sms_gateway_open": [_GATEWAY, POINTER(GatewayLimits)],
    "sms_gateway_close": [_GATEWAY],
    "sms_gateway_offer": [_GATEWAY, c_uint64, *_IN, *_IN, POINTER(c_uint32), _REFUSED],
    "sms_gateway_would_finish": [_GATEWAY, *_IN, *_IN, POINTER(c_uint8), _REFUSED],
    "sms_gateway_offer_data": [
        _GATEWAY,
        c_uint64,
        POINTER(DataOffer),
        *_IN,
        *_IN,
        *_IN,
        POINTER(c_uint32),
        _REFUSED,
    ],
    "sms_gateway_would_finish_data": [_GATEWAY, POINTER(DataOffer), *_IN, *_IN, *_IN, POINTER(c_uint8), _REFUSED],
    "sms_gateway_text": [_GATEWAY, *_OUT],
    "sms_gateway_age": [_GATEWAY, c_uint64],
    "sms_gateway_save": [_GATEWAY, c_uint64, *_OUT],
    "sms_gateway_read": [_GATEWAY, POINTER(GatewayLimits), *_IN, POINTER(c_uint64), _REFUSED],
    "sms_gateway_count": [_GATEWAY, POINTER(c_size_t)],
    "sms_gateway_each": [_GATEWAY, POINTER(Cursor), POINTER(GatewayMessage)],
    "sms_gateway_origin": [_GATEWAY, c_uint64, *_OUT],
    "sms_gateway_recipient": [_GATEWAY, c_uint64, *_OUT],
}


# What a call answers, where it is no status.
ANSWERS: Dict[str, Any] = {"sms_joiner_close": None, "sms_gateway_close": None, "sms_version": c_uint32}


def _path() -> str:
    """The shared library: SMS_LIBRARY names it, or it lies beside this file, or the loader finds it."""
    beside = Path(__file__).with_name("libsms.so")
    return os.environ.get("SMS_LIBRARY") or (str(beside) if beside.is_file() else f"libsms.so.{ABI}")


def _loaded() -> ctypes.CDLL:
    """The library, which has to be of this interface: a library before 2 tells no version."""
    path = _path()
    loaded = ctypes.CDLL(path)
    version = getattr(loaded, "sms_version", None)
    abi = version() // 1_000_000 if version else 1
    if abi != ABI:
        raise ImportError(f"{path} is of SMS_ABI {abi}, and this package is for SMS_ABI {ABI}")
    for name, parameters in CALLS.items():
        call = getattr(loaded, name)
        call.argtypes, call.restype = parameters, ANSWERS.get(name, c_uint32)
    return loaded


lib = _loaded()


def layout() -> list[str]:
    """A line for each struct, its size, and for each field its offset and size."""
    lines = []
    for name, struct in STRUCTS.items():
        lines.append(f"{name} {ctypes.sizeof(struct)}")
        for field, _ in struct._fields_:
            told = getattr(struct, field)
            lines.append(f"{name}.{field} {told.offset} {told.size}")
    return lines
