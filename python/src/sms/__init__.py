"""Short messages (3GPP TS 23.038, 23.040, 24.011): read, written and joined.

    import sms

    unit = bytes.fromhex("040BC87238880900F10000993092516195800AE8329BFD4697D9EC37")
    message = sms.Deliver.read(unit)
    print(message.origin, message.text)

    with sms.Joiner() as joiner:
        for segment in segments:
            text = joiner.offer(segment)

What is read is checked by the library, whose answers are proved; a refusal is an exception with the place and the
reason. Octets are `bytes`, text is `str`, and moments are aware `datetime` values.
"""

from __future__ import annotations

import enum
import operator
import os
import threading
from ctypes import byref, c_size_t, c_uint8, c_uint32, c_uint64, sizeof
from dataclasses import dataclass, field
from datetime import datetime, timedelta, timezone
from typing import Any, Callable, Dict, Iterator, List, NoReturn, Optional, Tuple, Type, Union

from . import raw
from .raw import ADDRESS_TEXT_MAX, PACKET_MAX, TEXT_MAX, UNIT_MAX, Status

__all__ = [
    "Alphabet",
    "BadAddress",
    "Changed",
    "Closed",
    "Command",
    "Cp",
    "Data",
    "DataSegment",
    "Date",
    "Deliver",
    "DeliverReport",
    "Error",
    "Format",
    "Gateway",
    "GatewayMessage",
    "Joiner",
    "NoMemory",
    "NotThere",
    "NotUtf8",
    "Offer",
    "OpenMessage",
    "OutOfRange",
    "Place",
    "Reason",
    "Record",
    "RecordStatus",
    "Refused",
    "Report",
    "Rp",
    "Segment",
    "Stamp",
    "Standing",
    "StatusReport",
    "Submit",
    "SubmitReport",
    "TooLong",
    "TooManyOpen",
    "UnitKind",
    "Validity",
    "split",
    "split_data",
    "version",
    "wrap",
    "wrap_answer",
    "wrap_acknowledgement",
]

Octets = Union[bytes, bytearray, memoryview]

_MOST = 2 ** (8 * sizeof(c_size_t)) - 1
_BEGIN = datetime(2000, 1, 1, tzinfo=timezone.utc)


def version() -> Tuple[int, int, int]:
    """The version of the library that is loaded: its first number is that of the interface."""
    number = raw.lib.sms_version()
    return number // 1_000_000, number // 1000 % 1000, number % 1000


# ---- what is refused


class Reason(enum.IntEnum):
    """Why octets are refused. A number that this package has no name for is a reason as well, as a newer library may have."""

    SHORT = 1
    WRONG_TYPE = 2
    ADDRESS_TOO_LONG = 3
    BAD_DIGIT = 4
    DATA_TOO_LONG = 5
    HEADER_TOO_LONG = 6
    NOT_SMS = 7
    BAD_TRANSACTION = 8
    UNKNOWN_TYPE = 9
    BAD_RELAY_ADDRESS = 10
    BAD_CAUSE = 11
    BAD_SEPTET = 12
    BAD_STATUS = 13
    NOT_PADDING = 14
    OTHER_LENGTH = 15
    NO_STATE = 16
    NEWER = 17
    BAD_FLAG = 18
    OTHER_LIMITS = 19
    TOO_MANY = 20
    NOT_OPEN = 21
    OUT_OF_ORDER = 22
    REPEATED = 23
    TRAILING = 24
    BAD_CHECKSUM = 25
    BAD_KEY = 26
    MOMENTS_FALL = 27

    @classmethod
    def _missing_(cls, value: object) -> Optional[Reason]:
        if not isinstance(value, int):
            return None
        other = int.__new__(cls, value)
        other._name_, other._value_ = f"REASON_{value}", value
        return other

    def __reduce_ex__(self, protocol: object) -> Tuple[Type[Reason], Tuple[int]]:
        return type(self), (int(self),)


class Error(Exception):
    """A call of the library did not do what it is for. Two are equal that are of one class and say the same, as one is and
    what `pickle` makes of it."""

    def __eq__(self, other: object) -> bool:
        return type(other) is type(self) and isinstance(other, Error) and other.args == self.args

    def __hash__(self) -> int:
        return hash((type(self), self.args))


class Refused(Error, ValueError):
    """Octets are refused: `place` is the first octet that cannot stand where it does, from 0, or the number of octets
    where some are missing (`Reason.SHORT`). Of a saved state it is the first octet of what is wrong, or passes the end."""

    def __init__(self, place: int, reason: Reason):
        super().__init__(place, reason)
        self.place = place
        self.reason = reason

    def __str__(self) -> str:
        return f"at {self.place}: {self.reason.name.lower().replace('_', ' ')}"


class NoMemory(Error, MemoryError):
    """Memory ran out; the call may be made again."""


class NotUtf8(Error, ValueError):
    """A text has a lone surrogate, so it has no UTF-8."""


class BadAddress(Error, ValueError):
    """A text is no address: + and digits, digits, or a name of at most 11 septets."""


class TooLong(Error, ValueError):
    """A text wants more than 255 segments, or a unit has more than 233 octets."""


class OutOfRange(Error, ValueError):
    """A value is none of those that may be given."""


class NotThere(Error, LookupError):
    """There is no such text, moment or end."""


class TooManyOpen(Error):
    """As many messages are open as may be; the joiner is as it was."""


class Closed(Error, ValueError):
    """The joiner is closed."""


class Changed(Error, RuntimeError):
    """The joiner was offered to, or aged, while its open messages were gone through."""


_ERRORS: Dict[int, Type[Error]] = {
    Status.NO_MEMORY: NoMemory,
    Status.NOT_UTF8: NotUtf8,
    Status.BAD_ADDRESS: BadAddress,
    Status.TOO_LONG: TooLong,
    Status.OUT_OF_RANGE: OutOfRange,
    Status.NOT_THERE: NotThere,
    Status.TOO_MANY_OPEN: TooManyOpen,
    Status.CLOSED: Closed,
    Status.CHANGED: Changed,
}


def _raise(status: int, refused: Optional[raw.Refused] = None) -> None:
    if status == Status.OK:
        return
    if status == Status.REFUSED:
        raise BadAddress() if refused is None else Refused(refused.place, Reason(refused.reason))
    if status in _ERRORS:
        raise _ERRORS[status]()
    raise Error(f"status {status}")


def _read(call: Callable[..., int], octets: bytes, seen: Any) -> Any:
    refused = raw.Refused()
    _raise(call(octets, len(octets), byref(seen), byref(refused)), refused)
    return seen


def _answer(
    room: int, call: Callable[..., int], *given: Any, after: Tuple[Any, ...] = (), refused: Optional[raw.Refused] = None
) -> bytes:
    """What a call of the form (.., out, room, needed, ..) writes, with room made where it wants more."""
    while True:
        out, needed = (c_uint8 * max(room, 1))(), c_size_t()
        status = call(*given, out, room, byref(needed), *after)
        if status == Status.NO_ROOM and needed.value > room:
            room = needed.value
            continue
        _raise(status, refused)
        return bytes(memoryview(out)[: needed.value])


def _at(octets: bytes, span: raw.Span) -> bytes:
    return octets[span.offset : span.offset + span.length]


def _header(octets: bytes, span: raw.Span) -> Optional[bytes]:
    return _at(octets, span) if span.offset else None


# ---- what is given


def _octets(given: Octets) -> bytes:
    """Octets as bytes. `bytes` alone would make so many zeros of an int."""
    try:
        return memoryview(given).tobytes()
    except TypeError:
        raise TypeError(f"octets are bytes, or what holds such, and not {type(given).__name__}") from None


def _utf8(text: str) -> bytes:
    if not isinstance(text, str):
        raise TypeError(f"a text is a str, and not {type(text).__name__}")
    try:
        return text.encode()
    except UnicodeEncodeError:
        raise NotUtf8() from None


def _number(value: int, low: int, high: int, what: str) -> int:
    if not low <= operator.index(value) <= high:
        raise OutOfRange(f"{what} is {low} to {high}")
    return value


def _octet(value: int) -> int:
    return _number(value, 0, 255, "an octet")


def _seconds(moment: datetime) -> int:
    if not isinstance(moment, datetime):
        raise TypeError(f"a moment is a datetime, and not {type(moment).__name__}")
    if moment.tzinfo is None:
        raise OutOfRange("a moment has a time zone")
    seconds = (moment - _BEGIN) // timedelta(seconds=1)
    if seconds < 0:
        raise OutOfRange("a moment does not lie before 2000")
    return seconds


def _seconds_or_now(moment: Optional[datetime]) -> int:
    return _seconds(datetime.now(timezone.utc) if moment is None else moment)


# ---- parts


class Alphabet(enum.IntEnum):
    """How user data are spelled."""

    GSM7 = 0
    EIGHT_BIT = 1
    UCS2 = 2
    COMPRESSED = 3


@dataclass(frozen=True)
class Place:
    """A segment's place in its message: information element 00 (width 8) or 08 (width 16)."""

    width: int
    reference: int
    maximum: int
    sequence: int


@dataclass(frozen=True)
class Date:
    """The local date and time of a stamp; `quarters` is its zone, in quarters of an hour east of UTC."""

    year: int
    month: int
    day: int
    hour: int
    minute: int
    second: int
    quarters: int


@dataclass(frozen=True)
class Stamp:
    """TP-SCTS: seven octets, as they came, which need not be a date."""

    octets: bytes

    def __post_init__(self) -> None:
        object.__setattr__(self, "octets", _octets(self.octets))
        if len(self.octets) != 7:
            raise OutOfRange("a stamp has seven octets")

    def _raw(self) -> raw.Stamp:
        return raw.Stamp.from_buffer_copy(self.octets)

    @property
    def date(self) -> Optional[Date]:
        """The date that the octets say; None where they say none."""
        date = raw.Date()
        if raw.lib.sms_stamp_date(byref(self._raw()), byref(date)) != Status.OK:
            return None
        return Date(*(getattr(date, name) for name, _ in raw.Date._fields_))

    @property
    def moment(self) -> Optional[datetime]:
        """The moment, in UTC; None where the octets are no date, or lie before 2000."""
        seconds = c_uint64()
        if raw.lib.sms_stamp_moment(byref(self._raw()), byref(seconds)) != Status.OK:
            return None
        return _BEGIN + timedelta(seconds=seconds.value)

    @classmethod
    def at(cls, moment: datetime) -> Stamp:
        """The stamp of a moment, told in its zone."""
        seconds, stamp = _seconds(moment), raw.Stamp()
        offset = moment.utcoffset() or timedelta()
        quarters, rest = divmod(offset, timedelta(minutes=15))
        if rest or not -79 <= quarters <= 79:
            raise OutOfRange("a zone is told in quarters of an hour, -79 to 79")
        _raise(raw.lib.sms_stamp_at(seconds, quarters, byref(stamp)))
        return cls(bytes(stamp.octets))


class Format(enum.IntEnum):
    """How a validity period is spelled."""

    ABSENT = 0
    RELATIVE = 1
    ENHANCED = 2
    ABSOLUTE = 3


_LENGTHS = {Format.ABSENT: 0, Format.RELATIVE: 1, Format.ENHANCED: 7, Format.ABSOLUTE: 7}


@dataclass(frozen=True)
class Validity:
    """TP-VP: its format, and its octets, which are as many as the format has: none, one (relative) or seven."""

    format: int = Format.ABSENT
    octets: bytes = b""

    def __post_init__(self) -> None:
        object.__setattr__(self, "octets", _octets(self.octets))

    def _raw(self) -> raw.Validity:
        if len(self.octets) != _LENGTHS[Format(_number(self.format, 0, 3, "a format"))]:
            raise OutOfRange("a validity period has one octet (1), seven (2, 3) or none (0)")
        return raw.Validity.from_buffer_copy(bytes([self.format]) + self.octets.ljust(7, b"\0"))

    def end(self, accepted: datetime) -> datetime:
        """When it ends, of a message that was accepted at a moment."""
        end = c_uint64()
        _raise(raw.lib.sms_validity_end(byref(self._raw()), _seconds(accepted), byref(end)))
        return _BEGIN + timedelta(seconds=end.value)

    @classmethod
    def relative(cls, octet: int) -> Validity:
        return cls(Format.RELATIVE, bytes([_octet(octet)]))

    @classmethod
    def absolute(cls, stamp: Stamp) -> Validity:
        return cls(Format.ABSOLUTE, stamp.octets)


@dataclass(frozen=True)
class _Unit:
    """What SMS-DELIVER and SMS-SUBMIT have both."""

    octets: bytes = field(repr=False)
    used: int
    pid: int
    dcs: int
    alphabet: Alphabet
    length: int
    header: Optional[bytes]
    body: bytes
    place: Optional[Place]
    _user: raw.User = field(repr=False, compare=False)

    @property
    def text(self) -> str:
        """The text of the user data; NotThere where they are none (8-bit, compressed)."""
        out = _answer(TEXT_MAX, raw.lib.sms_user_text, self.octets, len(self.octets), byref(self._user))
        return out.decode()


def _common(octets: bytes, seen: Any) -> Dict[str, Any]:
    user, place = seen.user, seen.user.place
    return {
        "octets": octets[: seen.used],
        "used": seen.used,
        "pid": seen.pid,
        "dcs": seen.dcs,
        "alphabet": Alphabet(user.alphabet),
        "length": user.length,
        "header": _at(octets, user.header) if user.has_header else None,
        "body": _at(octets, user.body),
        "place": Place(place.width, place.reference, place.maximum, place.sequence) if place.width else None,
        "_user": user,
    }


def _address(octets: bytes, address: raw.Address) -> str:
    return _answer(ADDRESS_TEXT_MAX, raw.lib.sms_address_text, octets, len(octets), byref(address)).decode()


def _segments(call: Callable[..., int], fields: Any, address: str, text: str) -> List[bytes]:
    """Each segment of a text as a unit."""
    to, octets, count = _utf8(address), _utf8(text), c_size_t(1)
    units: List[bytes] = []
    while len(units) < count.value:
        given = byref(fields), to, len(to), octets, len(octets), len(units)
        units.append(_answer(UNIT_MAX, call, *given, after=(byref(count),)))
    return units


@dataclass(frozen=True)
class Deliver(_Unit):
    """SMS-DELIVER: a message on its way from a centre to a phone (3GPP TS 23.040, 9.2.2.1)."""

    origin: str
    type_of_number: int
    plan: int
    more: bool
    looped: bool
    report: bool
    reply: bool
    stamp: Stamp

    @classmethod
    def read(cls, octets: Octets) -> Deliver:
        """Reads the unit at the front of the octets, of which it takes `used`; raises `Refused`."""
        octets = _octets(octets)
        seen = _read(raw.lib.sms_deliver_read, octets, raw.Deliver())
        return cls(
            **_common(octets, seen),
            origin=_address(octets, seen.origin),
            type_of_number=seen.origin.type_of_number,
            plan=seen.origin.plan,
            more=bool(seen.more),
            looped=bool(seen.looped),
            report=bool(seen.report),
            reply=bool(seen.reply),
            stamp=Stamp(bytes(seen.stamp.octets)),
        )

    @staticmethod
    def write(
        origin: str,
        text: str,
        stamp: Stamp,
        *,
        reference: int = 0,
        width: int = 8,
        more: bool = False,
        looped: bool = False,
        report: bool = False,
        reply: bool = False,
        pid: int = 0,
        message_class: Optional[int] = None,
    ) -> List[bytes]:
        """The text as units: one, or a segment each; of a class (0 to 3), if one is given."""
        fields = raw.DeliverFields(
            segments=_reference(reference, width),
            more=more,
            looped=looped,
            report=report,
            reply=reply,
            pid=_octet(pid),
            stamp=stamp._raw(),
            message_class=_class(message_class),
        )
        return _segments(raw.lib.sms_deliver_write, fields, origin, text)

    @staticmethod
    def write_data(
        origin: str,
        data: Octets,
        stamp: Stamp,
        dcs: int = 4,
        *,
        has_header: bool = False,
        more: bool = False,
        looped: bool = False,
        report: bool = False,
        reply: bool = False,
        pid: int = 0,
    ) -> bytes:
        """A unit with these octets as TP-UD, at most 140: 8-bit data, or what another TP-DCS says, but septets. With
        `has_header` they begin with a header, its length octet first."""
        fields = raw.DeliverFields(more=more, looped=looped, report=report, reply=reply, pid=_octet(pid), stamp=stamp._raw())
        return _data_unit(raw.lib.sms_deliver_data_write, fields, dcs, has_header, origin, data)


@dataclass(frozen=True)
class Submit(_Unit):
    """SMS-SUBMIT: a message on its way from a phone to a centre (3GPP TS 23.040, 9.2.2.2)."""

    target: str
    type_of_number: int
    plan: int
    reject: bool
    report: bool
    reply: bool
    reference: int
    validity: Validity

    @classmethod
    def read(cls, octets: Octets) -> Submit:
        """Reads the unit at the front of the octets, of which it takes `used`; raises `Refused`."""
        octets = _octets(octets)
        seen = _read(raw.lib.sms_submit_read, octets, raw.Submit())
        period = seen.validity
        return cls(
            **_common(octets, seen),
            target=_address(octets, seen.target),
            type_of_number=seen.target.type_of_number,
            plan=seen.target.plan,
            reject=bool(seen.reject),
            report=bool(seen.report),
            reply=bool(seen.reply),
            reference=seen.reference,
            validity=Validity(Format(period.format), bytes(period.octets)[: _LENGTHS[Format(period.format)]]),
        )

    @staticmethod
    def write(
        target: str,
        text: str,
        *,
        reference: int = 0,
        width: int = 8,
        message_reference: int = 0,
        validity: Validity = Validity(),
        reject: bool = False,
        report: bool = False,
        reply: bool = False,
        pid: int = 0,
        message_class: Optional[int] = None,
    ) -> List[bytes]:
        """The text as units: one, or a segment each; of a class (0 to 3), if one is given. TP-MR is the same in all."""
        fields = raw.SubmitFields(
            segments=_reference(reference, width),
            reject=reject,
            report=report,
            reply=reply,
            reference=_octet(message_reference),
            pid=_octet(pid),
            validity=validity._raw(),
            message_class=_class(message_class),
        )
        return _segments(raw.lib.sms_submit_write, fields, target, text)

    @staticmethod
    def write_data(
        target: str,
        data: Octets,
        dcs: int = 4,
        *,
        has_header: bool = False,
        message_reference: int = 0,
        validity: Validity = Validity(),
        reject: bool = False,
        report: bool = False,
        reply: bool = False,
        pid: int = 0,
    ) -> bytes:
        """As `Deliver.write_data`."""
        fields = raw.SubmitFields(
            reject=reject,
            report=report,
            reply=reply,
            reference=_octet(message_reference),
            pid=_octet(pid),
            validity=validity._raw(),
        )
        return _data_unit(raw.lib.sms_submit_data_write, fields, dcs, has_header, target, data)


def _data_unit(call: Callable[..., int], fields: Any, dcs: int, has_header: bool, address: str, data: Octets) -> bytes:
    """A unit of octets."""
    to, octets = _utf8(address), _octets(data)
    given = byref(fields), _octet(dcs), bool(has_header), to, len(to), octets, len(octets)
    return _answer(UNIT_MAX, call, *given)


def _class(message_class: Optional[int]) -> int:
    """How the library is told a class: none is 0."""
    return 0 if message_class is None else _number(message_class, 0, 3, "a class") + 1


def _reference(reference: int, width: int) -> raw.Reference:
    if width not in (8, 16):
        raise OutOfRange("a reference has 8 or 16 bits")
    return raw.Reference(width, _number(reference, 0, 2**width - 1, f"a reference of {width} bits"))


@dataclass(frozen=True)
class Report:
    """SMS-DELIVER-REPORT or SMS-SUBMIT-REPORT (3GPP TS 23.040, 9.2.2.1a and 9.2.2.2a). `has_header` is TP-UDHI, which
    announces a header; `header` is TP-UDH in `data`, after its length octet, and None where it goes beyond them."""

    used: int
    has_header: bool
    cause: Optional[int]
    stamp: Optional[Stamp]
    pid: Optional[int]
    dcs: Optional[int]
    data: Optional[bytes]
    header: Optional[bytes]
    length: int
    alphabet: Alphabet

    @property
    def text(self) -> str:
        """The text of the data after their header; NotThere where there are no data, or they are no text (8-bit, compressed),
        or the header goes beyond them."""
        return _data_text(raw.lib.sms_report_text, raw.Report, self)


def _data_text(call: Callable[..., int], kind: Callable[..., Any], report: Union[Report, StatusReport]) -> str:
    """The text of the data of a report, in which the header lies behind its length octet."""
    data, header = report.data or b"", report.header
    seen = kind(
        data=raw.Span(0, len(data)),
        header=raw.Span(0, 0) if header is None else raw.Span(1, len(header)),
        has_header=report.has_header,
        has_dcs=report.dcs is not None,
        dcs=report.dcs or 0,
        has_data=report.data is not None,
        length=report.length,
        alphabet=report.alphabet,
    )
    return _answer(TEXT_MAX, call, data, len(data), byref(seen)).decode()


def _report(call: Callable[..., int], octets: Octets) -> Report:
    octets = _octets(octets)
    seen = _read(call, octets, raw.Report())
    return Report(
        used=seen.used,
        has_header=bool(seen.has_header),
        cause=seen.cause if seen.has_cause else None,
        stamp=Stamp(bytes(seen.stamp.octets)) if seen.has_stamp else None,
        pid=seen.pid if seen.has_pid else None,
        dcs=seen.dcs if seen.has_dcs else None,
        data=_at(octets, seen.data) if seen.has_data else None,
        header=_header(octets, seen.header),
        length=seen.length,
        alphabet=Alphabet(seen.alphabet),
    )


def _parts(
    pid: Optional[int], dcs: Optional[int], data: Optional[bytes], has_header: bool, length: Optional[int]
) -> Dict[str, int]:
    """The parts of a report that may be left out, as the library is told them."""
    return {
        "has_pid": pid is not None,
        "pid": _octet(pid or 0),
        "has_dcs": dcs is not None,
        "dcs": _octet(dcs or 0),
        "has_data": data is not None,
        "has_header": bool(has_header),
        "length": _octet(len(data or b"") if length is None else length),
    }


def _data(data: Optional[Octets]) -> Optional[bytes]:
    """TP-UD, if there is one: so many octets that TP-UDL counts them."""
    octets = None if data is None else _octets(data)
    if octets is not None and len(octets) > 159:
        raise TooLong("the data of a report have at most 159 octets")
    return octets


def _written(call: Callable[..., int], fields: Any, data: Optional[bytes], *address: Any) -> bytes:
    """A report with these data."""
    octets = data or b""
    return _answer(UNIT_MAX, call, byref(fields), *address, octets, len(octets))


class DeliverReport:
    """Readers and writers of SMS-DELIVER-REPORT. What is written has TP-PID, TP-DCS and TP-UD where they are given; TP-UDL is
    `length`, in septets under the 7-bit alphabet and where there is no TP-DCS, and else, or if none is given, the number of
    the octets; with `has_header` the octets begin with a header, its length octet first."""

    @staticmethod
    def read_ack(octets: Octets) -> Report:
        """As it stands in an RP-ACK."""
        return _report(raw.lib.sms_deliver_ack_read, octets)

    @staticmethod
    def read_error(octets: Octets) -> Report:
        """As it stands in an RP-ERROR."""
        return _report(raw.lib.sms_deliver_error_read, octets)

    @staticmethod
    def write_ack(
        *,
        pid: Optional[int] = None,
        dcs: Optional[int] = None,
        data: Optional[Octets] = None,
        has_header: bool = False,
        length: Optional[int] = None,
    ) -> bytes:
        """For an RP-ACK."""
        octets = _data(data)
        fields = raw.ReportFields(**_parts(pid, dcs, octets, has_header, length))
        return _written(raw.lib.sms_deliver_ack_write, fields, octets)

    @staticmethod
    def write_error(
        cause: int,
        *,
        pid: Optional[int] = None,
        dcs: Optional[int] = None,
        data: Optional[Octets] = None,
        has_header: bool = False,
        length: Optional[int] = None,
    ) -> bytes:
        """For an RP-ERROR, with TP-FCS."""
        octets = _data(data)
        fields = raw.ReportFields(cause=_octet(cause), **_parts(pid, dcs, octets, has_header, length))
        return _written(raw.lib.sms_deliver_error_write, fields, octets)


class SubmitReport:
    """Readers and writers of SMS-SUBMIT-REPORT, as in `DeliverReport`."""

    @staticmethod
    def read_ack(octets: Octets) -> Report:
        """As it stands in an RP-ACK."""
        return _report(raw.lib.sms_submit_ack_read, octets)

    @staticmethod
    def read_error(octets: Octets) -> Report:
        """As it stands in an RP-ERROR."""
        return _report(raw.lib.sms_submit_error_read, octets)

    @staticmethod
    def write_ack(
        stamp: Stamp,
        *,
        pid: Optional[int] = None,
        dcs: Optional[int] = None,
        data: Optional[Octets] = None,
        has_header: bool = False,
        length: Optional[int] = None,
    ) -> bytes:
        """For an RP-ACK, with TP-SCTS."""
        octets = _data(data)
        fields = raw.ReportFields(stamp=stamp._raw(), **_parts(pid, dcs, octets, has_header, length))
        return _written(raw.lib.sms_submit_ack_write, fields, octets)

    @staticmethod
    def write_error(
        cause: int,
        stamp: Stamp,
        *,
        pid: Optional[int] = None,
        dcs: Optional[int] = None,
        data: Optional[Octets] = None,
        has_header: bool = False,
        length: Optional[int] = None,
    ) -> bytes:
        """For an RP-ERROR, with TP-FCS and TP-SCTS."""
        octets = _data(data)
        parts = _parts(pid, dcs, octets, has_header, length)
        fields = raw.ReportFields(cause=_octet(cause), stamp=stamp._raw(), **parts)
        return _written(raw.lib.sms_submit_error_write, fields, octets)


@dataclass(frozen=True)
class StatusReport:
    """SMS-STATUS-REPORT: how it stands with a message that a phone has submitted (3GPP TS 23.040, 9.2.2.3). `status` is
    the octet TP-ST as it came (9.2.3.15), of which a reserved one (03 to 0F, 26 to 2F, 4A to 4F, 66 to 6F, 80 to FF)
    counts as 63: temporary error, no more attempts. `discharged` is TP-DT, `qualifier` says that it is the result of an
    SMS-COMMAND, and `has_header` and `header` are as in a `Report`."""

    used: int
    more: bool
    looped: bool
    qualifier: bool
    has_header: bool
    reference: int
    recipient: str
    type_of_number: int
    plan: int
    stamp: Stamp
    discharged: Stamp
    status: int
    pid: Optional[int]
    dcs: Optional[int]
    data: Optional[bytes]
    header: Optional[bytes]
    length: int
    alphabet: Alphabet

    @property
    def text(self) -> str:
        """As that of a `Report`."""
        return _data_text(raw.lib.sms_status_report_text, raw.StatusReport, self)

    @staticmethod
    def write(
        recipient: str,
        stamp: Stamp,
        discharged: Stamp,
        status: int,
        *,
        reference: int = 0,
        more: bool = False,
        looped: bool = False,
        qualifier: bool = False,
        pid: Optional[int] = None,
        dcs: Optional[int] = None,
        data: Optional[Octets] = None,
        has_header: bool = False,
        length: Optional[int] = None,
    ) -> bytes:
        """The unit; its data as in `DeliverReport`."""
        octets, to = _data(data), _utf8(recipient)
        fields = raw.StatusReportFields(
            stamp=stamp._raw(),
            discharged=discharged._raw(),
            more=bool(more),
            looped=bool(looped),
            qualifier=bool(qualifier),
            reference=_octet(reference),
            status=_octet(status),
            **_parts(pid, dcs, octets, has_header, length),
        )
        return _written(raw.lib.sms_status_report_write, fields, octets, to, len(to))

    @classmethod
    def read(cls, octets: Octets) -> StatusReport:
        """Reads the unit at the front of the octets, of which it takes `used`; raises `Refused`. TP-PI is read where
        another octet follows TP-ST."""
        octets = _octets(octets)
        seen = _read(raw.lib.sms_status_report_read, octets, raw.StatusReport())
        return cls(
            used=seen.used,
            more=bool(seen.more),
            looped=bool(seen.looped),
            qualifier=bool(seen.qualifier),
            has_header=bool(seen.has_header),
            reference=seen.reference,
            recipient=_address(octets, seen.recipient),
            type_of_number=seen.recipient.type_of_number,
            plan=seen.recipient.plan,
            stamp=Stamp(bytes(seen.stamp.octets)),
            discharged=Stamp(bytes(seen.discharged.octets)),
            status=seen.status,
            pid=seen.pid if seen.has_pid else None,
            dcs=seen.dcs if seen.has_dcs else None,
            data=_at(octets, seen.data) if seen.has_data else None,
            header=_header(octets, seen.header),
            length=seen.length,
            alphabet=Alphabet(seen.alphabet),
        )


@dataclass(frozen=True)
class Command:
    """SMS-COMMAND: what a phone asks of a centre about a message that it has submitted (3GPP TS 23.040, 9.2.2.4). `kind`
    is the octet TP-CT (9.2.3.19), `message` is TP-MN, `data` is TP-CD, and `has_header` and `header` are as in a
    `Report`."""

    used: int
    has_header: bool
    report: bool
    reference: int
    pid: int
    kind: int
    message: int
    target: str
    type_of_number: int
    plan: int
    data: bytes
    header: Optional[bytes]

    @classmethod
    def read(cls, octets: Octets) -> Command:
        """Reads the unit at the front of the octets, of which it takes `used`; raises `Refused`."""
        octets = _octets(octets)
        seen = _read(raw.lib.sms_command_read, octets, raw.Command())
        return cls(
            used=seen.used,
            has_header=bool(seen.has_header),
            report=bool(seen.report),
            reference=seen.reference,
            pid=seen.pid,
            kind=seen.kind,
            message=seen.message,
            target=_address(octets, seen.target),
            type_of_number=seen.target.type_of_number,
            plan=seen.target.plan,
            data=_at(octets, seen.data),
            header=_header(octets, seen.header),
        )


# ---- packets


def _centre(address: Optional[bytes]) -> Optional[str]:
    """The text of a centre's address, given with its length octet."""
    if address is None:
        return None
    seen = raw.Rp(address=raw.Span(0, len(address)), has_address=1)
    return _answer(ADDRESS_TEXT_MAX, raw.lib.sms_relay_address_text, address, len(address), byref(seen)).decode()


@dataclass(frozen=True)
class Cp:
    """A message of the connection (3GPP TS 24.011, 7.2): `kind` is "data", "ack" or "error"."""

    used: int
    flag: bool
    value: int
    kind: str
    user: Optional[bytes]
    cause: Optional[int]

    @classmethod
    def read(cls, octets: Octets) -> Cp:
        octets = _octets(octets)
        seen = _read(raw.lib.sms_cp_read, octets, raw.Cp())
        return cls(
            used=seen.used,
            flag=bool(seen.flag),
            value=seen.value,
            kind=raw.KINDS[seen.kind],
            user=_at(octets, seen.user) if seen.kind == 0 else None,
            cause=seen.cause if seen.kind == 2 else None,
        )


@dataclass(frozen=True)
class Rp:
    """A message of the relay (3GPP TS 24.011, 7.3): `kind` is "data", "ack" or "error"."""

    used: int
    to_phone: bool
    reference: int
    kind: str
    address: Optional[bytes]
    user: Optional[bytes]
    cause: Optional[int]
    diagnostic: Optional[int]

    @property
    def centre(self) -> Optional[str]:
        """The text of the centre's address: its digits, after a + where the type of number is 1; None where there is no
        address. BadAddress where it has no text."""
        return _centre(self.address)

    @classmethod
    def read(cls, octets: Octets) -> Rp:
        octets = _octets(octets)
        seen = _read(raw.lib.sms_rp_read, octets, raw.Rp())
        return cls(
            used=seen.used,
            to_phone=seen.side == 1,
            reference=seen.reference,
            kind=raw.KINDS[seen.kind],
            address=_at(octets, seen.address) if seen.has_address else None,
            user=_at(octets, seen.user) if seen.has_user else None,
            cause=seen.cause if seen.kind == 2 else None,
            diagnostic=seen.diagnostic if seen.has_diagnostic else None,
        )


def _envelope(flag: bool, value: int, to_phone: bool, reference: int) -> raw.Envelope:
    return raw.Envelope(bool(flag), _number(value, 0, 6, "a transaction's value"), bool(to_phone), _octet(reference))


def wrap(unit: Octets, *, flag: bool, value: int, to_phone: bool, reference: int, centre: str = "") -> bytes:
    """A CP-DATA around an RP-DATA around the octets of a unit, at most 233, which are not looked at."""
    octets, address = _octets(unit), _utf8(centre)
    envelope = _envelope(flag, value, to_phone, reference)
    given = byref(envelope), address, len(address), octets, len(octets)
    return _answer(PACKET_MAX, raw.lib.sms_wrap_data, *given)


def wrap_answer(
    unit: Octets = b"", *, flag: bool, value: int, to_phone: bool, reference: int, cause: Optional[int] = None
) -> bytes:
    """A CP-DATA around an RP-ACK, or with a cause (0 to 127) an RP-ERROR, and a unit if it has one."""
    given = _octets(unit)
    envelope = _envelope(flag, value, to_phone, reference)
    if cause is None:
        return _answer(PACKET_MAX, raw.lib.sms_wrap_ack, byref(envelope), given, len(given))
    return _answer(PACKET_MAX, raw.lib.sms_wrap_error, byref(envelope), _octet(cause), given, len(given))


def wrap_acknowledgement(*, flag: bool, value: int, cause: Optional[int] = None) -> bytes:
    """A CP-ACK, or with a cause a CP-ERROR."""
    envelope = _envelope(flag, value, False, 0)
    if cause is None:
        return _answer(PACKET_MAX, raw.lib.sms_cp_ack, byref(envelope))
    return _answer(PACKET_MAX, raw.lib.sms_cp_error, byref(envelope), _octet(cause))


# ---- records of a card


class RecordStatus(enum.IntEnum):
    """How it stands with a record: free; from the network, read or unread; of the phone, to be sent or sent, and then what
    became of its status report: none was asked for, it is awaited, or it came, and stands in EF-SMSR or does not."""

    FREE = 0
    READ = 1
    UNREAD = 3
    SENT = 5
    TO_BE_SENT = 7
    SENT_AWAITED = 13
    SENT_RECEIVED = 21
    SENT_STORED = 29


class UnitKind(enum.IntEnum):
    """Which unit a record has: the first two from the network, the other two of the phone."""

    NONE = 0
    DELIVER = 1
    STATUS_REPORT = 2
    SUBMIT = 3
    COMMAND = 4


@dataclass(frozen=True)
class Record:
    """A record of a card's file of short messages, EF-SMS (3GPP TS 51.011, 10.5.3): `address` is the centre's, with its
    length octet, `unit` the octets of the unit; both are None where there is none."""

    status: RecordStatus
    kind: UnitKind
    address: Optional[bytes]
    unit: Optional[bytes]

    @classmethod
    def read(cls, octets: Octets) -> Record:
        """Reads the record that all the octets are: 176, or fewer where FF were cut from its end; raises `Refused`."""
        octets = _octets(octets)
        seen = _read(raw.lib.sms_record_read, octets, raw.Record())
        kind = UnitKind(seen.kind)
        return cls(
            status=RecordStatus(seen.status),
            kind=kind,
            address=_at(octets, seen.address) if seen.has_address else None,
            unit=_at(octets, seen.unit) if kind else None,
        )

    @staticmethod
    def write(status: RecordStatus, unit: Octets = b"", *, centre: str = "") -> bytes:
        """The 176 octets of a record: the status, the centre's address (none where it is empty), the octets of a unit, and
        FF to the end. A free one has neither address nor unit. Raises `Refused` where it would be no record."""
        octets, address, refused = _octets(unit), _utf8(centre), raw.Refused()
        fields = raw.RecordFields(_octet(status))
        given = byref(fields), address, len(address), octets, len(octets)
        return _answer(176, raw.lib.sms_record_write, *given, after=(byref(refused),), refused=refused)

    @property
    def centre(self) -> Optional[str]:
        """The text of the centre's address, as that of an `Rp`."""
        return _centre(self.address)

    @property
    def message(self) -> Union[Deliver, StatusReport, Submit, Command, None]:
        """The unit; None where the record is free."""
        if self.unit is None:
            return None
        if self.kind == UnitKind.DELIVER:
            return Deliver.read(self.unit)
        if self.kind == UnitKind.STATUS_REPORT:
            return StatusReport.read(self.unit)
        return Submit.read(self.unit) if self.kind == UnitKind.SUBMIT else Command.read(self.unit)


# ---- texts cut, and segments joined


class Standing(enum.IntEnum):
    """How the septets of user data alone stand: packed, all that fit whole, or as many as are counted; or one an octet."""

    WHOLE = 0
    COUNTED = 1
    SINGLE = 2


@dataclass(frozen=True)
class Data:
    """User data alone, with no unit around them, as SMPP and other gateways hand them over (3GPP TS 23.040, 9.2.3.24)."""

    octets: bytes = field(repr=False)
    used: int
    dcs: int
    alphabet: Alphabet
    header: Optional[bytes]
    body: bytes
    count: int
    standing: Standing
    fill: int
    place: Optional[Place]
    _length: int = field(repr=False, compare=False)

    @classmethod
    def read(
        cls, octets: Octets, dcs: int, *, has_header: bool = False, length: Optional[int] = None, single: bool = False
    ) -> Data:
        """Reads user data at the front of the octets, of which they take `used`, under a TP-DCS. With `has_header` a header
        stands in front, its length octet first. Septets are packed: as many as `length` (TP-UDL) tells, or all that fit
        whole; or, where `single`, stand one an octet. Raises `Refused`."""
        if single and length is not None:
            raise OutOfRange("a length is told of septets that are packed")
        octets = _octets(octets)
        standing = Standing.SINGLE if single else Standing.WHOLE if length is None else Standing.COUNTED
        counted = 0 if length is None else _octet(length)
        form, seen = _form(dcs, has_header, standing, counted), raw.Data()
        refused = raw.Refused()
        _raise(raw.lib.sms_data_read(octets, len(octets), byref(form), byref(seen), byref(refused)), refused)
        place = seen.place
        return cls(
            octets=octets[: seen.used],
            used=seen.used,
            dcs=dcs,
            alphabet=Alphabet(seen.alphabet),
            header=_at(octets, seen.header) if seen.has_header else None,
            body=_at(octets, seen.body),
            count=seen.count,
            standing=standing,
            fill=seen.fill,
            place=Place(place.width, place.reference, place.maximum, place.sequence) if place.width else None,
            _length=counted,
        )

    @property
    def text(self) -> str:
        """The text; NotThere where they are none (8-bit, compressed)."""
        return self._text(False)

    @property
    def language_text(self) -> str:
        """The text, septets by the national language tables that the header tells."""
        return self._text(True)

    def _offer(self, stamp: Optional[Stamp], languages: bool) -> raw.DataOffer:
        """As a joiner is offered them."""
        form = _form(self.dcs, self.header is not None, self.standing, self._length, languages)
        return raw.DataOffer(stamp is not None, stamp._raw() if stamp else raw.Stamp(), form)

    def _text(self, languages: bool) -> str:
        form = _form(self.dcs, self.header is not None, self.standing, self._length, languages)
        return _answer(TEXT_MAX, raw.lib.sms_data_text, self.octets, len(self.octets), byref(form)).decode()


def _form(dcs: int, has_header: bool, standing: Standing, length: int, languages: bool = False) -> raw.DataForm:
    return raw.DataForm(_octet(dcs), has_header, standing, length, languages)


@dataclass(frozen=True)
class Segment:
    """The user data of a segment, from TP-UDL on, and the TP-DCS under which they are sent."""

    octets: bytes
    dcs: int


def split(text: str, *, reference: int = 0, width: int = 8) -> List[Segment]:
    """The text cut into segments: septets where the 7-bit alphabet has all its letters, else UCS-2."""
    octets, told = _utf8(text), _reference(reference, width)
    spans, count, dcs = (raw.Span * 255)(), c_size_t(), c_uint8()
    given = byref(told), octets, len(octets)
    out = _answer(1024, raw.lib.sms_split, *given, after=(spans, 255, byref(count), byref(dcs)))
    return [Segment(_at(out, span), dcs.value) for span in spans[: count.value]]


@dataclass(frozen=True)
class DataSegment:
    """A segment as user data alone, as SMPP and other gateways take it.

    Attributes:
        octets: the header, where there is one, and the text (SMPP: short_message).
        dcs: TP-DCS (SMPP: data_coding): 0 septets, 8 UCS-2.
        has_header: TP-UDHI, whether a header stands in front (SMPP: bit 6 of esm_class).
        length: TP-UDL: the septets, those that the header takes among them, or the octets.
    """

    octets: bytes
    dcs: int
    has_header: bool
    length: int


def split_data(text: str, *, reference: int = 0, width: int = 8, single: bool = False) -> List[DataSegment]:
    """The text cut into segments as `split` cuts it, each as user data alone: septets packed, or, where `single`, one an
    octet."""
    octets, fields = _utf8(text), raw.DataFields(_reference(reference, width), bool(single))
    parts, count = (raw.DataSegment * 255)(), c_size_t()
    given = byref(fields), octets, len(octets)
    out = _answer(1024, raw.lib.sms_data_split, *given, after=(parts, 255, byref(count)))
    return [DataSegment(_at(out, it.octets), it.dcs, bool(it.has_header), it.length) for it in parts[: count.value]]


class Offer(enum.IntEnum):
    """What becomes of a segment that is offered."""

    REPEAT = 0
    KEPT = 1
    FINISHED = 2


@dataclass(frozen=True)
class OpenMessage:
    """A message of which some segments have come, and not all, as it was when it was told.

    Attributes:
        origin: whom it is from (TP-OA).
        reference: what its segments share, of `width` bits, 8 or 16.
        maximum: how many segments it has.
        moment: when its first segment was offered.
        sequences: the segments that have come, in order: from 1 on.
        opening: the number of its opening: a message that is opened later has a greater one.
    """

    origin: str
    type_of_number: int
    plan: int
    width: int
    reference: int
    maximum: int
    moment: datetime
    sequences: Tuple[int, ...]
    opening: int

    @property
    def missing(self) -> Tuple[int, ...]:
        """The segments that have not come, in order."""
        return tuple(it for it in range(1, self.maximum + 1) if it not in self.sequences)


class Joiner:
    """Joins segments, whichever way they come, to texts, each once.

    At most `open_max` messages at a time are not whole, and so many finished ones are remembered, so that none finishes
    twice: they are forgotten by number, never by time. Threads may share a joiner, whose calls wait for one another (so
    a signal handler makes none). It is neither copied nor pickled.

    What it holds is found by a hash with a seed of 128 bits: with 16 octets of `os.urandom`, unless one is given. Who does
    not know it cannot pick messages that are slow to find; what a joiner answers does not depend on it.
    """

    def __init__(self, open_max: int = 1024, remembered: int = 4096, seed: Optional[int] = None):
        self._lock = threading.Lock()
        self._handle = raw.Joiner()
        limits = _number(open_max, 1, _MOST, "a limit"), _number(remembered, 1, _MOST, "a limit")
        if seed is None:
            seed = int.from_bytes(os.urandom(16), "little")
        high, low = divmod(_number(seed, 0, 2**128 - 1, "a seed"), 2**64)
        _raise(raw.lib.sms_joiner_open_seeded(byref(self._handle), *limits, low, high))

    def offer(self, octets: Octets, at: Optional[datetime] = None) -> Optional[str]:
        """Offers an SMS-DELIVER that came at a moment (now, if none is given): the text where it finishes its message,
        whatever other threads offer meanwhile. None where others are missing, or it is a repeat; `outcome` tells which.
        NotThere where its user data are no text (8-bit, compressed)."""
        octets, seconds = _octets(octets), _seconds_or_now(at)
        with self._lock:
            return self._text() if self._offer(octets, seconds) == Offer.FINISHED else None

    def outcome(self, octets: Octets, at: Optional[datetime] = None) -> Offer:
        """As `offer`, but what becomes of the segment; `text` is then the text that finished last, in any thread."""
        octets, seconds = _octets(octets), _seconds_or_now(at)
        with self._lock:
            return self._offer(octets, seconds)

    def offer_data(
        self,
        origin: str,
        data: Data,
        at: Optional[datetime] = None,
        *,
        stamp: Optional[Stamp] = None,
        languages: bool = False,
    ) -> Optional[str]:
        """Offers user data alone from an origin (a number, after a + where it is international, or a name), that came at a
        moment: else as `offer`. A segment is known by its place, and a message in one piece by its stamp; without one it
        is finished each time. With `languages` septets are read by the national language tables that the header tells.
        BadAddress where the origin is none."""
        offer, address, seconds = data._offer(stamp, languages), _utf8(origin), _seconds_or_now(at)
        with self._lock:
            return self._text() if self._offer_data(offer, address, data.octets, seconds) == Offer.FINISHED else None

    def outcome_data(
        self,
        origin: str,
        data: Data,
        at: Optional[datetime] = None,
        *,
        stamp: Optional[Stamp] = None,
        languages: bool = False,
    ) -> Offer:
        """As `offer_data`, but what becomes of the segment; `text` is then the text that finished last, in any thread."""
        offer, address, seconds = data._offer(stamp, languages), _utf8(origin), _seconds_or_now(at)
        with self._lock:
            return self._offer_data(offer, address, data.octets, seconds)

    @property
    def text(self) -> str:
        """The text that finished last; empty before one did."""
        with self._lock:
            return self._text()

    def would_finish(self, octets: Octets) -> bool:
        """Whether an SMS-DELIVER would finish its message; nothing changes. NotThere where `offer` raises it."""
        octets, answer, refused = _octets(octets), c_uint8(), raw.Refused()
        with self._lock:
            given = byref(self._handle), octets, len(octets)
            _raise(raw.lib.sms_joiner_would_finish(*given, byref(answer), byref(refused)), refused)
        return answer.value == 1

    def would_finish_data(self, origin: str, data: Data, *, stamp: Optional[Stamp] = None) -> bool:
        """Whether user data alone would finish their message; nothing changes. It raises what `offer_data` does."""
        offer, address, answer, refused = data._offer(stamp, False), _utf8(origin), c_uint8(), raw.Refused()
        with self._lock:
            given = byref(self._handle), byref(offer), address, len(address), data.octets, len(data.octets)
            _raise(raw.lib.sms_joiner_would_finish_data(*given, byref(answer), byref(refused)), refused)
        return answer.value == 1

    def age(self, at: Optional[datetime] = None) -> None:
        """Drops the messages whose first segment came a week before the moment, or earlier."""
        seconds = _seconds_or_now(at)
        with self._lock:
            _raise(raw.lib.sms_joiner_age(byref(self._handle), seconds))

    @property
    def open_count(self) -> int:
        """How many messages are open: some of their segments have come, and not all."""
        count = c_size_t()
        with self._lock:
            _raise(raw.lib.sms_joiner_count(byref(self._handle), byref(count)))
        return count.value

    def open_messages(self) -> Iterator[OpenMessage]:
        """The open messages, in order of opening: first the one that was opened first. Changed where the joiner was offered
        to, or aged, since the first step; each step holds the joiner for itself, so other threads may do that."""
        cursor = raw.Cursor()
        while True:
            message = self._next_open(cursor)
            if message is None:
                return
            yield message

    open_sets = open_messages
    """Another name of `open_messages`."""

    def close(self) -> None:
        """Frees what it holds; a closed one stays so."""
        with self._lock:
            raw.lib.sms_joiner_close(byref(self._handle))

    def _offer(self, octets: bytes, seconds: int) -> Offer:
        """What becomes of a segment; the lock is held."""
        outcome, refused = c_uint32(), raw.Refused()
        given = byref(self._handle), seconds, octets, len(octets)
        _raise(raw.lib.sms_joiner_offer(*given, byref(outcome), byref(refused)), refused)
        return Offer(outcome.value)

    def _offer_data(self, offer: raw.DataOffer, origin: bytes, octets: bytes, seconds: int) -> Offer:
        """What becomes of user data alone; the lock is held."""
        outcome, refused = c_uint32(), raw.Refused()
        given = byref(self._handle), seconds, byref(offer), origin, len(origin), octets, len(octets)
        _raise(raw.lib.sms_joiner_offer_data(*given, byref(outcome), byref(refused)), refused)
        return Offer(outcome.value)

    def _next_open(self, cursor: raw.Cursor) -> Optional[OpenMessage]:
        """The open message that the cursor comes to."""
        seen = raw.OpenMessage()
        with self._lock:
            status = raw.lib.sms_joiner_each(byref(self._handle), byref(cursor), byref(seen))
            if status == Status.NOT_THERE:
                return None
            _raise(status)
            origin = _answer(ADDRESS_TEXT_MAX, raw.lib.sms_joiner_origin, byref(self._handle), seen.opening)
        come = int.from_bytes(bytes(seen.come), "little")
        return OpenMessage(
            origin.decode(),
            seen.type_of_number,
            seen.plan,
            seen.width,
            seen.reference,
            seen.maximum,
            _BEGIN + timedelta(seconds=seen.seconds),
            tuple(it for it in range(1, seen.maximum + 1) if come >> it & 1),
            seen.opening,
        )

    def _text(self) -> str:
        """The text that finished last; the lock is held."""
        return _answer(TEXT_MAX, raw.lib.sms_joiner_text, byref(self._handle)).decode()

    def __reduce_ex__(self, protocol: object) -> NoReturn:
        raise TypeError("a joiner is neither copied nor pickled")

    def __enter__(self) -> Joiner:
        return self

    def __exit__(self, *_: object) -> None:
        self.close()

    def __del__(self) -> None:
        if hasattr(self, "_handle"):
            self.close()


from .gateway import Gateway, GatewayMessage  # noqa: E402
