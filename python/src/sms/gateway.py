"""A gateway's joiner: one for many recipients."""

from __future__ import annotations

import os
import threading
from ctypes import byref, c_size_t, c_uint8, c_uint32, c_uint64
from dataclasses import dataclass
from datetime import datetime, timedelta
from typing import Iterator, NoReturn, Optional

from . import (
    _BEGIN,
    _MOST,
    Data,
    Octets,
    Offer,
    OpenMessage,
    OutOfRange,
    Stamp,
    _answer,
    _number,
    _octets,
    _raise,
    _seconds_or_now,
    _utf8,
    raw,
)
from .raw import ADDRESS_TEXT_MAX, TEXT_MAX, Status

_SECOND = timedelta(seconds=1)


@dataclass(frozen=True)
class GatewayMessage(OpenMessage):
    """An open message of a gateway's joiner.

    Attributes:
        recipient: for whom it is, as the gateway said; None where it said none.
    """

    recipient: Optional[str]


class Gateway:
    """Joins segments for many recipients, whichever way they come, to texts, each once.

    A recipient is an address (a number, after a + where it is international, or a name). Segments for one are never joined
    into a text for another, and are no repeats of the other's; those for None are as for a recipient of their own.

    At most `open_max` messages of all recipients together are not whole, each for as long as `open_for`, and so many
    finished ones are remembered, so that none finishes twice: each as long as it is among the last, and where
    `remember_for` is given, for no longer than that. `age` lets go what is old; both are whole seconds. With `pass_alone`
    a message in one piece is finished each time it comes. Of threads, copies and the seed what is said of a `Joiner` holds.
    """

    def __init__(
        self,
        open_max: int = 65536,
        remembered: int = 65536,
        *,
        open_for: timedelta = timedelta(days=7),
        remember_for: Optional[timedelta] = None,
        pass_alone: bool = False,
        seed: Optional[int] = None,
    ):
        limits = _limits(open_max, remembered, open_for, remember_for, pass_alone, seed)
        self._lock = threading.Lock()
        self._handle = raw.Gateway()
        self._taken = 0
        self._room = _room_beside(0)
        _raise(raw.lib.sms_gateway_open(byref(self._handle), byref(limits)))

    @classmethod
    def read(
        cls,
        octets: Octets,
        open_max: int = 65536,
        remembered: int = 65536,
        *,
        open_for: timedelta = timedelta(days=7),
        remember_for: Optional[timedelta] = None,
        pass_alone: bool = False,
        seed: Optional[int] = None,
    ) -> Gateway:
        """The joiner that holds what was saved of one with these limits: it answers all that comes as that one would. Refused
        where the octets are no such state. Nothing is forgotten till `age`; `text` is empty; the seed may be another."""
        limits = _limits(open_max, remembered, open_for, remember_for, pass_alone, seed)
        octets, taken, refused = _octets(octets), c_uint64(), raw.Refused()
        gateway = cls.__new__(cls)
        gateway._lock = threading.Lock()
        gateway._handle = raw.Gateway()
        given = byref(gateway._handle), byref(limits), octets, len(octets)
        _raise(raw.lib.sms_gateway_read(*given, byref(taken), byref(refused)), refused)
        gateway._taken = taken.value
        gateway._room = _room_beside(len(octets))
        return gateway

    @property
    def taken(self) -> int:
        """The number that was saved beside what `read` gave back, and 0 of a joiner that was not read back."""
        return self._taken

    def save(self, taken: int = 0) -> bytes:
        """All that it holds but `text`, for `read` at the next start, with a number of the caller's, which tells how much of
        its input is in there."""
        number = _number(taken, 0, 2**64 - 1, "a number of what was taken")
        with self._lock:
            octets = _answer(self._room, raw.lib.sms_gateway_save, byref(self._handle), number)
            self._room = _room_beside(len(octets))
            return octets

    def offer(self, recipient: Optional[str], octets: Octets, at: Optional[datetime] = None) -> Optional[str]:
        """Offers an SMS-DELIVER for a recipient that came at a moment (now, if none is given): the text where it finishes
        its message, whatever other threads offer meanwhile. None where others are missing, or it is a repeat; `outcome`
        tells which. NotThere where its user data are no text (8-bit, compressed), BadAddress where the recipient is no
        address."""
        to, octets, seconds = _text_of(recipient), _octets(octets), _seconds_or_now(at)
        with self._lock:
            return self._text() if self._offer(to, octets, seconds) == Offer.FINISHED else None

    def outcome(self, recipient: Optional[str], octets: Octets, at: Optional[datetime] = None) -> Offer:
        """As `offer`, but what becomes of the segment; `text` is then the text that finished last, of any recipient."""
        to, octets, seconds = _text_of(recipient), _octets(octets), _seconds_or_now(at)
        with self._lock:
            return self._offer(to, octets, seconds)

    def offer_data(
        self,
        recipient: Optional[str],
        origin: str,
        data: Data,
        at: Optional[datetime] = None,
        *,
        stamp: Optional[Stamp] = None,
        languages: bool = False,
    ) -> Optional[str]:
        """Offers user data alone for a recipient and from an origin, that came at a moment: else as `offer`, and as
        `offer_data` of a `Joiner`."""
        offer, to, address = data._offer(stamp, languages), _text_of(recipient), _utf8(origin)
        seconds = _seconds_or_now(at)
        with self._lock:
            finished = self._offer_data(offer, to, address, data.octets, seconds) == Offer.FINISHED
            return self._text() if finished else None

    def outcome_data(
        self,
        recipient: Optional[str],
        origin: str,
        data: Data,
        at: Optional[datetime] = None,
        *,
        stamp: Optional[Stamp] = None,
        languages: bool = False,
    ) -> Offer:
        """As `offer_data`, but what becomes of the segment; `text` is then the text that finished last, of any recipient."""
        offer, to, address = data._offer(stamp, languages), _text_of(recipient), _utf8(origin)
        seconds = _seconds_or_now(at)
        with self._lock:
            return self._offer_data(offer, to, address, data.octets, seconds)

    @property
    def text(self) -> str:
        """The text that finished last, of whatever recipient; empty before one did."""
        with self._lock:
            return self._text()

    def would_finish(self, recipient: Optional[str], octets: Octets) -> bool:
        """Whether an SMS-DELIVER would finish its message; nothing changes. It raises what `offer` does."""
        to, octets, answer, refused = _text_of(recipient), _octets(octets), c_uint8(), raw.Refused()
        with self._lock:
            given = byref(self._handle), to, len(to), octets, len(octets)
            _raise(raw.lib.sms_gateway_would_finish(*given, byref(answer), byref(refused)), refused)
        return answer.value == 1

    def would_finish_data(
        self, recipient: Optional[str], origin: str, data: Data, *, stamp: Optional[Stamp] = None
    ) -> bool:
        """Whether user data alone would finish their message; nothing changes. It raises what `offer_data` does."""
        offer, to, address = data._offer(stamp, False), _text_of(recipient), _utf8(origin)
        answer, refused = c_uint8(), raw.Refused()
        with self._lock:
            given = to, len(to), address, len(address), data.octets, len(data.octets)
            status = raw.lib.sms_gateway_would_finish_data(
                byref(self._handle), byref(offer), *given, byref(answer), byref(refused)
            )
            _raise(status, refused)
        return answer.value == 1

    def age(self, at: Optional[datetime] = None) -> None:
        """Drops the messages whose first segment came `open_for` before the moment, or earlier, and forgets the finished
        ones that finished `remember_for` before it, or earlier."""
        seconds = _seconds_or_now(at)
        with self._lock:
            _raise(raw.lib.sms_gateway_age(byref(self._handle), seconds))

    @property
    def open_count(self) -> int:
        """How many messages of all recipients are open: some of their segments have come, and not all."""
        count = c_size_t()
        with self._lock:
            _raise(raw.lib.sms_gateway_count(byref(self._handle), byref(count)))
        return count.value

    def open_messages(self) -> Iterator[GatewayMessage]:
        """The open messages of all recipients, as `open_messages` of a `Joiner`."""
        cursor = raw.Cursor()
        while True:
            message = self._next_open(cursor)
            if message is None:
                return
            yield message

    open_sets = open_messages
    """Another name of `open_messages`."""

    def close(self) -> None:
        """Frees what it holds; a closed one stays so."""
        with self._lock:
            raw.lib.sms_gateway_close(byref(self._handle))

    def _offer(self, to: bytes, octets: bytes, seconds: int) -> Offer:
        """What becomes of a segment; the lock is held."""
        outcome, refused = c_uint32(), raw.Refused()
        given = byref(self._handle), seconds, to, len(to), octets, len(octets)
        _raise(raw.lib.sms_gateway_offer(*given, byref(outcome), byref(refused)), refused)
        return Offer(outcome.value)

    def _offer_data(self, offer: raw.DataOffer, to: bytes, origin: bytes, octets: bytes, seconds: int) -> Offer:
        """What becomes of user data alone; the lock is held."""
        outcome, refused = c_uint32(), raw.Refused()
        given = byref(self._handle), seconds, byref(offer), to, len(to), origin, len(origin), octets, len(octets)
        _raise(raw.lib.sms_gateway_offer_data(*given, byref(outcome), byref(refused)), refused)
        return Offer(outcome.value)

    def _next_open(self, cursor: raw.Cursor) -> Optional[GatewayMessage]:
        """The open message that the cursor comes to."""
        told = raw.GatewayMessage()
        with self._lock:
            status = raw.lib.sms_gateway_each(byref(self._handle), byref(cursor), byref(told))
            if status == Status.NOT_THERE:
                return None
            _raise(status)
            seen, given = told.message, (byref(self._handle), told.message.opening)
            origin = _answer(ADDRESS_TEXT_MAX, raw.lib.sms_gateway_origin, *given)
            recipient = None
            if told.has_recipient:
                recipient = _answer(ADDRESS_TEXT_MAX, raw.lib.sms_gateway_recipient, *given).decode()
        come = int.from_bytes(bytes(seen.come), "little")
        return GatewayMessage(
            origin.decode(),
            seen.type_of_number,
            seen.plan,
            seen.width,
            seen.reference,
            seen.maximum,
            _BEGIN + timedelta(seconds=seen.seconds),
            tuple(it for it in range(1, seen.maximum + 1) if come >> it & 1),
            seen.opening,
            recipient,
        )

    def _text(self) -> str:
        """The text that finished last; the lock is held."""
        return _answer(TEXT_MAX, raw.lib.sms_gateway_text, byref(self._handle)).decode()

    def __reduce_ex__(self, protocol: object) -> NoReturn:
        raise TypeError("a gateway's joiner is neither copied nor pickled")

    def __enter__(self) -> Gateway:
        return self

    def __exit__(self, *_: object) -> None:
        self.close()

    def __del__(self) -> None:
        if hasattr(self, "_handle"):
            self.close()


def _text_of(recipient: Optional[str]) -> bytes:
    """The text of a recipient; empty where there is none."""
    return b"" if recipient is None else _utf8(recipient)


def _room_beside(octets: int) -> int:
    """How much room the next state is given, after one of so many octets, so that it is seldom written twice."""
    return octets + octets // 8 + 4096


def _limits(
    open_max: int,
    remembered: int,
    open_for: timedelta,
    remember_for: Optional[timedelta],
    pass_alone: bool,
    seed: Optional[int],
) -> raw.GatewayLimits:
    """How much a joiner keeps; a seed is drawn where there is none."""
    if seed is None:
        seed = int.from_bytes(os.urandom(16), "little")
    high, low = divmod(_number(seed, 0, 2**128 - 1, "a seed"), 2**64)
    return raw.GatewayLimits(
        _number(open_max, 1, _MOST, "a limit"),
        _number(remembered, 1, _MOST, "a limit"),
        _whole(open_for, 0),
        0 if remember_for is None else _whole(remember_for, 1),
        low,
        high,
        True,
        bool(pass_alone),
    )


def _whole(given: timedelta, least: int) -> int:
    """A number of seconds, at least so many."""
    if given % _SECOND:
        raise OutOfRange("a length of time is of whole seconds")
    return _number(given // _SECOND, least, 2**64 - 1, "a length of time")
