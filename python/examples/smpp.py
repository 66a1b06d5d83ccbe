"""Splits a text as submit_sm takes it, and joins what deliver_sm brings (SMPP 3.4), one septet an octet."""

from typing import List, NamedTuple, Optional

import sms

UDHI = 0x40


class Pdu(NamedTuple):
    """What a submit_sm or a deliver_sm tells of its text."""

    esm_class: int
    data_coding: int
    short_message: bytes


def split(text: str, reference: int) -> List[Pdu]:
    """The segments of a text."""
    parts = sms.split_data(text, reference=reference, single=True)
    return [Pdu(UDHI if it.has_header else 0, it.dcs, it.octets) for it in parts]


def join(joiner: sms.Joiner, source_addr: str, pdu: Pdu) -> Optional[str]:
    """The text, where this segment is the last of its message."""
    has_header = bool(pdu.esm_class & UDHI)
    data = sms.Data.read(pdu.short_message, pdu.data_coding, has_header=has_header, single=True)
    return joiner.offer_data(source_addr, data)


with sms.Joiner() as joiner:
    for pdu in reversed(split("a" * 161, reference=7)):
        octets = pdu.short_message
        print(f"{pdu.esm_class:02X} {pdu.data_coding:02X} {len(octets)} {octets[:8].hex().upper()}")
        text = join(joiner, "+46708251358", pdu)
        if text is not None:
            print(f"{len(text)}: {text[:5]}")
