"""What the Python package declares, by the names of sms.h: its types tell signs and sizes, and no constness but of octets."""

import ctypes
import re

import sms
from of_crate import snake
from sms import raw

KINDS = {
    ctypes.c_uint8: "u8",
    ctypes.c_int8: "i8",
    ctypes.c_uint16: "u16",
    ctypes.c_uint32: "u32",
    ctypes.c_size_t: "usize",
    ctypes.c_void_p: "*mut ()",
    ctypes.c_char_p: "*const u8",
    None: "()",
    **{struct: name for name, struct in raw.STRUCTS.items()},
}


UNITS = {"NONE": "NO_UNIT"}


def kind_of(kind):
    if kind in KINDS:
        return KINDS[kind]
    if hasattr(kind, "_length_"):
        return f"[{kind_of(kind._type_)}; {kind._length_}]"
    return f"*mut {kind_of(kind._type_)}"


def structs():
    return {name: [(field, kind_of(kind)) for field, kind in struct._fields_] for name, struct in raw.STRUCTS.items()}


def calls():
    return {
        name: ([("", kind_of(it)) for it in given], kind_of(raw.ANSWERS.get(name, ctypes.c_uint32)))
        for name, given in raw.CALLS.items()
    }


def seen(kind):
    """A type of sms.h as Python can tell it: uint64_t is the type that size_t is."""
    return re.sub(r"\bu64$", "usize", re.sub(r"^\*const (?!u8$)", "*mut ", kind))


def numbers():
    def members(kind):
        return {it.name: int(it) for it in kind}

    kinds = {name.upper(): number for number, name in enumerate(raw.KINDS)}
    return {
        "status": members(raw.Status),
        "reason": members(sms.Reason),
        "alphabet": members(sms.Alphabet),
        "format": members(sms.Format),
        "standing": members(sms.Standing),
        "record": {f"RECORD_{name}": number for name, number in members(sms.RecordStatus).items()},
        "unit": {UNITS.get(name, f"UNIT_{name}"): number for name, number in members(sms.UnitKind).items()},
        "outcome": members(sms.Offer),
        "size": {name[:-4]: getattr(raw, name) for name in vars(raw) if name.endswith("_MAX")},
        "kind of CP": kinds,
        "kind of RP": kinds,
    }


def misnamed():
    """The statuses whose exception is of another name."""
    return [f"{it.name} stands for {error.__name__}" for it, error in sms._ERRORS.items() if it.name != snake(error.__name__)]
