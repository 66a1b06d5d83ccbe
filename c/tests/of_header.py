"""What sms.h declares. Types are spelled as Rust spells those of C: `*const u8`, `[u8; 7]`, `usize`."""

import re
from pathlib import Path

TOP = Path(__file__).resolve().parents[2]
WHOLE = (TOP / "c" / "sms.h").read_text(encoding="utf-8")
BARE = re.sub(r"/\*.*?\*/", "", WHOLE, flags=re.S)
TYPES = {
    "uint8_t": "u8",
    "int8_t": "i8",
    "uint16_t": "u16",
    "uint32_t": "u32",
    "uint64_t": "u64",
    "size_t": "usize",
    "SMS_STATUS": "u32",
    "void": "()",
}
# An enumeration by the first name in it.
GROUPS = {
    "SMS_OK": "status",
    "SMS_SHORT": "reason",
    "SMS_GSM7": "alphabet",
    "SMS_VALIDITY_ABSENT": "format",
    "SMS_WHOLE": "standing",
    "SMS_RECORD_FREE": "record",
    "SMS_NO_UNIT": "unit",
    "SMS_REPEAT": "outcome",
}


def declared(text):
    """The name and the type of a field or a parameter."""
    told = re.fullmatch(r"(const )?(\w+) (\*?)(\w+)(?:\[(\d+)\])?", " ".join(text.split()))
    if not told:
        raise SystemExit(f"sms.h: {text!r} is not understood")
    const, kind, star, name, count = told.groups()
    kind = TYPES.get(kind, kind)
    if star:
        kind = f"*{'const' if const else 'mut'} {kind}"
    return name, f"[{kind}; {count}]" if count else kind


def structs():
    found = re.findall(r"typedef struct (\w+) \{(.*?)\n\} (\w+);", BARE, re.S)
    return {name: [declared(it) for it in body.split(";") if it.strip()] for name, body, _ in found}


def calls():
    """Of each call the parameters and the answer. `sms_status` is none: a compiler would not see to it."""
    found = re.findall(r"^(\w+) (sms_\w+)\((.*?)\);", BARE, re.S | re.M)
    return {
        name: ([declared(it) for it in given.split(",") if it.strip() not in ("", "void")], TYPES.get(answer, answer))
        for answer, name, given in found
    }


def asserted():
    """The sizes of structs that a compiler is told."""
    return [f"{name} {size}" for size, name in re.findall(r"^SMS_HAS\((\d+), (\w+)\);", BARE, re.M)]


def members(body):
    return {name: int(number) for name, number in re.findall(r"(SMS_\w+) = (\d+)", body)}


def constants():
    """Each number that has a name."""
    told = {name: int(number) for name, number in re.findall(r"^#define (SMS_\w+) (\d+)$", BARE, re.M)}
    for body in re.findall(r"enum \{(.*?)\}", BARE, re.S):
        told.update(members(body))
    return told


def numbers():
    """The numbers by what they are of."""
    told = {}
    for body in re.findall(r"enum \{(.*?)\}", BARE, re.S):
        found = members(body)
        first = next(iter(found))
        told[GROUPS.get(first, f"{first}, which is of no kind that is known")] = {
            re.sub("^SMS_(VALIDITY_)?", "", name): number for name, number in found.items()
        }
    told["size"] = {name[4:-4]: number for name, number in constants().items() if name.endswith("_MAX")}
    # Kinds of packets have no names but in comments.
    for comment in re.findall(r"uint8_t kind; +/\* (.*?) \*/", WHOLE):
        found = re.findall(r"(\d) ([CR]P)-(\w+)", comment)
        if found:
            told[f"kind of {found[0][1]}"] = {name: int(number) for number, _, name in found}
    return told
