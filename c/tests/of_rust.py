"""What the Rust crate declares, by the names of sms.h."""

import re

from of_crate import snake
from of_header import TOP

RAW = re.sub(r"//.*", "", (TOP / "rust" / "src" / "raw.rs").read_text(encoding="utf-8"))
SAFE = "".join(it.read_text(encoding="utf-8") for it in sorted((TOP / "rust" / "src").glob("*.rs")) if it.name != "raw.rs")
NAMES = {inner: name for name, inner in re.findall(r'"(sms_\w+)" (\w+) \{', RAW)}
HANDLES = {"Joiner": "sms_joiner", "Gateway": "sms_gateway"}
NAMES.update(HANDLES)


def kind_of(text):
    kind = re.sub(r"\b[A-Z]\w+", lambda it: NAMES.get(it[0], it[0]), text.strip())
    return kind.replace("core::ffi::c_void", "()")


def declared(body):
    return [(name, kind_of(kind)) for name, kind in re.findall(r"(?:pub )?(\w+): ([^,]+?)\s*(?:,|$)", body)]


def structs():
    found = {name: declared(body) for name, body in re.findall(r'"(sms_\w+)" \w+ \{(.*?)\}', RAW, re.S)}
    handles = {name: declared(re.search(rf"pub struct {inner} \{{(.*?)\}}", RAW, re.S)[1]) for inner, name in HANDLES.items()}
    return {**found, **handles}


def calls():
    found = re.findall(r"pub fn (sms_\w+)\((.*?)\)(?: -> (\w+))?;", RAW, re.S)
    return {name: (declared(given), answer or "()") for name, given, answer in found}


def constants():
    return {name: int(number.replace("_", "")) for name, number in re.findall(r"pub const (\w+): u\w+ = ([\d_]+);", RAW)}


def misnamed():
    """The constants that stand in the safe part for a variant of another name; then how many stand for one."""
    kinds = "Error|Reason|Alphabet|Validity|CpBody|RpBody|RecordStatus|RecordUnit"
    pairs = re.findall(rf"raw::(?:SMS|KIND)_(\w+) => (?:{kinds})::(\w+)", SAFE)
    pairs += re.findall(r"raw::SMS_OK, raw::SMS_(\w+)\) => Ok\(Offer::(\w+)", SAFE)
    made = re.findall(r"Validity::(\w+)(?:\(\w+\))? => \{?\s*raw::Validity \{ format: raw::SMS_(\w+)", SAFE)
    made += re.findall(r"Alphabet::(\w+) => raw::SMS_(\w+),", SAFE)
    pairs += [(name, variant) for variant, name in made]
    named = [(re.sub("^(VALIDITY|RECORD|UNIT)_", "", name), variant) for name, variant in pairs]
    return [f"{name} stands for {variant}" for name, variant in named if name != snake(variant)], len(pairs)
