"""What the crate sms_c exports, by the names of sms.h."""

import re

from of_header import TOP

CRATE = TOP / "crates" / "sms_c" / "src"
# The struct of the crate by its name in sms.h.
NAMES = {
    "sms_refused": "Refused",
    "sms_span": "Span",
    "sms_address": "AddressSeen",
    "sms_place": "Place",
    "sms_user": "UserSeen",
    "sms_stamp": "StampOctets",
    "sms_validity": "ValidityOctets",
    "sms_date": "Date",
    "sms_deliver": "DeliverSeen",
    "sms_submit": "SubmitSeen",
    "sms_report": "ReportSeen",
    "sms_status_report": "StatusReportSeen",
    "sms_command": "CommandSeen",
    "sms_cp": "CpSeen",
    "sms_rp": "RpSeen",
    "sms_envelope": "Envelope",
    "sms_reference": "Reference",
    "sms_submit_fields": "SubmitFields",
    "sms_deliver_fields": "DeliverFields",
    "sms_report_fields": "ReportFields",
    "sms_status_report_fields": "StatusReportFields",
    "sms_data_form": "DataForm",
    "sms_data": "DataSeen",
    "sms_data_fields": "DataFields",
    "sms_data_segment": "DataSegment",
    "sms_record": "RecordSeen",
    "sms_record_fields": "RecordFields",
    "sms_joiner": "Handle",
    "sms_data_offer": "DataOffer",
    "sms_open_message": "OpenMessage",
    "sms_cursor": "Cursor",
    "sms_gateway": "GatewayHandle",
    "sms_gateway_limits": "Limits",
    "sms_gateway_message": "MessageTo",
}
IN_HEADER = {**{inner: name for name, inner in NAMES.items()}, "Kept": "*mut ()", "GatewayKept": "*mut ()"}
# Fields and parameters that have another name in sms.h, and the counts that go with slices.
FIELDS = {("sms_joiner", "kept"): "inside", ("sms_gateway", "kept"): "inside"}
PARAMETERS = {"handle": "joiner", "count": "segments", "answer": "finishes"}
COUNTS = {"octets": "count", "out": "room", "spans": "span_count", "parts": "part_count"}
NUMBERS = {"u8": 1, "i8": 1, "u16": 2, "u32": 4, "u64": 8, "usize": 8, "*mut ()": 8}


def source(name):
    return re.sub(r"//.*", "", (CRATE / name).read_text(encoding="utf-8"))


def sources():
    return [source(it) for it in sorted(CRATE.rglob("*.rt"))]


def snake(name):
    return re.sub(r"(?<=[a-z0-9])(?=[A-Z])", "_", name).upper()


# ---- structs


def kind_of(kind, sizes):
    """A type by its name in sms.h, with the size of an array in digits."""
    array = re.fullmatch(r"\[(\w+); (\w+)\]", kind)
    return f"[{array[1]}; {sizes.get(array[2], array[2])}]" if array else IN_HEADER.get(kind, kind)


def structs():
    found = {}
    sizes = dict(it for text in sources() for it in re.findall(r"const (\w+): usize = (\d+);", text))
    head = r"#\[repr\(C\)\]\s*(?:#\[derive\([^)]*\)\]\s*)?pub struct (\w+) \{(.*?)\n\}"
    for inner, body in [it for text in sources() for it in re.findall(head, text, re.S)]:
        name = IN_HEADER.get(inner, f"{inner}, which sms.h does not have")
        fields = re.findall(r"^    (?:pub )?(\w+): ([^{}]*?),$", body, re.M)
        found[name] = [(FIELDS.get((name, field), field), kind_of(kind, sizes)) for field, kind in fields]
    del found["*mut ()"]
    return {name: found[name] for name in [*NAMES, *(set(found) - set(NAMES))] if name in found}


def measure(kind, told):
    """The size and the alignment of a type."""
    array = re.fullmatch(r"\[u8; (\d+)\]", kind)
    if array:
        return int(array[1]), 1
    if kind in NUMBERS:
        return NUMBERS[kind], NUMBERS[kind]
    return lay(told[kind], told)[1:]


def lay(fields, told):
    """The offset and the size of each field as C lays them, then the size and the alignment of all."""
    at, widest, laid = 0, 1, []
    for field, kind in fields:
        size, align = measure(kind, told)
        at = -(-at // align) * align
        laid.append((field, at, size))
        at, widest = at + size, max(widest, align)
    return laid, -(-at // widest) * widest, widest


def layout():
    told, lines = structs(), []
    for name, fields in told.items():
        laid, size, _ = lay(fields, told)
        lines += [f"{name} {size}", *(f"{name}.{field} {at} {much}" for field, at, much in laid)]
    return lines


# ---- calls


def parameter(name, kind):
    """A parameter as C has it, with its count where it is a slice."""
    name = PARAMETERS.get(name, name)
    told = re.fullmatch(r"&(?:'\w+ )?(mut )?(\[?)(\w+)\]?", kind)
    if not told:
        return [(name, kind)]
    pointer = f"*{'mut' if told[1] else 'const'} {IN_HEADER.get(told[3], told[3])}"
    return [(name, pointer), (COUNTS.get(name, f"{name}_count"), "usize")] if told[2] else [(name, pointer)]


def calls():
    found = {}
    for text in sources():
        for name, given, answer in re.findall(r'extern "C" fn (\w+)\((.*?)\)(?: -> (\w+))?', text, re.S):
            told = [re.fullmatch(r"(\w+):\s*(.+)", it.strip(), re.S).groups() for it in given.split(",") if it.strip()]
            # The handle to the heap is no parameter of C's.
            given = [it for pair in told if pair[1] != "Global" for it in parameter(*pair)]
            found[name] = (given, answer or "()")
    return found


# ---- numbers


# The names of sms.h for those of the crate.
STATUSES = {"MEMORY": "NO_MEMORY"}
REASONS = {"BAD_ADDRESS": "BAD_RELAY_ADDRESS", "CENTRE": "BAD_RELAY_ADDRESS"}
STATE_REASONS = {
    "NOT_ASTATE": "NO_STATE",
    "LONG_ADDRESS": "ADDRESS_TOO_LONG",
    "NOT_SEPTET": "BAD_SEPTET",
    "FLAG": "BAD_FLAG",
    "CHECKSUM": "BAD_CHECKSUM",
    "ADDRESS": "BAD_KEY",
    "MOMENTS": "MOMENTS_FALL",
}
SENT = {"NotAsked": "RECORD_SENT"}
KINDS = {"Transfer": "DATA", "Ack": "ACK", "Fail": "ERROR"}


def arms(text, kind, number=r"(\d+)"):
    """The numbers that a match gives to the variants of a type."""
    held = r"(?:\([^()]*\)| \{[^{}]*\})?"
    return {name: int(told) for name, told in re.findall(rf"\b{kind}::(\w+){held} => {number}", text)}


def version():
    return int(re.search(r"const VERSION: u32 = ([0-9_]+);", source("version.rt"))[1].replace("_", ""))


def numbers():
    status, joiner, relay = source("status.rt"), source("joiner/taking.rt"), source("relay.rt")
    failures, relay_faults = arms(status, "Failure"), arms(status, "RelayFault")
    reasons = {snake(name): number for name, number in arms(status, "UnitFault").items()}
    reasons.update({snake(name): number for name, number in arms(status, "DataFault").items()})
    for name, number in [*relay_faults.items(), *arms(status, "RecordFault").items()]:
        reasons[REASONS.get(snake(name), snake(name))] = number
    for name, number in [*arms(status, "StateFault").items(), *arms(status, "HeldFault").items()]:
        reasons[STATE_REASONS.get(snake(name), snake(name))] = number
    states, records = (TOP / "crates" / "sms_card" / "src" / "status.rt").read_text(encoding="utf-8"), source("records.rt")
    sent = re.findall(r"Status::Sent\(ReportState::(\w+)\) => (\d+)", states)
    units = {**arms(records, "ReceivedView"), **arms(records, "OriginatedView")}
    alphabets, times = arms(source("parts.rt"), "Alphabet"), source("times.rt")
    shown, taken = arms(times, "Validity", r"ValidityOctets \{\s*format: (\d)"), r"\b(\d) => (?:\{[^}]*)?Some\(Validity::(\w+)"
    outcomes = re.findall(r"Ok\(Offer::(\w+)(?:\(\w+\))?\) => (?:\{[^}]*)?Ok\((\d)\)", joiner)
    told = {
        "status": {"OK": 0, **{STATUSES.get(snake(name), snake(name)): number for name, number in failures.items()}},
        "reason": reasons,
        "alphabet": {snake(name): number for name, number in alphabets.items()},
        "format": {snake(name): number for name, number in shown.items()},
        "format, as it is taken": {snake(name): int(number) for number, name in re.findall(taken, times)},
        "standing": {name: int(number) for name, number in re.findall(r"const (\w+): u8 = (\d);", source("reading/data.rt"))},
        "record": {
            **{f"RECORD_{snake(name)}": number for name, number in arms(states, "Status").items() if name != "Sent"},
            **{SENT.get(name, f"RECORD_SENT_{snake(name)}"): int(number) for name, number in sent},
        },
        "unit": {"NO_UNIT": arms(records, "RecordView")["Free"], **{f"UNIT_{snake(name)}": n for name, n in units.items()}},
        "outcome": {snake(name): int(number) for name, number in outcomes},
    }
    for layer, view in ("CP", "CpBodyView"), ("RP", "RpBodyView"):
        told[f"kind of {layer}"] = {KINDS[name]: n for name, n in arms(relay, view, r"\((\d),").items() if name in KINDS}
    return told
