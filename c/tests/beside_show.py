"""Random units through the library for C, and beside it through `sms show KIND --lines`: both say the same of each.

    SMS_LIBRARY=.. PYTHONPATH=python/src python3 beside_show.py PROGRAM [UNITS]

The units are of random octets, of random fields, and of worked units with an octet changed. What is compared is each line
that `show` prints: what is read, and else the place and the reason of the refusal.
"""

import random
import re
import subprocess
import sys
import tempfile

import sms

WORKED = {
    "deliver": [
        "040BC87238880900F10000993092516195800AE8329BFD4697D9EC37",
        "440BC87238880900F1000899309251619580100500031F0201D83DDE00D83DDE0100610062",
        "640BC87238880900F100009930925161958012050003CC0202C2E170381C0E87C3",
        "0400D061F1C3000430217251409080036162FF",
    ],
    "submit": [
        "11000B916407281553F80000AA0AE8329BFD4697D9EC37",
        "7907039121430008999999999999990402C50041",
        "19FF03A1210F000030217251409080022A",
    ],
    "deliver-ack": ["0007000003616263", "4003000030"],
    "deliver-error": ["00C10700040302F0A1", "40D100"],
    "submit-ack": ["010030217251409080", "4107302172514090800004046162C3D4"],
    "submit-error": ["01D60030217251409080", "41C50130217251409080AA"],
    "status-report": [
        "06040D91945152991136F00160124130340A0160124130940A00",
        "FA0702812199309251619580993092516195804687007F0402AABB",
        "060804D061F13021725140908030217251409080000103",
    ],
    "command": ["02070002050491012000", "FE0841000602812103AABBCC00"],
}
FRONTS = {
    "deliver": 0xC5,
    "submit": 0xFD,
    "deliver-ack": 0x40,
    "deliver-error": 0x40,
    "submit-ack": 0x41,
    "submit-error": 0x41,
    "status-report": 0xFC,
    "command": 0xFC,
}
# TP-MTI, and where the address stands.
TYPES = {"submit": 1, "submit-ack": 1, "submit-error": 1, "status-report": 2, "command": 2}
ADDRESSES = {"deliver": 1, "submit": 2, "status-report": 2, "command": 5}
READERS = {
    "deliver": sms.Deliver.read,
    "submit": sms.Submit.read,
    "deliver-ack": sms.DeliverReport.read_ack,
    "deliver-error": sms.DeliverReport.read_error,
    "submit-ack": sms.SubmitReport.read_ack,
    "submit-error": sms.SubmitReport.read_error,
    "status-report": sms.StatusReport.read,
    "command": sms.Command.read,
}


def drawn(kind, chance):
    """A random unit."""
    way = chance.randrange(3)
    if way == 0:
        unit = bytearray(bytes.fromhex(chance.choice(WORKED[kind])))
        for _ in range(chance.randrange(3)):
            unit[chance.randrange(len(unit))] = chance.randrange(256)
        return bytes(unit[: chance.randrange(len(unit) + 1)] if chance.randrange(4) == 0 else unit)
    unit = bytearray(chance.getrandbits(8) for _ in range(chance.randrange(1, 190)))
    unit[0] = unit[0] & FRONTS[kind] | TYPES.get(kind, 0)
    if way == 1:
        return bytes(unit)
    # an address of up to 20 digits, and decimal digits in the stamp, so that more of them are read
    at = ADDRESSES.get(kind)
    if at is not None and len(unit) > 16:
        unit[at] = chance.randrange(21)
        for place in range(at + 2, at + 2 + (unit[at] + 1) // 2):
            if place < len(unit):
                unit[place] = 16 * chance.randrange(10) + chance.randrange(10)
    return bytes(unit)


# ---- the lines of show


def yes(told):
    return "yes" if told else "no"


def stamp_line(stamp):
    date = stamp.date
    if date is None:
        return f"raw {stamp.octets.hex().upper()}"
    sign, quarters = "-" if date.quarters < 0 else "+", abs(date.quarters)
    day = f"{date.year:04}-{date.month:02}-{date.day:02}"
    time = f"{date.hour:02}:{date.minute:02}:{date.second:02}"
    return f"{day} {time} {sign}{quarters // 4:02}:{quarters % 4 * 15:02}"


def relative_seconds(octet):
    """3GPP TS 23.040, 9.2.3.12.1."""
    if octet <= 143:
        return (octet + 1) * 300
    if octet <= 167:
        return 43_200 + (octet - 143) * 1_800
    return (octet - 166) * 86_400 if octet <= 196 else (octet - 192) * 604_800


def validity_line(validity):
    if validity.format == 1:
        return f"relative {validity.octets[0]} {relative_seconds(validity.octets[0])}"
    if validity.format == 2:
        return f"enhanced {validity.octets.hex().upper()}"
    return f"absolute {stamp_line(sms.Stamp(validity.octets))}" if validity.format == 3 else "none"


def user_lines(unit):
    lines = [("length", str(unit.length))]
    if unit.header:
        lines.append(("header", unit.header.hex().upper()))
    if unit.place:
        place = unit.place
        lines.append(("concat", f"{place.width} {place.reference} {place.maximum} {place.sequence}"))
    if unit.alphabet in (sms.Alphabet.GSM7, sms.Alphabet.UCS2):
        return [*lines, ("text", unit.text)]
    return [*lines, ("data", unit.body.hex().upper() or "-")]


def lines_of_deliver(unit):
    flags = [("more", unit.more), ("loop", unit.looped), ("report", unit.report), ("reply", unit.reply)]
    return [
        ("type", "deliver"),
        *[(name, yes(told)) for name, told in flags],
        ("from", unit.origin),
        ("number", f"{unit.type_of_number} {unit.plan}"),
        ("pid", f"{unit.pid:02X}"),
        ("dcs", f"{unit.dcs:02X}"),
        ("stamp", stamp_line(unit.stamp)),
        *user_lines(unit),
    ]


def lines_of_submit(unit):
    flags = [("reject", unit.reject), ("report", unit.report), ("reply", unit.reply)]
    return [
        ("type", "submit"),
        *[(name, yes(told)) for name, told in flags],
        ("reference", f"{unit.reference:02X}"),
        ("to", unit.target),
        ("number", f"{unit.type_of_number} {unit.plan}"),
        ("pid", f"{unit.pid:02X}"),
        ("dcs", f"{unit.dcs:02X}"),
        ("validity", validity_line(unit.validity)),
        *user_lines(unit),
    ]


def lines_of_report(kind, report):
    lines = [("type", kind), ("header", yes(report.has_header))]
    if report.cause is not None:
        lines.append(("cause", f"{report.cause:02X}"))
    if report.stamp is not None:
        lines.append(("stamp", stamp_line(report.stamp)))
    return [*lines, *lines_of_parts(report)]


def lines_of_parts(report):
    lines = []
    if report.pid is not None:
        lines.append(("pid", f"{report.pid:02X}"))
    if report.dcs is not None:
        lines.append(("dcs", f"{report.dcs:02X}"))
    if report.data is not None:
        lines += [("length", str(report.length)), ("user", report.data.hex().upper() or "-")]
    return lines


def lines_of_status_report(report):
    flags = [("more", report.more), ("loop", report.looped), ("qualifier", report.qualifier), ("header", report.has_header)]
    return [
        ("type", "status-report"),
        *[(name, yes(told)) for name, told in flags],
        ("reference", f"{report.reference:02X}"),
        ("recipient", report.recipient),
        ("number", f"{report.type_of_number} {report.plan}"),
        ("stamp", stamp_line(report.stamp)),
        ("discharged", stamp_line(report.discharged)),
        ("status", f"{report.status:02X}"),
        *lines_of_parts(report),
    ]


def lines_of_command(command):
    return [
        ("type", "command"),
        ("header", yes(command.has_header)),
        ("report", yes(command.report)),
        ("reference", f"{command.reference:02X}"),
        ("pid", f"{command.pid:02X}"),
        ("command", f"{command.kind:02X}"),
        ("message", f"{command.message:02X}"),
        ("recipient", command.target),
        ("number", f"{command.type_of_number} {command.plan}"),
        ("length", str(len(command.data))),
        ("data", command.data.hex().upper() or "-"),
    ]


def seen(kind, octets):
    """What the library for C says of octets, line by line."""
    try:
        unit = READERS[kind](octets)
    except sms.Refused as refused:
        return [("at", f"{refused.place}: {refused.reason.name.lower().replace('_', ' ')}")]
    if kind == "deliver":
        lines = lines_of_deliver(unit)
    elif kind == "submit":
        lines = lines_of_submit(unit)
    elif kind == "status-report":
        lines = lines_of_status_report(unit)
    elif kind == "command":
        lines = lines_of_command(unit)
    else:
        lines = lines_of_report(kind, unit)
    rest = len(octets) - unit.used
    return [*lines, ("rest", str(rest))] if rest else lines


# ---- the lines that show prints


# Lines of text, which is escaped, and lines of an octet and its words.
TEXTS = ("text", "from", "to", "recipient")
WORDED = ("status", "command")
ESCAPES = {"n": "\n", "r": "\r", "t": "\t", "f": "\f"}


def unescaped(text):
    return re.sub(r"\\(?:x([0-9a-f]{2})|(.))", lambda it: chr(int(it[1], 16)) if it[1] else ESCAPES.get(it[2], it[2]), text)


def shown(block):
    lines = []
    for line in block.split("\n"):
        fault = re.search(r"at (\d+: .*)$", line)
        name, _, value = line.partition(": ")
        if fault and name not in TEXTS:
            lines.append(("at", fault[1]))
        elif name in WORDED:
            lines.append((name, value[:2]))
        else:
            lines.append((name, unescaped(value) if name in TEXTS else value))
    return lines


def blocks_of(program, kind, units):
    """What `show` prints of each unit."""
    with tempfile.TemporaryFile() as given:
        given.write(b"".join(it.hex().encode() + b"\n" for it in units))
        given.seek(0)
        ran = subprocess.run([program, "show", kind, "--lines"], stdin=given, stdout=subprocess.PIPE, stderr=subprocess.PIPE)
    if ran.returncode not in (0, 1):
        sys.exit(f"{program} show {kind} --lines ended with {ran.returncode}: {ran.stdout[-200:]}")
    return ran.stdout.decode().removesuffix("\n").split("\n\n")


def main():
    program, count = sys.argv[1], int(sys.argv[2]) if len(sys.argv) > 2 else 200_000
    chance, read, failed = random.Random(20_00), 0, 0
    for kind in WORKED:
        much = count // 4 if kind in ("deliver", "submit") else count // 12
        units = [it for it in (drawn(kind, chance) for _ in range(much)) if it]
        blocks = blocks_of(program, kind, units)
        if len(blocks) != len(units):
            print(f"show {kind} --lines told {len(blocks)} of {len(units)} units")
            return 1
        for octets, block in zip(units, blocks):
            one, other = seen(kind, octets), shown(block)
            read += one[0][0] != "at"
            if one != other:
                failed += 1
                print(f"{kind} {octets.hex().upper()}:\n  {one}\n  {other}")
            if failed > 10:
                return 1
    print(f"{count} random units, of which {read} are read: {failed} differ from show")
    return 1 if failed else 0


sys.exit(main())
