"""Joins two segments that come in the wrong order, and prints their text."""

import sms

stamp = sms.Stamp(bytes.fromhex("42209251619580"))
with sms.Joiner(open_max=1024, remembered=4096) as joiner:
    for unit in reversed(sms.Deliver.write("12345", "a" * 161, stamp, reference=42)):
        text = joiner.offer(unit)
        if text is not None:
            print(f"{len(text)}: {text[:5]}")
