"""Joins the segments of two texts that one sender sent under one reference to two recipients, and prints each text."""

from datetime import datetime, timedelta, timezone

import sms

NOW = datetime(2099, 3, 29, tzinfo=timezone.utc)
TEXTS = {"+1001": "a" * 161, "+1002": "b" * 161}

units = {to: sms.Deliver.write("12345", text, sms.Stamp.at(NOW), reference=42) for to, text in TEXTS.items()}
stream = [(to, units[to][i]) for i in range(2) for to in TEXTS]
with sms.Gateway(4096, 65536, open_for=timedelta(days=1), remember_for=timedelta(hours=1)) as gateway:
    for to, unit in stream:
        text = gateway.offer(to, unit, NOW)
        if text is not None:
            print(f"{to}: {len(text)}: {text[:5]}")
    gateway.age(NOW + timedelta(seconds=4000))
