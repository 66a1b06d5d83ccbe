"""Joins segments for many recipients, and keeps what it holds in a file: it stops at any moment, begins again where the file
says, and loses no text. A text that finished after the file was written is printed again."""

import os
import tempfile
from datetime import datetime, timedelta, timezone
from pathlib import Path

import sms

NOW = datetime(2099, 3, 29, tzinfo=timezone.utc)
TEXTS = {"+1001": "a" * 161, "+1002": "b" * 161}

units = {to: sms.Deliver.write("12345", text, sms.Stamp.at(NOW), reference=42) for to, text in TEXTS.items()}
stream = [(to, units[to][i]) for i in range(2) for to in TEXTS]


def replace(path: Path, octets: bytes) -> None:
    """The octets stand in the file whole or not at all: they are written beside, are on the disk, and get its name."""
    beside = path.with_suffix(".new")
    with open(beside, "wb") as file:
        file.write(octets)
        file.flush()
        os.fsync(file.fileno())
    os.replace(beside, path)
    folder = os.open(path.parent, os.O_RDONLY)
    try:
        os.fsync(folder)
    finally:
        os.close(folder)


def begin(path: Path) -> sms.Gateway:
    """The joiner that holds what the file says, or nothing where there is none."""
    open_for, remember_for = timedelta(days=1), timedelta(hours=1)
    if not path.exists():
        return sms.Gateway(4096, 65536, open_for=open_for, remember_for=remember_for)
    return sms.Gateway.read(path.read_bytes(), 4096, 65536, open_for=open_for, remember_for=remember_for)


def run(path: Path, end: int) -> None:
    """Goes through the stream up to here, and saves after each second unit."""
    with begin(path) as gateway:
        print(f"from {gateway.taken}")
        for number in range(gateway.taken, end):
            to, unit = stream[number]
            text = gateway.offer(to, unit, NOW)
            if text is not None:
                print(f"{to}: {len(text)}: {text[:5]}")
            if number % 2 == 1:
                replace(path, gateway.save(number + 1))


with tempfile.TemporaryDirectory() as name:
    state = Path(name) / "state"
    run(state, 3)  # it stops after three, and begins again
    run(state, 4)
