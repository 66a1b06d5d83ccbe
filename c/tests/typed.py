"""What a type checker is to refuse of the Python package, each line of it, and nothing else: mypy --strict (it says where a
line is right that is marked as wrong)."""

from datetime import datetime
from typing import Optional

import sms

message: sms.Deliver = sms.Deliver.read(b"")
length: int = len(message.text) + len(message.octets) + message.used
header: bytes = message.header  # type: ignore[assignment]
sms.Deliver.read(28)  # type: ignore[arg-type]
sms.Deliver.read("00")  # type: ignore[arg-type]
sms.split(b"text")  # type: ignore[arg-type]
sms.Stamp.at(0)  # type: ignore[arg-type]
sms.Submit.write("1", "text", validity=4)  # type: ignore[arg-type]
text: str = sms.Joiner().offer(b"", datetime.now())  # type: ignore[assignment]
sequences: tuple[int, ...] = next(sms.Joiner(seed=1).open_messages()).missing
sms.Joiner(seed=b"")  # type: ignore[arg-type]
reason: str = sms.Refused(0, sms.Reason.SHORT).reason.name
sms.Refused(0, 1)  # type: ignore[arg-type]
recipient: Optional[str] = next(sms.Gateway(seed=1).open_messages()).recipient
sms.Gateway().offer(b"", b"")  # type: ignore[arg-type]
sms.Gateway(open_for=1)  # type: ignore[arg-type]
