"""Reads an SMS-DELIVER, and prints whom it is from and its text."""

import sms

unit = bytes.fromhex("040BC87238880900F10000993092516195800AE8329BFD4697D9EC37")
try:
    message = sms.Deliver.read(unit)
    print(f"{message.origin}: {message.text}")
except sms.Refused as refused:
    print(f"at {refused.place}: {refused.reason.name}")
