"""Writes a text as an SMS-SUBMIT for each segment, valid for four days, and prints their octets."""

import sms

for unit in sms.Submit.write("+46708251358", "hellohello", reference=7, validity=sms.Validity.relative(170)):
    print(unit.hex().upper())
