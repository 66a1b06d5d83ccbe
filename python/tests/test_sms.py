"""What the package promises: python3 -m unittest discover -s python/tests, with SMS_LIBRARY and PYTHONPATH=python/src."""

import copy
import dataclasses
import itertools
import pickle
import subprocess
import sys
import threading
import unittest
from datetime import datetime, timedelta, timezone

import sms

HELLO = bytes.fromhex("040BC87238880900F10000993092516195800AE8329BFD4697D9EC37")
STAMP = sms.Stamp(bytes.fromhex("99309251619580"))
LONG = "".join(chr(ord("a") + i % 26) for i in range(200))
NOW = datetime(2024, 2, 29, 12, 0, tzinfo=timezone.utc)


def together(call):
    """Eight threads at the same time, each with its number."""
    threads = [threading.Thread(target=call, args=(number,)) for number in range(8)]
    for it in threads:
        it.start()
    for it in threads:
        it.join()


class Library(unittest.TestCase):
    def test_version(self):
        self.assertEqual(sms.version()[0], sms.raw.ABI)
        self.assertEqual(sms.raw.lib.sms_version(), sum(it * 1000**place for place, it in enumerate(reversed(sms.version()))))

    def test_a_library_of_another_interface_is_no_module(self):
        told = (("lambda: 3002001", "of SMS_ABI 3"), ("lambda: 1000000", "of SMS_ABI 1"), ("None", "of SMS_ABI 1"))
        for version, wanted in told:
            program = (
                "import ctypes, types\n"
                f"ctypes.CDLL = lambda path: types.SimpleNamespace(sms_version={version})\n"
                "try:\n    import sms\nexcept ImportError as error:\n    print(error)\n"
            )
            with self.subTest(version=version):
                ran = subprocess.run([sys.executable, "-c", program], stdout=subprocess.PIPE, universal_newlines=True, check=True)
                self.assertRegex(ran.stdout, f"{wanted}, and this package is for SMS_ABI {sms.raw.ABI}$")


class Readers(unittest.TestCase):
    def test_deliver(self):
        message = sms.Deliver.read(HELLO)
        self.assertEqual((message.origin, message.text, message.used), ("27838890001", "hellohello", 28))
        self.assertEqual((message.type_of_number, message.plan, message.alphabet), (4, 8, sms.Alphabet.GSM7))
        self.assertEqual((message.body, message.header, message.place), (HELLO[19:], None, None))
        self.assertEqual(message.stamp.date, sms.Date(2099, 3, 29, 15, 16, 59, 8))
        self.assertEqual(message.stamp.moment, datetime(2099, 3, 29, 13, 16, 59, tzinfo=timezone.utc))

    def test_what_follows_a_unit_is_no_part_of_it(self):
        message = sms.Deliver.read(HELLO)
        for octets in (HELLO + b"more", bytearray(HELLO + b"x"), memoryview(HELLO + b"more")):
            longer = sms.Deliver.read(octets)
            self.assertEqual((longer, hash(longer), longer.octets, longer.used), (message, hash(message), HELLO, 28))
            self.assertEqual((longer.text, pickle.loads(pickle.dumps(longer))), ("hellohello", message))
        (unit,) = sms.Submit.write("+46708251358", "hellohello")
        self.assertEqual(sms.Submit.read(unit + b"more").octets, unit)

    def test_each_front_is_refused_at_its_end(self):
        for front in range(len(HELLO)):
            with self.assertRaises(sms.Refused) as refused:
                sms.Deliver.read(HELLO[:front])
            self.assertEqual((refused.exception.place, refused.exception.reason), (front, sms.Reason.SHORT))

    def test_what_is_refused_is_said(self):
        with self.assertRaisesRegex(sms.Refused, "^at 0: wrong type$"):
            sms.Submit.read(HELLO)
        with self.assertRaisesRegex(sms.Refused, "^at 18: data too long$"):
            sms.Deliver.read(bytes.fromhex("040BC87238880900F1000099309251619580A1"))

    def test_reports(self):
        report = sms.DeliverReport.read_ack(bytes.fromhex("0007000003616263"))
        self.assertEqual((report.pid, report.dcs, report.length), (0, 0, 3))
        self.assertEqual((report.data, report.header, report.cause, report.stamp), (b"abc", None, None, None))
        report = sms.DeliverReport.read_ack(bytes.fromhex("400604050370010041"))
        self.assertEqual((report.data, report.header), (bytes.fromhex("0370010041"), bytes.fromhex("700100")))
        report = sms.SubmitReport.read_error(bytes.fromhex("01D60030217251409080"))
        self.assertEqual((report.cause, report.data), (0xD6, None))
        self.assertEqual(report.stamp, sms.Stamp(bytes.fromhex("30217251409080")))

    def test_texts_of_reports(self):
        cases = [
            ("00040AE8329BFD4697D9EC37", "hellohello"),
            ("0007FF000AE8329BFD4697D9EC37", "hellohello"),
            ("00060802044F", "\u044f"),
            ("4004090500032A0101D069", "hi"),
        ]
        for octets, text in cases:
            with self.subTest(octets=octets):
                self.assertEqual(sms.DeliverReport.read_ack(bytes.fromhex(octets)).text, text)
        for octets in ("00060402044F", "0000", "40060802090A"):
            with self.subTest(octets=octets), self.assertRaises(sms.NotThere):
                sms.DeliverReport.read_ack(bytes.fromhex(octets)).text
        octets = bytes.fromhex("062A0B917238880900F1993092516195809930925161958000040AE8329BFD4697D9EC37")
        self.assertEqual(sms.StatusReport.read(octets).text, "hellohello")
        with self.assertRaises(sms.NotThere):
            sms.StatusReport.read(octets[:25]).text

    def test_status_reports(self):
        stamp, discharged = "0160124130340A", "0160124130940A"
        report = sms.StatusReport.read(bytes.fromhex(f"06040D91945152991136F0{stamp}{discharged}00"))
        self.assertEqual((report.recipient, report.type_of_number, report.plan), ("+4915259911630", 1, 1))
        self.assertEqual((report.reference, report.status, report.used), (4, 0, 26))
        self.assertEqual((report.more, report.looped, report.qualifier, report.has_header), (False,) * 4)
        self.assertEqual((report.pid, report.dcs, report.data), (None, None, None))
        self.assertEqual(report.stamp.date, sms.Date(2010, 6, 21, 14, 3, 43, -20))
        self.assertEqual(report.discharged, sms.Stamp(bytes.fromhex(discharged)))
        report = sms.StatusReport.read(bytes.fromhex("FA0702812199309251619580993092516195804687007F0402AABB"))
        self.assertEqual((report.more, report.looped, report.qualifier, report.has_header), (True,) * 4)
        self.assertEqual((report.status, report.pid, report.dcs), (0x46, 0x7F, 4))
        self.assertEqual((report.data, report.length, report.alphabet), (bytes.fromhex("AABB"), 2, sms.Alphabet.EIGHT_BIT))
        with self.assertRaisesRegex(sms.Refused, "^at 19: short$"):
            sms.StatusReport.read(bytes.fromhex("06080281219930925161958099309251619580"))

    def test_commands(self):
        command = sms.Command.read(bytes.fromhex("FE0841000602812103AABBCC00"))
        self.assertEqual((command.target, command.type_of_number, command.plan), ("12", 0, 1))
        self.assertEqual((command.reference, command.pid, command.kind, command.message), (8, 0x41, 0, 6))
        self.assertEqual((command.has_header, command.report), (True, True))
        self.assertEqual((command.data, command.header, command.used), (bytes.fromhex("AABBCC"), None, 12))
        with self.assertRaisesRegex(sms.Refused, "^at 8: data too long$"):
            sms.Command.read(bytes.fromhex("02070002050281219E"))


class DataAlone(unittest.TestCase):
    def test_the_three_ways_septets_stand(self):
        self.assertEqual(sms.Data.read(bytes.fromhex("E8329BFD06"), 0, length=5).text, "hello")
        self.assertEqual(sms.Data.read(HELLO[19:], 0).text, "hellohello")
        data = sms.Data.read(bytes.fromhex("0500032A0201") + b"hello", 0, has_header=True, single=True)
        self.assertEqual((data.text, data.count, data.used, data.fill), ("hello", 5, 11, 0))
        self.assertEqual((data.header, data.body), (bytes.fromhex("00032A0201"), b"hello"))
        self.assertEqual((data.place, data.standing), (sms.Place(8, 42, 2, 1), sms.Standing.SINGLE))
        self.assertEqual(sms.Data.read(bytes.fromhex("00480069"), 8, single=True).text, "Hi")

    def test_segments(self):
        texts = []
        for segment in sms.split(LONG, reference=42):
            data = sms.Data.read(segment.octets[1:], segment.dcs, has_header=True, length=segment.octets[0])
            self.assertEqual(data.place, sms.Place(8, 42, 2, len(texts) + 1))
            texts.append(data.text)
        self.assertEqual("".join(texts), LONG)

    def test_split(self):
        first, second = sms.split_data("a" * 161, reference=7, single=True)
        self.assertEqual(first, sms.DataSegment(bytes.fromhex("050003070201") + b"a" * 153, 0, True, 160))
        self.assertEqual(second, sms.DataSegment(bytes.fromhex("050003070202") + b"a" * 8, 0, True, 15))
        self.assertEqual(sms.split_data("hello"), [sms.DataSegment(bytes.fromhex("E8329BFD06"), 0, False, 5)])
        self.assertEqual(sms.split_data("\u041f", single=True), [sms.DataSegment(b"\x04\x1f", 8, False, 2)])
        packed = sms.split_data(LONG, reference=0x1234, width=16)
        self.assertEqual([it.octets for it in packed], [it.octets[1:] for it in sms.split(LONG, reference=0x1234, width=16)])
        with self.assertRaises(sms.TooLong):
            sms.split_data("a" * 39_016)
        with self.assertRaises(sms.OutOfRange):
            sms.split_data("a", reference=256)

    def test_join(self):
        parts = [sms.Data.read(it.octets, it.dcs, has_header=it.has_header, single=True) for it in sms.split_data(LONG, single=True)]
        bare = sms.Data.read(b"hi", 0, single=True)
        with sms.Joiner() as joiner:
            self.assertFalse(joiner.would_finish_data("+1001", parts[1]))
            self.assertIsNone(joiner.offer_data("+1001", parts[1]))
            self.assertEqual(joiner.outcome_data("+1001", parts[1]), sms.Offer.REPEAT)
            self.assertIsNone(joiner.offer_data("1001", parts[0]))
            self.assertTrue(joiner.would_finish_data("+1001", parts[0]))
            self.assertEqual(joiner.offer_data("+1001", parts[0]), LONG)
            self.assertEqual([it.origin for it in joiner.open_messages()], ["1001"])
            self.assertEqual([joiner.offer_data("a name", bare) for _ in range(2)], ["hi", "hi"])
            self.assertEqual([joiner.offer_data("a name", bare, stamp=STAMP) for _ in range(2)], ["hi", None])
            turkish = sms.Data.read(bytes.fromhex("032401011B69"), 0, has_header=True, single=True)
            self.assertEqual((joiner.offer_data("1", turkish), joiner.offer_data("1", turkish, languages=True)), ("i", "\u0131"))
            for error, origin, data in (
                (sms.BadAddress, "+x", bare),
                (sms.NotUtf8, "\ud800", bare),
                (sms.NotThere, "1", sms.Data.read(b"hi", 4)),
            ):
                with self.subTest(error=error), self.assertRaises(error):
                    joiner.offer_data(origin, data)
                with self.subTest(error=error), self.assertRaises(error):
                    joiner.would_finish_data(origin, data)
            self.assertEqual(joiner.text, "\u0131")
        with self.assertRaises(sms.Closed):
            joiner.offer_data("1", bare)

    def test_languages(self):
        data = sms.Data.read(bytes.fromhex("032401011B69"), 0, has_header=True, single=True)
        self.assertEqual((data.text, data.language_text), ("i", "\u0131"))

    def test_what_is_refused(self):
        for octets, given, place, reason in (
            (bytes.fromhex("E832"), {"length": 5}, 2, sms.Reason.SHORT),
            (b"he\x8clo", {"single": True}, 2, sms.Reason.BAD_SEPTET),
            (b"\x05\x00\x03", {"single": True, "has_header": True}, 0, sms.Reason.HEADER_TOO_LONG),
            (b"", {"length": 161}, 0, sms.Reason.DATA_TOO_LONG),
        ):
            with self.subTest(octets=octets), self.assertRaises(sms.Refused) as caught:
                sms.Data.read(octets, 0, **given)
            self.assertEqual((caught.exception.place, caught.exception.reason), (place, reason))
        with self.assertRaises(sms.NotThere):
            sms.Data.read(b"\x01", 4).text
        for given in ({"dcs": 256}, {"dcs": 0, "length": 256}, {"dcs": 0, "length": 5, "single": True}):
            with self.subTest(given=given), self.assertRaises(sms.OutOfRange):
                sms.Data.read(b"hello", **given)


class Records(unittest.TestCase):
    CENTRE = bytes.fromhex("07917283010010F5")

    def test_from_the_network(self):
        record = sms.Record.read(b"\x03" + self.CENTRE + HELLO + b"\xff" * 139)
        self.assertEqual((record.status, record.kind, record.unit), (sms.RecordStatus.UNREAD, sms.UnitKind.DELIVER, HELLO))
        self.assertEqual((record.address, record.centre), (self.CENTRE, "+27381000015"))
        self.assertEqual(record.message, sms.Deliver.read(HELLO))
        unit = sms.StatusReport.write("+46708251358", STAMP, STAMP, 0x46, dcs=4, data=b"\xff\xff")
        record = sms.Record.read(b"\x01\x00" + unit + b"\xff" * 3)
        self.assertEqual((record.status, record.unit, record.centre), (sms.RecordStatus.READ, unit, None))
        self.assertEqual(record.message, sms.StatusReport.read(unit))

    def test_of_the_phone(self):
        (unit,) = sms.Submit.write("+46708251358", "hi")
        record = sms.Record.read(bytearray(b"\x1d\x00" + unit))
        self.assertEqual((record.status, record.message), (sms.RecordStatus.SENT_STORED, sms.Submit.read(unit)))
        command = bytes.fromhex("02070002050491012000")
        record = sms.Record.read(b"\x07\x00" + command + b"\xff")
        self.assertEqual((record.kind, record.message), (sms.UnitKind.COMMAND, sms.Command.read(command)))

    def test_write(self):
        octets = sms.Record.write(sms.RecordStatus.UNREAD, HELLO, centre="+27381000015")
        self.assertEqual(octets, b"\x03" + self.CENTRE + HELLO + b"\xff" * 139)
        self.assertEqual(sms.Record.write(sms.RecordStatus.FREE), b"\x00" + b"\xff" * 175)
        self.assertEqual(sms.Record.read(octets).message, sms.Deliver.read(HELLO))
        for error, given, more in (
            (sms.OutOfRange, (2, HELLO), {}),
            (sms.OutOfRange, (sms.RecordStatus.FREE, HELLO), {}),
            (sms.BadAddress, (sms.RecordStatus.READ, HELLO), {"centre": "x"}),
        ):
            with self.subTest(given=given, more=more), self.assertRaises(error):
                sms.Record.write(*given, **more)
        with self.assertRaisesRegex(sms.Refused, "^at 2: wrong type$"):
            sms.Record.write(sms.RecordStatus.TO_BE_SENT, HELLO)

    def test_free(self):
        record = sms.Record.read(b"\x00" + b"\xff" * 175)
        self.assertEqual(record, sms.Record(sms.RecordStatus.FREE, sms.UnitKind.NONE, None, None))
        self.assertEqual((record.centre, record.message), (None, None))

    def test_what_is_refused(self):
        for octets, told in (
            (b"\x09", "at 0: bad status"),
            (b"\x03\x00" + HELLO + b"\x00", "at 30: not padding"),
            (bytes(177), "at 176: other length"),
            (b"\x03\x0c", "at 1: bad relay address"),
            (b"\x07\x00" + HELLO, "at 2: wrong type"),
            (b"", "at 0: short"),
        ):
            with self.subTest(octets=octets), self.assertRaises(sms.Refused) as caught:
                sms.Record.read(octets)
            self.assertEqual(str(caught.exception), told)


class Writers(unittest.TestCase):
    def test_submit_comes_back(self):
        (unit,) = sms.Submit.write("+46708251358", "hellohello", validity=sms.Validity.relative(170))
        self.assertEqual(unit.hex().upper(), "11000B916407281553F80000AA0AE8329BFD4697D9EC37")
        message = sms.Submit.read(unit)
        self.assertEqual((message.target, message.text), ("+46708251358", "hellohello"))
        self.assertEqual(message.validity.end(NOW), NOW + timedelta(days=4))

    def test_classes(self):
        for number, scheme in enumerate((None, 0, 1, 2, 3)):
            (unit,) = sms.Submit.write("+46708251358", "hellohello", message_class=scheme)
            septets = ("00", "10", "11", "12", "13")[number]
            self.assertEqual(unit.hex().upper(), f"01000B916407281553F800{septets}0AE8329BFD4697D9EC37")
            (unit,) = sms.Deliver.write("+46708251358", "\u044f", STAMP, message_class=scheme)
            ucs2 = ("08", "18", "19", "1A", "1B")[number]
            self.assertEqual(unit.hex().upper(), f"040B916407281553F800{ucs2}9930925161958002044F")
        for wrong in (-1, 4):
            with self.assertRaises(sms.OutOfRange):
                sms.Submit.write("1", "", message_class=wrong)

    def test_reports(self):
        stamp = sms.Stamp(bytes.fromhex("30217251409080"))
        deliver, submit = sms.DeliverReport, sms.SubmitReport
        header = bytes.fromhex("0370010041")
        cases = [
            ("0000", deliver.write_ack()),
            ("0007000003616263", deliver.write_ack(pid=0, dcs=0, data=b"abc")),
            ("400604050370010041", deliver.write_ack(dcs=4, data=header, has_header=True)),
            ("00040AE8329BFD4697D9EC37", deliver.write_ack(data=HELLO[19:], length=10)),
            ("00C1070004030102F0", deliver.write_error(0xC1, pid=0, dcs=4, data=bytearray(b"\x01\x02\xf0"))),
            ("010030217251409080", submit.write_ack(stamp)),
            ("01D60030217251409080", submit.write_error(0xD6, stamp)),
            ("01D60130217251409080AA", submit.write_error(0xD6, stamp, pid=0xAA)),
        ]
        for wanted, unit in cases:
            self.assertEqual(unit.hex().upper(), wanted)
        self.assertEqual(deliver.read_ack(deliver.write_ack(data=HELLO[19:], length=10)).text, "hellohello")
        for error, data, more in (
            (sms.TooLong, bytes(160), {"dcs": 4}),
            (sms.OutOfRange, bytes(9), {"length": 9}),
            (sms.OutOfRange, b"\x02\x00", {"dcs": 4, "has_header": True}),
            (sms.OutOfRange, None, {"has_header": True}),
            (TypeError, "abc", {}),
        ):
            with self.subTest(data=data, more=more), self.assertRaises(error):
                deliver.write_ack(data=data, **more)

    def test_status_reports(self):
        stamp, discharged = "0160124130340A", "0160124130940A"
        given = "+4915259911630", sms.Stamp(bytes.fromhex(stamp)), sms.Stamp(bytes.fromhex(discharged))
        unit = sms.StatusReport.write(*given, 0, reference=4)
        self.assertEqual(unit.hex().upper(), f"06040D91945152991136F0{stamp}{discharged}00")
        flags = {"more": True, "looped": True, "qualifier": True, "has_header": True}
        unit = sms.StatusReport.write(*given, 0x46, pid=0x7F, dcs=4, data=b"\x01\xbb\xcc", **flags)
        self.assertEqual(unit.hex().upper(), f"6A000D91945152991136F0{stamp}{discharged}46077F040301BBCC")
        report = sms.StatusReport.read(unit)
        self.assertEqual((report.more, report.looped, report.qualifier, report.has_header), (True,) * 4)
        self.assertEqual((report.data, report.header), (b"\x01\xbb\xcc", b"\xbb"))
        with self.assertRaises(sms.BadAddress):
            sms.StatusReport.write("+1x", *given[1:], 0)

    def test_the_longest_units(self):
        absolute, most = sms.Validity.absolute(STAMP), "+" + "1" * 20
        for unit, length in (
            (sms.Submit.write_data(most, bytes(140), validity=absolute), 164),
            (sms.SubmitReport.write_error(1, STAMP, pid=0, dcs=4, data=bytes(159)), 172),
            (sms.StatusReport.write(most, STAMP, STAMP, 0, pid=0, dcs=4, data=bytes(159)), sms.raw.UNIT_MAX),
        ):
            self.assertEqual(len(unit), length)
            packet = sms.wrap(unit, flag=True, value=6, to_phone=False, reference=255, centre=most)
            self.assertLessEqual(len(packet), sms.raw.PACKET_MAX)

    def test_data(self):
        unit = sms.Submit.write_data("+46708251358", b"\xaa\xbb")
        self.assertEqual(unit.hex().upper(), "01000B916407281553F8000402AABB")
        unit = sms.Submit.write_data("+46708251358", bytes.fromhex("0500032A020141"), 0x15, has_header=True, message_reference=7)
        self.assertEqual(unit.hex().upper(), "41070B916407281553F80015070500032A020141")
        self.assertEqual(sms.Submit.read(unit).place, sms.Place(8, 0x2A, 2, 1))
        unit = sms.Deliver.write_data("+46708251358", memoryview(b"\xaa\xbb"), STAMP, more=True)
        self.assertEqual(unit.hex().upper(), "000B916407281553F800049930925161958002AABB")
        for error, data, dcs in ((sms.TooLong, bytes(141), 4), (sms.OutOfRange, b"abc", 0), (TypeError, 7, 4)):
            with self.subTest(dcs=dcs), self.assertRaises(error):
                sms.Deliver.write_data("1", data, STAMP, dcs)

    def test_segments_tell_their_place(self):
        units = sms.Deliver.write("12345", LONG, STAMP, reference=42)
        places = [sms.Deliver.read(unit).place for unit in units]
        self.assertEqual(places, [sms.Place(8, 42, 2, 1), sms.Place(8, 42, 2, 2)])

    def test_split(self):
        segments = sms.split("a" * 161, reference=7)
        self.assertEqual([len(it.octets) for it in segments], [141, 15])
        self.assertTrue(segments[0].octets.hex().upper().startswith("A0050003070201C2E170381C0E87C3E170381C0E87C3"))
        self.assertEqual([it.dcs for it in sms.split("\u0416" * 71, width=16)], [8, 8])
        self.assertEqual(len(sms.split("a" * 39015)), 255)

    def test_what_is_refused(self):
        cases = [
            (sms.BadAddress, lambda: sms.Submit.write("+12x", "")),
            (sms.NotUtf8, lambda: sms.split("\ud800")),
            (sms.TooLong, lambda: sms.split("a" * 39016)),
            (sms.OutOfRange, lambda: sms.split("", reference=256)),
            (sms.OutOfRange, lambda: sms.Joiner(0, 1)),
            (sms.OutOfRange, lambda: sms.Joiner(1, 2**64 + 1)),
            (sms.OutOfRange, lambda: sms.Submit.write("1", "", pid=256)),
            (sms.OutOfRange, lambda: sms.Stamp.at(datetime(1999, 12, 31, tzinfo=timezone.utc))),
            (sms.OutOfRange, lambda: sms.Validity(1, b"").end(NOW)),
            (sms.NotThere, lambda: sms.Validity(2, bytes(7)).end(NOW)),
        ]
        for error, call in cases:
            with self.subTest(error=error), self.assertRaises(error):
                call()


class Mistakes(unittest.TestCase):
    def test_octets_are_octets(self):
        with sms.Joiner() as joiner:
            calls = [
                sms.Deliver.read,
                sms.Submit.read,
                sms.DeliverReport.read_ack,
                sms.SubmitReport.read_error,
                sms.StatusReport.read,
                sms.Command.read,
                sms.Cp.read,
                sms.Rp.read,
                sms.Stamp,
                lambda octets: sms.Validity(sms.Format.ENHANCED, octets),
                lambda octets: sms.wrap(octets, flag=False, value=0, to_phone=True, reference=0),
                lambda octets: sms.wrap_answer(octets, flag=False, value=0, to_phone=True, reference=0),
                joiner.offer,
                joiner.outcome,
                joiner.would_finish,
            ]
            for call, wrong in itertools.product(calls, (7, 28.0, "0" * 7, None, [0] * 7)):
                with self.subTest(call=call, wrong=wrong):
                    with self.assertRaisesRegex(TypeError, f"^octets are bytes, .* not {type(wrong).__name__}$"):
                        call(wrong)

    def test_texts_moments_and_numbers_are_such(self):
        cases = [
            ("a text is a str, and not bytes", lambda: sms.split(b"text")),
            ("a text is a str, and not int", lambda: sms.Submit.write(46708251358, "text")),
            ("a moment is a datetime, and not int", lambda: sms.Stamp.at(0)),
            ("a moment is a datetime, and not int", lambda: sms.Joiner().offer(HELLO, 0)),
            ("a moment is a datetime, and not float", lambda: sms.Validity().end(0.0)),
            ("'float' object", lambda: sms.split("", reference=1.0)),
            ("'float' object", lambda: sms.Joiner(1.0, 1)),
            ("'str'", lambda: sms.Submit.write("1", "", pid="0")),
        ]
        for told, call in cases:
            with self.subTest(told=told), self.assertRaisesRegex(TypeError, told):
                call()

    def test_each_error_comes_back(self):
        errors = [it for it in vars(sms).values() if isinstance(it, type) and issubclass(it, sms.Error)]
        self.assertEqual(len(errors), 11)
        told = [it() for it in errors if it is not sms.Refused] + [sms.OutOfRange("a moment has a time zone")]
        told += [sms.Refused(18, sms.Reason.DATA_TOO_LONG), sms.Refused(0, sms.Reason(99))]
        for protocol, error in itertools.product(range(pickle.HIGHEST_PROTOCOL + 1), told):
            for again in (pickle.loads(pickle.dumps(error, protocol)), copy.copy(error), copy.deepcopy(error)):
                self.assertIs(type(again), type(error))
                self.assertEqual((again, hash(again), str(again)), (error, hash(error), str(error)))
                self.assertEqual((again.args, vars(again)), (error.args, vars(error)))
        self.assertNotEqual(told[-2], told[-1])
        self.assertNotEqual(sms.NotThere(), sms.NotUtf8())

    def test_a_reason_without_a_name(self):
        self.assertEqual(str(sms.Refused(3, sms.Reason(99))), "at 3: reason 99")
        self.assertEqual(sms.Reason(99), 99)
        with self.assertRaises(ValueError):
            sms.Reason("short")


class Packets(unittest.TestCase):
    def test_wrapped_and_read(self):
        packet = sms.wrap(HELLO, flag=False, value=3, to_phone=True, reference=9, centre="+1234")
        cp = sms.Cp.read(packet)
        rp = sms.Rp.read(cp.user)
        self.assertEqual((cp.kind, cp.flag, cp.value, cp.used), ("data", False, 3, len(packet)))
        self.assertEqual((rp.kind, rp.to_phone, rp.reference, rp.user), ("data", True, 9, HELLO))
        self.assertEqual((rp.address, rp.centre), (bytes.fromhex("03912143"), "+1234"))
        answer = sms.wrap_answer(flag=True, value=3, to_phone=False, reference=9, cause=22)
        rp = sms.Rp.read(sms.Cp.read(answer).user)
        self.assertEqual((rp.kind, rp.cause, rp.diagnostic, rp.user), ("error", 22, None, None))
        self.assertEqual(sms.Cp.read(sms.wrap_acknowledgement(flag=True, value=3)).kind, "ack")
        self.assertEqual(sms.Cp.read(sms.wrap_acknowledgement(flag=True, value=3, cause=97)).cause, 97)


    def test_centre(self):
        octets = bytes.fromhex("012A07917283010010F500020405")
        self.assertEqual(sms.Rp.read(octets).centre, "+27381000015")
        self.assertEqual(sms.Rp.read(octets[:3] + b"\x81" + octets[4:]).centre, "27381000015")
        self.assertIsNone(sms.Rp.read(bytes.fromhex("032A")).centre)
        with self.assertRaisesRegex(sms.Refused, "^at 4: bad relay address$"):
            sms.Rp.read(octets[:4] + b"\x7f" + octets[5:])
        with self.assertRaises(sms.BadAddress):
            dataclasses.replace(sms.Rp.read(octets), address=b"\x02\x91\x7f").centre


class Stamps(unittest.TestCase):
    def test_there_and_back(self):
        for hours in (-12, 0, 14):
            moment = NOW.astimezone(timezone(timedelta(hours=hours)))
            stamp = sms.Stamp.at(moment)
            self.assertEqual((stamp.moment, stamp.date.quarters), (NOW, 4 * hours))
        self.assertIsNone(sms.Stamp(bytes([0xFF] * 7)).moment)


class Joins(unittest.TestCase):
    def test_in_any_order_once(self):
        first, second = sms.Deliver.write("12345", LONG, STAMP, reference=42)
        with sms.Joiner(1, 8) as joiner:
            self.assertIsNone(joiner.offer(second, NOW))
            self.assertEqual(joiner.outcome(second, NOW), sms.Offer.REPEAT)
            self.assertTrue(joiner.would_finish(first))
            self.assertFalse(joiner.would_finish(second))
            other = sms.Deliver.write("12345", LONG, STAMP, reference=43)[0]
            with self.assertRaises(sms.TooManyOpen):
                joiner.offer(other, NOW)
            self.assertEqual(joiner.offer(first, NOW), LONG)
            self.assertIsNone(joiner.offer(first, NOW))
            self.assertEqual(joiner.text, LONG)
            self.assertEqual(joiner.outcome(other, NOW), sms.Offer.KEPT)
            joiner.age(NOW + timedelta(days=7))
            self.assertEqual(joiner.outcome(other, NOW), sms.Offer.KEPT)
        with self.assertRaises(sms.Closed):
            joiner.offer(first, NOW)
        joiner.close()

    def test_threads(self):
        def join(number):
            text = LONG[number:] + LONG
            with sms.Joiner() as joiner:
                told.append([joiner.offer(it, NOW) for it in sms.Deliver.write("1", text, STAMP)][-1] == text)

        told = []
        together(join)
        self.assertEqual(told, [True] * 8)

    def test_threads_share_a_joiner(self):
        texts = [[f"{thread}, {number}: {LONG}{LONG}" for number in range(200)] for thread in range(8)]
        units = [
            [sms.Deliver.write(f"1{thread}", text, STAMP, reference=number) for number, text in enumerate(own)]
            for thread, own in enumerate(texts)
        ]
        told = [[] for _ in texts]
        start = threading.Barrier(8)

        def offer(thread):
            start.wait()
            for unit in itertools.chain.from_iterable(units[thread]):
                finishes = joiner.would_finish(unit)
                told[thread].append((finishes, joiner.offer(unit, NOW)))
                joiner.age(NOW)

        with sms.Joiner() as joiner:
            together(offer)
        for thread, own in enumerate(texts):
            wanted = [[(False, None), (False, None), (True, text)] for text in own]
            self.assertEqual(told[thread], list(itertools.chain.from_iterable(wanted)))

    def test_closed_while_threads_offer(self):
        first = sms.Deliver.write("12345", LONG, STAMP)[0]
        joiner, ended = sms.Joiner(), []
        start = threading.Barrier(8)

        def offer(thread):
            start.wait()
            if thread == 0:
                joiner.close()
            try:
                while joiner.offer(first, NOW) is None:
                    pass
            except sms.Closed:
                ended.append(thread)

        together(offer)
        self.assertEqual(sorted(ended), list(range(8)))

    def test_no_copy(self):
        first, second = sms.Deliver.write("12345", LONG, STAMP)
        with sms.Joiner() as joiner:
            joiner.offer(first, NOW)
            for copied in (copy.copy, copy.deepcopy, pickle.dumps):
                with self.subTest(call=copied.__name__), self.assertRaises(TypeError):
                    copied(joiner)
            self.assertEqual(joiner.offer(second, NOW), LONG)

    def test_open_messages(self):
        narrow = sms.Deliver.write("+12345", LONG * 9, STAMP, reference=200)
        wide = sms.Deliver.write("Carrier", LONG, STAMP, reference=40000, width=16)
        with sms.Joiner(8, 8) as joiner:
            self.assertEqual((joiner.open_count, list(joiner.open_messages())), (0, []))
            for unit, seconds in ((narrow[10], 0), (wide[0], -60), (narrow[7], 60)):
                joiner.offer(unit, NOW + timedelta(seconds=seconds))
            first, second = joiner.open_messages()
            self.assertEqual((joiner.open_count, len(narrow)), (2, 12))
            self.assertEqual((first.origin, first.type_of_number, first.plan), ("+12345", 1, 1))
            self.assertEqual((first.width, first.reference, first.maximum, first.moment), (8, 200, 12, NOW))
            self.assertEqual((first.sequences, first.missing), ((8, 11), (1, 2, 3, 4, 5, 6, 7, 9, 10, 12)))
            self.assertEqual((second.origin, second.width, second.reference), ("Carrier", 16, 40000))
            self.assertEqual((second.sequences, second.missing), ((1,), (2,)))
            self.assertEqual(second.moment, NOW - timedelta(seconds=60))
            self.assertLess(first.opening, second.opening)
            self.assertEqual(list(joiner.open_sets()), [first, second])
            joiner.offer(wide[1], NOW)
            self.assertEqual(list(joiner.open_messages()), [first])
        for call in (lambda: joiner.open_count, lambda: next(joiner.open_messages())):
            with self.assertRaises(sms.Closed):
                call()

    def test_open_messages_that_change(self):
        first, second = (sms.Deliver.write("1", LONG, STAMP, reference=it)[0] for it in (1, 2))
        for change in (lambda: joiner.offer(first, NOW), lambda: joiner.age(NOW)):
            with sms.Joiner() as joiner:
                joiner.offer(first, NOW)
                joiner.offer(second, NOW)
                told = joiner.open_messages()
                self.assertEqual(next(told).reference, 1)
                change()
                with self.assertRaises(sms.Changed):
                    next(told)

    def test_seeds(self):
        first, second = sms.Deliver.write("12345", LONG, STAMP)
        for seed in (None, 0, 2**64, 2**128 - 1):
            with self.subTest(seed=seed), sms.Joiner(1, 8, seed=seed) as joiner:
                self.assertEqual([joiner.offer(it, NOW) for it in (second, first, first)], [None, LONG, None])
        for seed in (-1, 2**128):
            with self.subTest(seed=seed), self.assertRaises(sms.OutOfRange):
                sms.Joiner(seed=seed)

    def test_no_text(self):
        with sms.Joiner() as joiner:
            for scheme in (0x04, 0x20, 0xF4):
                unit = HELLO[:10] + bytes([scheme]) + HELLO[11:18] + bytes.fromhex("03AABBCC")
                with self.subTest(scheme=scheme):
                    with self.assertRaises(sms.NotThere):
                        joiner.would_finish(unit)
                    with self.assertRaises(sms.NotThere):
                        joiner.offer(unit, NOW)


if __name__ == "__main__":
    unittest.main()
