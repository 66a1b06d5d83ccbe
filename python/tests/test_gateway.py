"""A gateway's joiner: recipients apart, ages, messages in one piece, and what is refused."""

import copy
import pickle
import threading
import unittest
from datetime import datetime, timedelta, timezone

import sms

NOW = datetime(2099, 3, 29, 13, 17, tzinfo=timezone.utc)
STAMP = sms.Stamp.at(NOW)
LONG = "".join(chr(97 + i % 26) for i in range(200))


def after(seconds):
    return NOW + timedelta(seconds=seconds)


def data(text):
    """The segments of a text as user data alone, septets one an octet."""
    parts = sms.split_data(text, reference=7, single=True)
    return [sms.Data.read(it.octets, it.dcs, has_header=it.has_header, single=True) for it in parts]


class Gateways(unittest.TestCase):
    def test_recipients_apart(self):
        first, second = sms.Deliver.write("+9", LONG, STAMP, reference=42)
        other, last = sms.Deliver.write("+9", LONG.upper(), STAMP, reference=42)
        with sms.Gateway(4, 4) as gateway:
            self.assertIsNone(gateway.offer("+1001", first, NOW))
            self.assertEqual(gateway.outcome("Hotel", other, NOW), sms.Offer.KEPT)
            self.assertEqual(gateway.outcome("Hotel", other, NOW), sms.Offer.REPEAT)
            self.assertEqual(gateway.outcome(None, second, NOW), sms.Offer.KEPT)
            self.assertTrue(gateway.would_finish("+1001", second))
            self.assertFalse(gateway.would_finish("+1002", second))
            self.assertEqual(gateway.offer("+1001", second, NOW), LONG)
            self.assertEqual(gateway.offer("Hotel", last, NOW), LONG.upper())
            self.assertIsNone(gateway.offer("Hotel", last, NOW))
            self.assertEqual((gateway.text, gateway.open_count), (LONG.upper(), 1))
            self.assertEqual(gateway.offer(None, first, NOW), LONG)
        with self.assertRaises(sms.Closed):
            gateway.offer("+1001", first, NOW)
        gateway.close()

    def test_data_alone(self):
        first, second = data(LONG)
        with sms.Gateway(4, 4) as gateway:
            self.assertIsNone(gateway.offer_data("+1001", "+9", first, NOW))
            self.assertEqual(gateway.outcome_data("+1002", "+9", second, NOW), sms.Offer.KEPT)
            self.assertTrue(gateway.would_finish_data("+1001", "+9", second))
            self.assertFalse(gateway.would_finish_data(None, "+9", second))
            self.assertEqual(gateway.offer_data("+1001", "+9", second, NOW), LONG)
            self.assertEqual(gateway.offer_data("+1002", "+9", first, NOW), LONG)
            with self.assertRaises(sms.BadAddress):
                gateway.offer_data("+x", "+9", first, NOW)
            with self.assertRaises(sms.BadAddress):
                gateway.would_finish_data("+1001", "+x", first)

    def test_alone(self):
        (unit,) = sms.Deliver.write("+9", "hello", STAMP)
        (bare,) = data("hello")
        for passes, wanted in ((False, None), (True, "hello")):
            with self.subTest(passes=passes), sms.Gateway(1, 1, pass_alone=passes) as gateway:
                self.assertEqual([gateway.offer("+1", it, NOW) for it in (unit, unit)], ["hello", wanted])
                told = [gateway.offer_data("+2", "+9", bare, NOW, stamp=STAMP) for _ in range(2)]
                self.assertEqual(told, ["hello", wanted])
                self.assertEqual([gateway.offer_data("+2", "+9", bare, NOW) for _ in range(2)], ["hello"] * 2)

    def test_ages(self):
        first, second = sms.Deliver.write("+9", LONG, STAMP)
        lengths = {"open_for": timedelta(seconds=100), "remember_for": timedelta(seconds=50)}
        with sms.Gateway(4, 4, **lengths) as gateway:
            self.assertEqual([gateway.offer("+1", it, NOW) for it in (first, second)], [None, LONG])
            gateway.age(after(49))
            self.assertEqual(gateway.outcome("+1", second, after(49)), sms.Offer.REPEAT)
            gateway.age(after(50))
            self.assertEqual(gateway.outcome("+1", second, after(50)), sms.Offer.KEPT)
            gateway.age(after(149))
            self.assertEqual(gateway.open_count, 1)
            gateway.age(after(150))
            self.assertEqual(gateway.open_count, 0)
        with sms.Gateway(4, 4) as gateway:
            self.assertEqual([gateway.offer("+1", it, NOW) for it in (first, second)], [None, LONG])
            gateway.age(after(604800))
            self.assertEqual(gateway.outcome("+1", second, NOW), sms.Offer.REPEAT)

    def test_limits(self):
        first, other = (sms.Deliver.write("+9", LONG, STAMP, reference=it)[0] for it in (1, 2))
        with sms.Gateway(1, 1, seed=2**128 - 1) as gateway:
            gateway.offer("+1", first, NOW)
            for to, unit in (("+2", first), (None, first), ("+1", other)):
                with self.subTest(to=to), self.assertRaises(sms.TooManyOpen):
                    gateway.offer(to, unit, NOW)
        second, half = timedelta(seconds=1), timedelta(milliseconds=500)
        wrong = [{"open_max": 0}, {"remembered": 0}, {"seed": -1}, {"seed": 2**128}, {"open_for": -second}]
        wrong += [{"open_for": half}, {"remember_for": half}, {"remember_for": 0 * second}]
        for given in wrong:
            with self.subTest(given=given), self.assertRaises(sms.OutOfRange):
                sms.Gateway(**given)

    def test_refused(self):
        (unit,) = sms.Deliver.write("+9", "hello", STAMP)
        with sms.Gateway(1, 1) as gateway:
            for call in (gateway.offer, gateway.would_finish):
                with self.assertRaises(sms.Refused):
                    call("+x", unit[:3])
                with self.assertRaises(sms.BadAddress):
                    call("+x", unit)
                with self.assertRaises(sms.NotUtf8):
                    call("\ud800", unit)
            for copied in (copy.copy, copy.deepcopy, pickle.dumps):
                with self.assertRaises(TypeError):
                    copied(gateway)

    def test_open_messages(self):
        first, second = sms.Deliver.write("+9", LONG, STAMP, reference=42)
        with sms.Gateway(4, 4) as gateway:
            gateway.offer("Hotel", second, after(3))
            gateway.offer(None, first, NOW)
            one, other = gateway.open_messages()
            self.assertEqual(list(gateway.open_sets()), [one, other])
            self.assertEqual((one.recipient, one.origin, one.reference, one.maximum), ("Hotel", "+9", 42, 2))
            self.assertEqual((one.sequences, one.missing, one.moment), ((2,), (1,), after(3)))
            self.assertEqual((other.recipient, other.sequences, other.moment), (None, (1,), NOW))
            self.assertIsInstance(one, sms.OpenMessage)
            told = gateway.open_messages()
            next(told)
            gateway.age(NOW)
            with self.assertRaises(sms.Changed):
                next(told)
        with self.assertRaises(sms.Closed):
            next(gateway.open_messages())

    def test_saved_and_read_back(self):
        first, second = sms.Deliver.write("+9", LONG, STAMP, reference=42)
        other, last = sms.Deliver.write("+9", LONG.upper(), STAMP, reference=43)
        lengths = {"open_for": timedelta(seconds=100), "remember_for": timedelta(seconds=50)}
        with sms.Gateway(4, 4, **lengths) as gateway:
            self.assertEqual([gateway.offer("Hotel", it, NOW) for it in (other, last)], [None, LONG.upper()])
            self.assertIsNone(gateway.offer("+1001", first, NOW))
            self.assertEqual(gateway.taken, 0)
            empty, octets = gateway.save(), gateway.save(2**64 - 1)
            self.assertEqual((empty[:9], len(empty)), (b"SMSSTATE\1", len(octets)))
            self.assertEqual((gateway.text, gateway.open_count), (LONG.upper(), 1))
            for wrong in (-1, 2**64):
                with self.subTest(wrong=wrong), self.assertRaises(sms.OutOfRange):
                    gateway.save(wrong)
        with self.assertRaises(sms.Closed):
            gateway.save()
        for given in (octets, bytearray(octets), memoryview(octets)):
            with sms.Gateway.read(given, 4, 4, **lengths, seed=5) as gateway:
                self.assertEqual((gateway.taken, gateway.text, gateway.open_count), (2**64 - 1, "", 1))
                self.assertEqual(gateway.outcome("Hotel", last, NOW), sms.Offer.REPEAT)
                (message,) = gateway.open_messages()
                self.assertEqual((message.recipient, message.sequences, message.moment), ("+1001", (1,), NOW))
                self.assertEqual(gateway.offer("+1001", second, NOW), LONG)
                gateway.age(after(50))
                self.assertEqual(gateway.outcome("Hotel", last, after(50)), sms.Offer.KEPT)

    def test_no_state(self):
        with sms.Gateway(4, 4) as gateway:
            octets = gateway.save(3)
        newer, flipped = octets[:8] + b"\2" + octets[9:], octets[:-1] + bytes([octets[-1] ^ 1])
        rows = [
            (b"", {}, 0, sms.Reason.NO_STATE, "at 0: no state"),
            (newer, {}, 8, sms.Reason.NEWER, "at 8: newer"),
            (octets, {"pass_alone": True}, 9, sms.Reason.OTHER_LIMITS, "at 9: other limits"),
            (octets, {"remembered": 5}, 9, sms.Reason.OTHER_LIMITS, "at 9: other limits"),
            (octets[:40], {}, 35, sms.Reason.SHORT, "at 35: short"),
            (octets + b"\0", {}, 67, sms.Reason.TRAILING, "at 67: trailing"),
            (flipped, {}, 67, sms.Reason.BAD_CHECKSUM, "at 67: bad checksum"),
        ]
        for given, other, place, reason, text in rows:
            with self.subTest(text=text), self.assertRaises(sms.Refused) as raised:
                sms.Gateway.read(given, **{"open_max": 4, "remembered": 4, **other})
            told = raised.exception
            self.assertEqual((told.place, told.reason, str(told)), (place, reason, text))
        with self.assertRaises(sms.OutOfRange):
            sms.Gateway.read(octets, 0, 4)
        with self.assertRaises(TypeError):
            sms.Gateway.read(5, 4, 4)

    def test_threads(self):
        parts = sms.Deliver.write("+9", LONG, STAMP, reference=1)
        told = [None] * 8

        def offer(number):
            told[number] = [gateway.offer(f"+{number + 1}", it, NOW) for it in parts]

        with sms.Gateway(8, 8) as gateway:
            threads = [threading.Thread(target=offer, args=(number,)) for number in range(8)]
            for thread in threads:
                thread.start()
            for thread in threads:
                thread.join()
        self.assertEqual(told, [[None, LONG]] * 8)


if __name__ == "__main__":
    unittest.main()
