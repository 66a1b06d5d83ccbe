"""Tests of bench/count without a program: python3 bench/count_test.py"""
import importlib.machinery, importlib.util, os, subprocess, sys, tempfile, unittest

sys.dont_write_bytecode = True
PATH = os.path.join(os.path.dirname(os.path.abspath(__file__)), "count")
loader = importlib.machinery.SourceFileLoader("count", PATH)
count = importlib.util.module_from_spec(importlib.util.spec_from_loader("count", loader))
loader.exec_module(count)

KNOWN = ["join", "c_read"]
TEXT = "# heading\n\njoin  200 7000.5  # lines\nc_read 20 300\n"


class Rows(unittest.TestCase):
    def refused(self, text, *words, is_written=False):
        with self.assertRaises(ValueError) as refused:
            count.rows_of(text, KNOWN, is_written)
        for word in words:
            self.assertIn(word, str(refused.exception))

    def test_rows(self):
        self.assertEqual(count.rows_of(TEXT, KNOWN), {"join": [200, 7000.5], "c_read": [20, 300.0]})

    def test_missing_name(self):
        self.refused("join 200 7000\n", "no line of c_read")
        self.refused("", "no line of join")
        self.refused(TEXT.replace("c_read", "# c_read"), "no line of c_read")

    def test_double_name(self):
        self.refused(TEXT + "join 200 7000.5\n", "line 5", "join stands twice")

    def test_unknown_name(self):
        self.refused(TEXT + "glance 20 300\n", "line 5", "glance is not known")

    def test_no_number(self):
        for word in ["0", "0.0", "-1", "nan", "inf", "1e3", "7,000", "x", "1.", ".5", "٣", "-"]:
            self.refused(TEXT.replace("7000.5", word), "line 3", f"{word} is no number")

    def test_no_units(self):
        for word in ["0", "-1", "2.5", "x", "0200", "٣"]:
            self.refused(TEXT.replace("200 ", word + " ", 1), "line 3", f"{word} is no number")

    def test_words(self):
        for line in ["join", "join 200", "join 200 7000 1"]:
            self.refused(TEXT.replace("join  200 7000.5", line), "line 3", line)

    def test_number_to_be_written(self):
        text = TEXT.replace("7000.5", "-")
        self.assertEqual(count.rows_of(text, KNOWN, True)["join"], [200, None])
        self.refused(text.replace("200", "-"), "line 3", is_written=True)


class Compared(unittest.TestCase):
    def passes(self, counted, *words):
        line, passes = count.told("join", counted, 1000.0)
        for word in ("join: ", *words):
            self.assertIn(word, line)
        return passes

    def test_more(self):
        self.assertFalse(self.passes(1051, "1051.0", "5.1% more than 1000.0", "too many"))
        self.assertFalse(self.passes(1100, "10.0% more"))
        self.assertTrue(self.passes(1050, "5.0% more"))

    def test_less(self):
        self.assertTrue(self.passes(949, "5.1% less than 1000.0", "bench/count --write join"))
        self.assertTrue(self.passes(950, "5.0% less"))
        self.assertNotIn("--write", count.told("join", 950, 1000.0)[0])

    def test_written(self):
        self.assertEqual(count.written(TEXT, {"join": 6000}), TEXT.replace("7000.5", "6000.0"))
        self.assertEqual(count.written("  join 2  -\n", {"join": 1.25}), "  join 2  1.2\n")
        self.assertEqual(count.written(TEXT, {}), TEXT)

    def test_instructions(self):
        self.assertEqual(count.instructions("==7== I   refs:      1,234,567\n"), 1234567)
        self.assertEqual(count.instructions("told\n==7== \n==7== I refs:        89\n"), 89)
        with self.assertRaises(ValueError):
            count.instructions("==7== Fatal error")


# A compiler that leaves an empty program, and a valgrind that tells 70 instructions a unit, and
# 1,000 that are made once.
STAND_INS = {
    "cc": ': > "$last"',
    "valgrind": 'echo "==1== I   refs:      $((1000 + 70 * last))" >&2',
}


class Run(unittest.TestCase):
    def run_with(self, *words, path=""):
        done = subprocess.run([sys.executable, PATH, *words], env={"PATH": path},
                              capture_output=True, text=True, check=False)
        return done.returncode, done.stdout + done.stderr

    def given(self, text):
        file = tempfile.NamedTemporaryFile("w", suffix=".txt")
        self.addCleanup(file.close)
        file.write(text)
        file.flush()
        return file.name

    def lines(self, number="3"):
        return "".join(f"{name} 2 {number}\n" for name in count.commands(""))

    def stand_ins(self):
        folder = tempfile.TemporaryDirectory()
        self.addCleanup(folder.cleanup)
        for name, line in STAND_INS.items():
            path = os.path.join(folder.name, name)
            with open(path, "w", encoding="utf-8") as given:
                given.write(f"#!/bin/sh\nfor last; do :; done\n{line}\n")
            os.chmod(path, 0o755)
        return folder.name

    def compared(self, number, *words):
        path = self.given(self.lines(number))
        return self.run_with("--counts", path, *words, path=self.stand_ins())

    def test_difference_by_units(self):
        status, said = self.compared("70", "c_read", "c_offer")
        self.assertEqual(status, 0)
        self.assertIn("c_read: 70.0 instructions a unit", said)
        self.assertIn("c_offer: 70.0", said)
        self.assertNotIn("c_write", said)

    def test_more_fails_by_its_name(self):
        status, said = self.compared("63", "c_read")
        self.assertEqual(status, 1)
        self.assertIn("c_read: 70.0 instructions a unit, 11.1% more than 63.0", said)

    def test_less_passes(self):
        status, said = self.compared("77", "c_read")
        self.assertEqual(status, 0)
        self.assertIn("bench/count --write c_read", said)

    def test_write(self):
        path = self.given(self.lines("-"))
        words = ["--counts", path, "--write", "c_read", "c_text"]
        self.assertEqual(self.run_with(*words, path=self.stand_ins()), (0, ""))
        with open(path, encoding="utf-8") as kept:
            wanted = self.lines("-").replace("c_read 2 -", "c_read 2 70.0")
            self.assertEqual(kept.read(), wanted.replace("c_text 2 -", "c_text 2 70.0"))

    def test_without_valgrind(self):
        path = self.given(self.lines())
        self.assertEqual(self.run_with("--counts", path)[0], 0)
        self.assertIn("left out", self.run_with("--counts", path)[1])
        self.assertEqual(self.run_with("--counts", path, "--write")[0], 1)

    def test_wrong_counts_do_not_pass(self):
        path = self.given(self.lines() + "join 2 3\n")
        status, said = self.run_with("--counts", path)
        self.assertEqual(status, 1)
        self.assertIn("join stands twice", said)

    def test_unknown_words(self):
        self.assertEqual(self.run_with("glance")[0], 1)
        self.assertNotEqual(self.run_with("--quick")[0], 0)


unittest.main()
