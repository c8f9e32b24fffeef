"""The Python module held to two other readings: tests/traces/layout.py and sheet.py for the bytes, the C tests' trace files for what the library answers.

tests/python/run sets SPINDLE_CASES, the folder of sheet.py's cases, and SPINDLE_TRACES, that of tests/traces/replay.c's files."""
import csv
import io
import os
import random
import struct
import sys
import unittest
from pathlib import Path

ROOT = Path(__file__).resolve().parents[3]
sys.path[:0] = [str(ROOT / "tests" / "traces"), str(ROOT / "bindings" / "python")]
import layout  # noqa: E402
import spindle  # noqa: E402

POWER = spindle.Cone(kind=2, exponents=(0.5,))


def bits(x):
    return struct.unpack("<Q", struct.pack("<d", x))[0]


def words(record):
    """A record as layout.py tells it."""
    r = record
    numbers = [*r.cone.exponents, *r.settings, *r.dz, *r.ds, *r.z, *r.s]
    return [*r.cone[:4], r.flag, *(layout.value(bits(x)) for x in numbers), bits(r.dual.step), r.dual.count, bits(r.primal.step), r.primal.count]


def told(data):
    """What layout.judge prints of the same bytes."""
    try:
        trace = spindle.Trace(data)
    except spindle.NotATrace:
        return "9"
    return " ".join(["%d %d" % (trace.edition, len(trace))] + ["%d %s" % (r.offset, layout.told(words(r))) for r in trace])


def some_traces(seed):
    """Small traces of each edition, with records of each kind."""
    rng = random.Random(seed)
    for edition in layout.DEFAULTS:
        records = []
        for kind, dim1, dim2 in ((1, 3, 0), (2, 3, 0), (3, 2, 1)):
            rule = 1 if edition not in layout.RULED else rng.randrange(4)
            call = layout.made_call(rng, kind, dim1, dim2, rule, rng.randrange(2), [dim1 + dim2] * 4, [layout.step(rng) % layout.INFINITE, 7, 0, 42])
            records.append(layout.record_bytes(call, edition))
        yield layout.trace_bytes(records, edition)


class Layout(unittest.TestCase):
    def test_records_as_the_second_reading_has_them(self):
        for data in some_traces(1):
            self.assertNotEqual(told(data), "9")
            self.assertEqual(told(data), layout.judge(data))

    def test_every_truncation_and_every_changed_byte(self):
        rng = random.Random(2)
        broken = whole = 0
        for data in some_traces(3):
            changed = [data[:n] for n in range(len(data))]
            changed += [data[:i] + bytes([data[i] ^ rng.randrange(1, 256)]) + data[i + 1 :] for i in range(len(data))]
            for bytes_ in changed:
                said = told(bytes_)
                self.assertEqual(said, layout.judge(bytes_))
                broken, whole = broken + (said == "9"), whole + (said != "9")
        self.assertGreater(broken, 1000)
        self.assertGreater(whole, 100)

    def test_a_trace_is_a_sequence(self):
        data = next(some_traces(4))
        trace = spindle.Trace(data)
        self.assertEqual(len(trace), 3)
        self.assertEqual([r.offset for r in trace], [trace[i].offset for i in range(3)])
        self.assertEqual(trace.edition, 1)
        self.assertEqual(len(spindle.Trace(layout.trace_bytes([]))), 0)

    def test_what_is_wrong_is_said(self):
        data = next(some_traces(5))
        for bad, word in ((b"", "fewer"), (data[:-1], "BACK"), (data[:-8] + b"\x09" + data[-7:], "edition"), (b"stop" + data[4:], "STEP")):
            with self.assertRaisesRegex(spindle.NotATrace, word):
                spindle.Trace(bad)


class Sheets(unittest.TestCase):
    @unittest.skipUnless("SPINDLE_CASES" in os.environ, "SPINDLE_CASES is not set: run tests/python/run")
    def test_the_text_of_every_case(self):
        texts = sorted(Path(os.environ["SPINDLE_CASES"]).glob("*.text"))
        self.assertGreater(len(texts), 3)
        for text in texts:
            files = sorted(text.with_suffix("").iterdir()) if text.with_suffix("").exists() else []
            self.assertEqual(spindle.sheet(files), text.read_text(), text.name)

    def test_too_many_files(self):
        with self.assertRaises(ValueError):
            spindle.sheet([b""] * 1001)


class Csv(unittest.TestCase):
    def test_every_number_comes_back(self):
        data = list(some_traces(6))[2]
        out = io.StringIO()
        spindle.write_csv(data, out)
        rows = list(csv.DictReader(io.StringIO(out.getvalue())))
        self.assertEqual(len(rows), 3)
        for row, record in zip(rows, spindle.Trace(data)):
            self.assertEqual((int(row["offset"]), int(row["kind"]), int(row["rule"])), (record.offset, record.cone.kind, record.cone.rule))
            self.assertEqual((int(row["dual_count"]), int(row["primal_count"])), (record.dual.count, record.primal.count))
            self.assertEqual(bits(float(row["dual_step"])), bits(record.dual.step))
            for name, vector in (("dz", record.dz), ("ds", record.ds), ("z", record.z), ("s", record.s), ("exponents", record.cone.exponents)):
                back = [layout.value(bits(float(x))) for x in row[name].split()]
                self.assertEqual(back, [layout.value(bits(x)) for x in vector])


class Sentences(unittest.TestCase):
    def test_a_refusal_says_what_the_header_says(self):
        header = (ROOT / "include" / "spindle.h").read_text(encoding="utf-8")
        for number, sentence in spindle.library.MEANINGS.items():
            self.assertIn('return "%s";' % sentence, header)
            self.assertEqual(str(spindle.Refused(number)), "refused with %d: %s" % (number, sentence))


class OverTheLibrary(unittest.TestCase):
    @classmethod
    def setUpClass(cls):
        try:
            cls.library = spindle.Library()
        except spindle.LibraryNotFound as why:
            raise unittest.SkipTest(str(why)) from why

    def test_the_version(self):
        self.assertEqual(self.library.version, 10000)
        self.assertEqual(spindle.__version__, "1.0.0")

    def test_a_search(self):
        found = self.library.search(POWER, True, [-1, 0, 0], [1, 1, 0.5])
        self.assertEqual(found, (0.5, 2, (0.5, 1.0, 0.5)))
        # step 1 leads to (0, 1, 0.5), outside; from outside along nothing no trial passes
        self.assertEqual(self.library.search(POWER, True, [0, 0, 0], [1, 1, 2]).step, 0)

    def test_refusals(self):
        for cone, dq, number in ((POWER._replace(rule=0), [0] * 3, 1), (POWER, [0] * 2, 2), (POWER, [float("nan")] * 3, 3)):
            with self.assertRaises(spindle.Refused) as caught:
                self.library.search(cone, True, dq, [1, 1, 0])
            self.assertEqual(caught.exception.code, number)
        with self.assertRaises(spindle.Refused) as caught:
            self.library.search(POWER, True, [0] * 3, [1, 1, 0], spindle.Settings(step=1.0))
        self.assertEqual(caught.exception.code, 4)
        with self.assertRaises(spindle.Refused) as caught:
            self.library.replay(b"no trace")
        self.assertEqual(caught.exception.code, 9)

    @unittest.skipUnless("SPINDLE_TRACES" in os.environ, "SPINDLE_TRACES is not set: run tests/python/run")
    def test_replay_of_the_c_tests_files(self):
        """Each file NAME.trace has beside it what the program replay prints of it."""
        replayed = 0
        for text in sorted(Path(os.environ["SPINDLE_TRACES"]).glob("*.text")):
            file, said = text.with_suffix(".trace"), text.read_text()
            if said.startswith("refused 8"):
                continue  # a file above what the program reads; the call has no such limit
            if said.startswith("refused"):
                with self.assertRaises(spindle.Refused) as caught:
                    self.library.replay(file)
                self.assertEqual("refused %d\n" % caught.exception.code, said)
                self.assertRaises(spindle.NotATrace, spindle.Trace, file)
            else:
                out = self.library.replay(spindle.Trace(file))
                lines = ["records %d" % out.records, "same %d" % out.same, "differ %d" % out.differ, *("at %d" % at for at in out.at)]
                self.assertEqual("\n".join(lines) + "\n", said, file.name)
            replayed += 1
        self.assertGreater(replayed, 3)

    @unittest.skipUnless("SPINDLE_TRACES" in os.environ, "SPINDLE_TRACES is not set: run tests/python/run")
    def test_a_record_is_what_the_search_answers(self):
        """The same search by itself: both sides of every record of a trace that replays the same."""
        trace = spindle.Trace(Path(os.environ["SPINDLE_TRACES"]) / "same.trace")
        self.assertGreater(len(trace), 0)
        for r in trace:
            for primal, direction, start, side in ((False, r.dz, r.z, r.dual), (True, r.ds, r.s, r.primal)):
                found = self.library.search(r.cone, primal, direction, start, r.settings)
                self.assertEqual((bits(found.step), found.count), (bits(side.step), side.count))


if __name__ == "__main__":
    unittest.main()
