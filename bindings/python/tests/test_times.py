"""A `datetime` where a time is taken, and a `dict` where pairs are: what is written is what the nanoseconds and the pairs would give."""

import unittest
from collections import OrderedDict
from datetime import datetime, timedelta, timezone
from types import MappingProxyType

from line_protocol import (
    Builder, Column, Limits, Line, Table, base, broken_clauses, columns, is_admitted, is_portable, key, parse, show, write, write_columns,
    write_many)

try:
    import zoneinfo
    zoneinfo.ZoneInfo("Europe/Berlin")
except (ImportError, KeyError):  # before Python 3.9, or without its zones
    zoneinfo = None

from shared import copies_of, pandas

UTC = timezone.utc
NEW_YEAR = 1767225600 * 10**9
TIMES = [
    (datetime(2026, 1, 1, tzinfo=UTC), NEW_YEAR), (datetime(2026, 1, 1), NEW_YEAR),
    (datetime(2026, 1, 1, 2, tzinfo=timezone(timedelta(hours=2))), NEW_YEAR),
    (datetime(2025, 12, 31, 18, 14, 59, 999999, tzinfo=timezone(timedelta(hours=-5, minutes=-45, microseconds=-1))), NEW_YEAR),
    (datetime(1970, 1, 1), 0), (datetime(1969, 12, 31, 23, 59, 59, 999999), -1000), (datetime(1970, 1, 1, microsecond=1, tzinfo=UTC), 1000),
    (datetime(2026, 1, 1, microsecond=123457), NEW_YEAR + 123457000), (datetime(1677, 9, 21, 0, 12, 43, 145225), -(2**63) + 808),
    (datetime(2262, 4, 11, 23, 47, 16, 854775), 2**63 - 1 - 807), (datetime(2000, 2, 29, 12, tzinfo=UTC), 951825600 * 10**9)]
"""Times, and how many nanoseconds they are after 1970 began in UTC."""

TOO_FAR = [
    datetime.min, datetime.max, datetime.min.replace(tzinfo=timezone(timedelta(hours=23))),
    datetime.max.replace(tzinfo=timezone(timedelta(hours=-23))), datetime(2262, 4, 11, 23, 47, 16, 854776),
    datetime(1677, 9, 21, 0, 12, 43, 145224)]


def assigned(time):
    """A line that was made before it had this time."""
    line = Line("m", [], [("f", 1)])
    line.timestamp = time
    return line


def built(time):
    return Builder().measurement("m").field("f", 1).timestamp(time).close_line().build()


class Duck:
    """What has the members of a line."""

    def __init__(self, tags, fields, timestamp=None):
        self.measurement, self.tags, self.fields, self.timestamp = "m", tags, fields, timestamp


class Times(unittest.TestCase):
    WRITERS = {
        "a line": lambda time: write(Line("m", [], [("f", 1)], time)), "an assigned time": lambda time: write(assigned(time)),
        "many": lambda time: write_many([Line("m", fields=[("f", 1)], timestamp=time)]), "a duck": lambda time: write(Duck([], [("f", 1)], time)),
        "a builder": built, "a column": lambda time: write_columns({"m": Table(Column([time]), fields={"f": Column([1])})}),
        "a tuple": lambda time: write_columns({"m": Table(Column((time,)), fields={"f": Column([1])})}),
        "shown": lambda time: show(assigned(time)) + "\n"}

    def test_each_writer_writes_nanoseconds(self):
        for time, number in [*TIMES, (type("Count", (int,), {})(-1), -1)]:
            for name, call in self.WRITERS.items():
                with self.subTest(time=time, writer=name):
                    self.assertEqual(call(time), f"m f=1i {number}\n")

    def test_a_time_out_of_its_range(self):
        for time in TOO_FAR:
            for name, call in self.WRITERS.items():
                with self.subTest(time=time, writer=name), self.assertRaisesRegex(OverflowError, "the timestamp: -?[0-9]+ is not at least"):
                    call(time)

    def test_a_line_has_nanoseconds(self):
        for time, number in TIMES:
            line = Line("m", {}, {"f": 1}, time)
            self.assertEqual((type(line.timestamp), line.timestamp), (int, number))
            self.assertEqual([line], list(parse(write(line))))
            for again in copies_of(line):
                self.assertEqual(again, line)

    def test_a_zone_without_an_offset_is_none(self):
        class Nowhere(timezone.__base__):
            def utcoffset(self, time):
                return None

        self.assertEqual(Line("m", timestamp=datetime(2026, 1, 1, tzinfo=Nowhere())).timestamp, NEW_YEAR)

    @unittest.skipIf(zoneinfo is None, "Python has no zones")
    def test_each_side_of_a_clock_that_is_put_back(self):
        """02:30 comes twice in Berlin on this day, and `fold` says which."""
        berlin = zoneinfo.ZoneInfo("Europe/Berlin")
        for fold, hour in ((0, 0), (1, 1)):
            time = datetime(2026, 10, 25, 2, 30, tzinfo=berlin, fold=fold)
            self.assertEqual(Line("m", timestamp=time).timestamp, Line("m", timestamp=datetime(2026, 10, 25, hour, 30)).timestamp)

    def test_limits(self):
        limits = Limits(earliest=datetime(2026, 1, 1), latest=datetime(2026, 1, 2, tzinfo=UTC))
        for time, broken in ((NEW_YEAR - 1, True), (NEW_YEAR, False), (NEW_YEAR + 86400 * 10**9, False), (NEW_YEAR + 86400 * 10**9 + 1, True)):
            self.assertEqual(is_portable(f"m f=1 {time}", limits=limits), not broken)
            self.assertEqual(broken_clauses(f"m f=1 {time}", limits=limits), ("time_not_kept",) if broken else ())
        for words, error in (({"earliest": datetime.max}, OverflowError), ({"latest": "2026"}, TypeError), ({"earliest": True}, TypeError)):
            [name] = words
            with self.subTest(words=words), self.assertRaisesRegex(error, f"{name} of Limits"):
                is_portable("m f=1 5", limits=Limits(**words))


@unittest.skipIf(pandas is None, "there is no pandas")
class TimesOfPandas(unittest.TestCase):
    def test_a_timestamp_keeps_its_nanoseconds(self):
        for time in (pandas.Timestamp("2026-01-01T00:00:00.123456789"), pandas.Timestamp("2026-01-01T00:00:00.000000001", tz="Asia/Tokyo"),
                     pandas.Timestamp.min, pandas.Timestamp.max):
            for name, call in Times.WRITERS.items():
                with self.subTest(time=time, writer=name):
                    self.assertEqual(call(time), f"m f=1i {time.value}\n")

    def test_no_time(self):
        for call in (lambda: Line("m", timestamp=pandas.NaT), lambda: write(assigned(pandas.NaT)), lambda: built(pandas.NaT)):
            with self.assertRaisesRegex(ValueError, "NaT is no time"):
                call()
        times = [pandas.Timestamp(5), pandas.NaT, None]
        for values in (times, pandas.Series(times, dtype="object").to_numpy()):
            table = Table(Column(values), fields={"f": Column([1, 2, 3])})
            self.assertEqual(write_columns({"m": table}), "m f=1i 5\nm f=2i\nm f=3i\n")

    def test_a_column_of_objects(self):
        from line_protocol import from_frame
        frame = pandas.DataFrame({"f": [1, 2, 3], "at": pandas.Series([datetime(2026, 1, 1), TIMES[2][0], None], dtype="object")})
        self.assertEqual(from_frame(frame, "m", time="at"), f"m f=1i {NEW_YEAR}\nm f=2i {NEW_YEAR}\nm f=3i\n")


class Dicts(unittest.TestCase):
    PAIRS = [("z", "1"), ("a", "b c")]

    def test_a_dict_is_its_pairs(self):
        for kind in (dict, OrderedDict, lambda pairs: MappingProxyType(dict(pairs))):
            line = Line("m", kind(self.PAIRS), kind([("f", 1), ("g", 0.5)]), 5)
            self.assertEqual(line, Line("m", self.PAIRS, [("f", 1), ("g", 0.5)], 5))
            self.assertEqual(write(line), "m,z=1,a=b\\ c f=1i,g=0.5 5\n")
            self.assertEqual(list(parse(write(line))), [line])

    def test_a_dict_that_a_line_got_later(self):
        line = Line("m")
        line.tags, line.fields = dict(self.PAIRS), {"f": 1}
        for given in (line, Duck(dict(self.PAIRS), OrderedDict(f=1))):
            self.assertEqual((write(given), write_many([given])), ("m,z=1,a=b\\ c f=1i\n",) * 2)
            self.assertEqual((base(given), key(given)), ("m,a=b c,z=1", "m,a=b\\ c,z=1"))
            self.assertTrue(is_admitted(given))

    def test_what_is_refused_of_a_dict(self):
        for tags, fields, error, why in (
                ({5: "v"}, {"f": 1}, TypeError, "the key of a tag is a str, not int: 5"),
                ({"k": 5}, {"f": 1}, TypeError, "the value of the tag 'k' is a str, not int: 5"),
                ({}, {"f": None}, TypeError, "the field 'f': a value is"), ({}, {}, ValueError, "has no field"),
                ({"k": "a\nb"}, {"f": 1}, ValueError, "the value of the tag 'k' is not admitted")):
            for line in (Line("m", tags, fields), Duck(tags, fields)):
                with self.subTest(line=line), self.assertRaisesRegex(error, why):
                    write(line)

    def test_a_dict_that_is_changed_later(self):
        tags = {"k": "v"}
        line = Line("m", tags, {"f": 1})
        tags["k"] = "w"
        self.assertEqual(write(line), "m,k=v f=1i\n")

    def test_lines_do_not_share_their_lists(self):
        one, two = Line("m"), Line("m", (), ())
        one.tags.append(("k", "v"))
        one.fields.append(("f", 1))
        self.assertEqual((two, two.tags, two.fields), (Line("m"), [], []))

    def test_what_columns_gave_is_written_again(self):
        text = write_many([Line("m", {"k": "v"}, {"f": number}, datetime(2026, 1, 1 + number)) for number in range(3)])
        self.assertEqual(write_columns(columns(text, use_numpy=False)), text)
