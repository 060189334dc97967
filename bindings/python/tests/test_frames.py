"""Frames of pandas have what `parse` gives, and are written as the lines they came from."""

import copy
import math
import pickle
import sys
import unittest
from typing import get_args
from unittest import mock

from line_protocol import (
    Column, Dialect, FloatText, Frames, Line, NotAdmitted, Table, Unsigned, columns, from_frame, is_admitted, parse, to_frame,
    write_columns, write_many)

from shared import corpora, numpy, pandas

TEXT = (
    'cpu,host=a,rack=r1 i=-5i,u=7u,f=0.5,b=t,s="x y",v=1i 1700000000000000000\n'
    'cpu,host=b i=7i,u=18446744073709551615u,f=1.5,b=f,s="z",v=2.5 1700000010000000000\n')
SPARSE = (
    'm,t=a i=-5i 5\nm,v=b u=18446744073709551615u\nm f=0.5 7\nm b=t 8\nm,t=c s="x" 9\n'
    'm i=9223372036854775807i,u=0u,f=1,b=f,s="y" 10')


def types_of(frame):
    return list(map(str, frame.dtypes))


@unittest.skipIf(pandas is None, "there is no pandas")
class ToFrame(unittest.TestCase):
    def test_each_kind(self):
        frames = to_frame(TEXT)
        self.assertEqual((type(frames), list(frames), frames.faults), (Frames, ["cpu"], []))
        frame = frames["cpu"]
        self.assertEqual(list(frame.columns), ["host", "rack", "i", "u", "f", "b", "s", "v"])
        self.assertEqual(types_of(frame)[:6], ["category", "category", "int64", "uint64", "float64", "bool"])
        self.assertEqual(frame["host"].tolist(), ["a", "b"])
        self.assertEqual([frame["rack"].iloc[0], bool(frame["rack"].isna().iloc[1])], ["r1", True])
        self.assertEqual((frame["u"].tolist(), frame["s"].tolist()), ([7, 2**64 - 1], ["x y", "z"]))
        self.assertEqual((frame["v"].dtype, list(map(type, frame["v"]))), (object, [int, float]))
        self.assertEqual((frame.index.name, str(frame.index.dtype)), ("time", "datetime64[ns]"))
        self.assertEqual(list(frame.index), [pandas.Timestamp("2023-11-14 22:13:20"), pandas.Timestamp("2023-11-14 22:13:30")])

    def test_what_is_missing(self):
        frame = to_frame(SPARSE)["m"]
        self.assertEqual(types_of(frame)[:6], ["category", "category", "Int64", "UInt64", "float64", "boolean"])
        self.assertEqual(frame.isna().sum().tolist(), [4, 5, 4, 4, 4, 4, 4])
        self.assertEqual(frame["i"].dropna().tolist(), [-5, 2**63 - 1])
        self.assertEqual(frame["u"].dropna().tolist(), [2**64 - 1, 0])
        self.assertEqual((frame["f"].sum(), frame["b"].dropna().tolist()), (1.5, [True, False]))
        self.assertEqual(list(frame.index.isna()), [False, True, False, False, False, False])

    def test_times(self):
        frame = to_frame("m f=1i\nm f=2i")["m"]
        self.assertEqual((type(frame.index), list(frame.index)), (pandas.RangeIndex, [0, 1]))
        frame = to_frame(f"m f=1i {2**63 - 1}\nm f=2i -{2**63 - 1}")["m"]
        self.assertEqual(frame.index.asi8.tolist(), [2**63 - 1, -(2**63) + 1])
        with self.assertRaisesRegex(OverflowError, "'m', row 1: the timestamp -9223372036854775808 is no time of pandas"):
            to_frame(f"m f=1i 5\nm f=2i -{2**63}\nm f=3i")

    def test_faults_and_sources(self):
        frames = to_frame(iter([b"m f=1i 5\nwrong\n", b"n f=2i,g=much_too_long_a_name\nm f", b"=3i 6"]), max_line=20)
        self.assertEqual([fault.line for fault in frames.faults], [2, 3])
        self.assertEqual((list(frames), frames["m"]["f"].tolist()), (["m"], [1, 3]))
        self.assertEqual((to_frame(""), to_frame("").faults), ({}, []))
        for wrong, named, raised, why in [
                (b"\xff", {}, UnicodeDecodeError, "utf-8"), (5, {}, TypeError, "a source is a str"),
                (["m f=1i"], {}, TypeError, "a source is"),
                ("", {"max_line": "5"}, TypeError, "max_line is an int or None"), ("", {"max_line": -1}, ValueError, "max_line is -1"),
                (iter([b"m f=1i\n", 5]), {}, TypeError, "a part of a source is")]:
            with self.subTest(wrong=wrong), self.assertRaisesRegex(raised, why):
                to_frame(wrong, **named)

    def test_a_tag_and_a_field_of_one_name(self):
        frame = to_frame("m,a=x,time=y a=1i,time=2i 5")["m"]
        self.assertEqual((list(frame.columns), types_of(frame)), (["a", "time"] * 2, ["category"] * 2 + ["int64"] * 2))
        self.assertEqual(from_frame(frame, "m"), "m,a=x,time=y a=1i,time=2i 5\n")

    def test_a_frame_can_be_changed(self):
        frame = to_frame(SPARSE)["m"]
        frame.loc[frame.index[0], "i"] = 6
        frame["new"] = 1
        frame = frame.sort_index()
        self.assertEqual(frame["i"].dropna().tolist(), [6, 2**63 - 1])


@unittest.skipIf(pandas is None, "there is no pandas")
class FromFrame(unittest.TestCase):
    def test_what_came_from_lines(self):
        for text in [TEXT, SPARSE, "m f=1i\nm g=2i"] + [
                b"".join(corpora.corpus(name, "frames", 30_000)).decode() for name in corpora.NAMES]:
            lines = [line for line in parse(text) if isinstance(line, Line) and is_admitted(line)]
            text = write_many(line for line in lines if not any(isinstance(value, FloatText) for _, value in line.fields))
            with self.subTest(text=text[:50]):
                again = "".join(from_frame(frame, measurement) for measurement, frame in to_frame(text).items())
                self.assertEqual(again, write_columns(columns(text)))

    def test_each_type(self):
        kinds = {
            "i": (numpy.array([1, -2], "int8"), "1i", "-2i"), "u": (numpy.array([1, 2], "uint16"), "1u", "2u"),
            "f": (numpy.array([0.5, math.nan], "float32"), "0.5", None), "b": ([True, False], "true", "false"),
            "s": (["x", None], '"x"', None),
            "I": (pandas.array([1, None], "Int32"), "1i", None), "U": (pandas.array([2**64 - 1, None], "UInt64"), f"{2**64 - 1}u", None),
            "F": (pandas.array([0.5, None], "Float64"), "0.5", None), "B": (pandas.array([True, None], "boolean"), "true", None),
            "S": (pandas.array(["x", None], "string"), '"x"', None), "o": (numpy.array([Unsigned(1), True], "object"), "1u", "true"),
            "n": ([pandas.NA, pandas.NaT], None, None), "c": (pandas.Categorical(["x", None]), '"x"', None),
            "p": (pandas.arrays.SparseArray([0, 5]), "0i", "5i"),
        }
        frame = pandas.DataFrame({key: values for key, (values, _, _) in kinds.items()})
        wanted = [",".join(f"{key}={row[at]}" for key, row in kinds.items() if row[at] is not None) for at in (1, 2)]
        self.assertEqual(from_frame(frame, "m", tags=[]).splitlines(), [f"m {fields}" for fields in wanted])

    def test_which_columns(self):
        frame = pandas.DataFrame({"host": ["a", "b"], "rack": pandas.Categorical(["r", None]), "f": [1, 2], "g": [0.5, math.nan]})
        self.assertEqual(from_frame(frame, "m", tags=["rack"]), 'm,rack=r host="a",f=1i,g=0.5\nm host="b",f=2i\n')
        self.assertEqual(from_frame(frame[["rack", "f", "g"]], "m"), "m,rack=r f=1i,g=0.5\nm f=2i\n")
        self.assertEqual(from_frame(frame, "m", fields=["host", "f"]), 'm,rack=r host="a",f=1i\nm host="b",f=2i\n')
        self.assertEqual(from_frame(frame, "m", tags=["host"]), 'm,host=a rack="r",f=1i,g=0.5\nm,host=b f=2i\n')
        self.assertEqual(from_frame(frame, "m", tags=("host", "rack"), fields=["g"]), "m,host=a,rack=r g=0.5\n")
        self.assertEqual(from_frame(frame, "m", tags=[], fields=["f"], time="f"), "m f=1i 1\nm f=2i 2\n")
        self.assertEqual(from_frame(frame[:0], "m", tags=["host"]), "")
        numbers = pandas.DataFrame({"rack": pandas.array([5, None], "Int64"), "f": [1, 2]}).astype({"rack": "string"})
        self.assertEqual(from_frame(numbers, "m", tags=["rack"]), "m,rack=5 f=1i\nm f=2i\n")

    def test_times(self):
        hours = ["2023-11-14 22:13:20", "NaT"]
        naive = pandas.DatetimeIndex(hours)
        for times in (naive, naive.tz_localize("UTC"), naive.tz_localize("UTC").tz_convert("Asia/Tokyo"), naive.astype("datetime64[ns]")):
            for frame, named in [
                (pandas.DataFrame({"f": [1, 2]}, index=times), {}), (pandas.DataFrame({"f": [1, 2], "at": times}), {"time": "at"}),
                (pandas.DataFrame({"f": [1, 2], "at": times}, index=naive), {"time": "at"}),
            ]:
                self.assertEqual(from_frame(frame, "m", **named), "m f=1i 1700000000000000000\nm f=2i\n")
        for times in ([5, 6], numpy.array([5, 6], "int32"), pandas.array([5, 6], "Int64"), numpy.array([5, 6], "uint64"), ["5", "6"]):
            frame = pandas.DataFrame({"f": [1, 2], "at": times})
            if isinstance(times, list) and times[0] == "5":
                with self.assertRaisesRegex(TypeError, "a timestamp is an int or a datetime, not str: '5'"):
                    from_frame(frame, "m", time="at")
            else:
                self.assertEqual(from_frame(frame, "m", time="at"), "m f=1i 5\nm f=2i 6\n")
        frame = pandas.DataFrame({"f": [1, 2, 3]})
        for numbered in (frame, frame[frame["f"] != 2], frame.set_axis([7, 7, 9])):
            self.assertTrue(from_frame(numbered, "m").startswith("m f=1i\nm f="))

    def refuse(self, raised, why, frame, *given, **named):
        with self.subTest(why=why), self.assertRaisesRegex(raised, why):
            from_frame(frame, *given, **named)

    def test_what_is_refused(self):
        frame = pandas.DataFrame({"t": ["a", "b"], "f": [1, 2]})
        self.refuse(TypeError, "a frame is a DataFrame of pandas, not NoneType: None", None, "m")
        self.refuse(TypeError, "a frame is a DataFrame of pandas, not Series", frame["f"], "m")
        for wrong in (None, 5, b"m", ["m"]):
            self.refuse(TypeError, "the measurement is a str, not", frame, wrong)
        self.refuse(UnicodeEncodeError, "surrogates", frame, "\ud800")
        for name in ("tags", "fields"):
            for wrong in ("t", 5, {"t"}, {"t": 1}, frame.columns):
                self.refuse(TypeError, f"{name} are a list of names of columns, not", frame, "m", **{name: wrong})
            self.refuse(KeyError, f"{name}: the frame has no column 'x'", frame, "m", **{name: ["t", "x"]})
        self.refuse(KeyError, "time: the frame has no column 'x'", frame, "m", time="x")
        self.refuse(KeyError, "time: the frame has no column 5", frame, "m", time=5)
        twice = pandas.concat([frame, frame], axis=1)
        self.refuse(ValueError, "tags: the frame has two columns 't'", twice, "m", tags=["t"])
        self.refuse(ValueError, "two tags, or two fields, of the frame have one name", twice, "m", tags=[])
        self.refuse(ValueError, "two tags, or two fields, of the frame have one name", frame, "m", tags=["t", "t"])
        self.refuse(ValueError, "the table 'm' has no field", frame, "m", fields=[])
        self.refuse(ValueError, "the table 'm' has no field", frame[["t"]], "m", tags=["t"])
        self.refuse(TypeError, "the value of the tag 'f' is a str, not int", frame, "m", tags=["f"])
        self.refuse(TypeError, "the key of a field is a str, not int: 0", pandas.DataFrame([[1]]), "m")
        for index in (["x", "y"], pandas.Index([5, 6], name="time"), pandas.PeriodIndex(["2023", "2024"], freq="Y"), [0.5, 1.5],
                      pandas.MultiIndex.from_tuples([(1, 2), (3, 4)])):
            self.refuse(TypeError, "the index has no times, and numbers no rows", frame.set_axis(index), "m", tags=["t"])

    def test_cells_that_are_refused(self):
        for cells, raised, why in [
            ([0.5, math.inf], ValueError, "the table 'm', row 1: the field 'f': inf has no literal"),
            ([1, b"x"], TypeError, "row 1: the field 'f': a value is .* not bytes: b'x'"),
            (pandas.DatetimeIndex(["2023", "2024"]), TypeError, "row 0: the field 'f': a value is .* not Timestamp"),
            (pandas.TimedeltaIndex([1, 2]), TypeError, "row 0: the field 'f': a value is .* not Timedelta"),
            ([1j, 2j], TypeError, "row 0: the field 'f': a value is .* not complex"), ([2**64, 1], OverflowError, "row 0: the field 'f'"),
        ]:
            self.refuse(raised, why, pandas.DataFrame({"f": cells}), "m", tags=[])
        numbers = pandas.DataFrame({"f": [1, 2], "t": pandas.Categorical([5, 6])})
        self.refuse(TypeError, "row 0: the value of the tag 't' is a str, not int: 5", numbers, "m")
        wrong = pandas.DataFrame({"f": [1]}, index=pandas.DatetimeIndex(["2023"]))
        wrong.index = wrong.index.astype("datetime64[ns]")
        self.assertEqual(from_frame(wrong, "m"), "m f=1i 1672531200000000000\n")


FIRST = 'cpu,host=a x=1.5,s="p" 1\ncpu,host=b x=2.5,s="q" 2\n'
SECOND = 'cpu,host=c x=3.5,s="r" 3\n'


@unittest.skipIf(pandas is None, "there is no pandas")
class Series(unittest.TestCase):
    """Tags stay tags, whatever pandas makes of a frame, or the call raises."""

    def setUp(self):
        self.first, self.second = (to_frame(text)["cpu"] for text in (FIRST, SECOND))
        self.both = pandas.concat([self.first, self.second])

    def refuse(self, frame, name, tags, **named):
        """Sees that a column may be a tag or a field, and that these are the other tags."""
        with self.assertRaises(ValueError) as found:
            from_frame(frame, "cpu", **named)
        self.assertEqual(
            str(found.exception),
            f"the column {name!r} may be a tag or a field: tags={[name, *tags]} makes it a tag, tags={tags} a field")

    def test_what_a_frame_says_of_its_columns(self):
        self.assertEqual(self.first.attrs, {"line_protocol.tags": ["host"], "line_protocol.object_fields": ["s"]})
        frame = to_frame('m,a=x,b=y b=1i,c=t,d=0.5,e="s",f=7u\nm e="t",f=1i')["m"]
        self.assertEqual(frame.attrs, {"line_protocol.tags": ["a", "b"], "line_protocol.object_fields": ["e", "f"]})
        self.assertEqual(to_frame("m f=1i")["m"].attrs, {"line_protocol.tags": [], "line_protocol.object_fields": []})

    def test_what_is_made_of_a_frame(self):
        a, b = FIRST.splitlines(keepends=True)
        first = self.first
        for made, wanted in [
            (first.copy(), FIRST), (copy.copy(first), FIRST), (copy.deepcopy(first), FIRST), (pickle.loads(pickle.dumps(first)), FIRST),
            (self.both, FIRST + SECOND), (pandas.concat([first, first[:1]]), FIRST + a), (self.both[self.both["x"] < 2], a),
            (first[first["x"] > 2], b), (first.query("x > 2"), b), (first.iloc[[1, 0]], b + a), (first.loc[:, ["s", "host", "x"]],
            'cpu,host=a s="p",x=1.5 1\ncpu,host=b s="q",x=2.5 2\n'), (first[["host", "x"]], "cpu,host=a x=1.5 1\ncpu,host=b x=2.5 2\n"),
            (first.astype({"host": "object"}), FIRST), (first.astype({"host": "string", "s": "string"}), FIRST),
            (first.assign(x=first["x"] + 1), FIRST.replace("2.5", "3.5").replace("1.5", "2.5")), (self.both.assign(y=True)[2:],
            'cpu,host=c x=3.5,s="r",y=true 3\n'),
            (self.both.assign(host=self.both["host"].str.upper())[:1], a.replace("host=a", "host=A")),
            (first.rename(columns={"host": "node"}), FIRST.replace("host", "node")),
            (self.both.sort_values("x", ascending=False)[1:], b + a),
        ]:
            with self.subTest(types=types_of(made), wanted=wanted):
                self.assertEqual(from_frame(made, "cpu"), wanted)

    def test_groups(self):
        """Of groups the series is written, or the call raises."""
        for of_hosts in (self.first.groupby("host"), self.both.groupby("host")):
            for host, frame in of_hosts:
                self.assertEqual(from_frame(frame, "cpu", tags=["host"]), next(
                    line for line in (FIRST + SECOND).splitlines(keepends=True) if f"host={host}" in line))
            means = of_hosts[["x"]].mean()
            with self.assertRaisesRegex(TypeError, "the index has no times, and numbers no rows: .* named 'host'"):
                from_frame(means, "cpu")
            wanted = "".join(f"cpu,host={host} x={x}\n" for host, x in means["x"].items())
            self.assertEqual(from_frame(means.reset_index(), "cpu", tags=["host"]), wanted)
            try:
                self.assertEqual(from_frame(means.reset_index(), "cpu"), wanted)
            except ValueError as raised:
                self.assertIn("the column 'host' may be a tag or a field: tags=['host'] makes it a tag", str(raised))

    def test_what_pandas_forgets(self):
        """Frames of which pandas keeps neither the categories nor what to_frame said."""
        racks = pandas.DataFrame({"host": ["a", "b"], "rack": ["r1", "r2"]})
        merged = self.both.merge(racks, on="host")
        self.refuse(merged, "host", [])
        wanted = 'cpu,host=a,rack=r1 x=1.5,s="p"\ncpu,host=b,rack=r2 x=2.5,s="q"\n'
        self.assertEqual(from_frame(merged, "cpu", tags=["host", "rack"]), wanted)
        other = to_frame("cpu,host=d,rack=r x=4.5 4\n")["cpu"]
        mixed = pandas.concat([self.first, other])
        self.refuse(mixed, "host", ["rack"] if types_of(mixed)[3] == "category" else [])
        self.assertEqual(from_frame(mixed, "cpu", tags=["host", "rack"]), FIRST + "cpu,host=d,rack=r x=4.5 4\n")
        forgotten = pandas.DataFrame(self.both.to_dict("list"))
        self.refuse(forgotten, "host", [])
        self.refuse(forgotten[["x", "s"]], "s", [])
        self.refuse(forgotten[["x", "s"]][:0], "s", [])
        self.refuse(forgotten.astype({"host": "string"}), "host", [])
        self.refuse(forgotten.astype({"host": "category"}), "s", ["host"])
        self.assertEqual(from_frame(forgotten[["x"]], "cpu"), "cpu x=1.5\ncpu x=2.5\ncpu x=3.5\n")
        self.refuse(forgotten, "host", [], time="x")
        self.assertEqual(from_frame(forgotten, "cpu", fields=["x"]), "cpu x=1.5\ncpu x=2.5\ncpu x=3.5\n")

    def test_a_column_that_is_gone(self):
        self.assertEqual(from_frame(self.both.drop(columns="host")[:1], "cpu"), 'cpu x=1.5,s="p" 1\n')
        self.assertEqual(from_frame(self.both.drop(columns=["host", "s"])[:1], "cpu"), "cpu x=1.5 1\n")
        self.refuse(self.both.rename(columns={"host": "node"}), "node", [])
        self.refuse(self.first.rename(columns={"s": "note"}), "note", ["host"])

    def test_a_column_that_is_new(self):
        for note in ("x", ["x", None], pandas.Series(["x", "y"], self.first.index, "string")):
            self.refuse(self.first.assign(note=note), "note", ["host"])
        noted = self.first.assign(note="x")[:1]
        self.assertEqual(from_frame(noted, "cpu", tags=["host", "note"]), 'cpu,host=a,note=x x=1.5,s="p" 1\n')
        self.assertEqual(from_frame(noted, "cpu", tags=["host"]), 'cpu,host=a x=1.5,s="p",note="x" 1\n')
        self.assertEqual(from_frame(noted, "cpu", fields=["x", "note"]), 'cpu,host=a x=1.5,note="x" 1\n')
        named = self.first.assign(node=pandas.Categorical(["n1", "n2"]), y=[1, 2])
        self.assertEqual(from_frame(named[1:], "cpu"), 'cpu,host=b,node=n2 x=2.5,s="q",y=2i 2\n')

    def test_what_the_caller_says_comes_first(self):
        self.assertEqual(from_frame(self.both[:1], "cpu", tags=[]), 'cpu host="a",x=1.5,s="p" 1\n')
        self.assertEqual(from_frame(self.both[:1], "cpu", tags=["s"]), 'cpu,s=p host="a",x=1.5 1\n')
        frame = pandas.DataFrame({"host": ["a"], "f": [1]})
        frame.attrs["line_protocol.tags"] = ("host", "nothing")
        self.assertEqual(from_frame(frame, "m"), "m,host=a f=1i\n")
        for key in ("line_protocol.tags", "line_protocol.object_fields"):
            for wrong in ("host", 5, None, {"host"}):
                frame.attrs = {key: wrong}
                with self.subTest(key=key, wrong=wrong), self.assertRaisesRegex(TypeError, f"'{key}'. are a list of names of columns, not"):
                    from_frame(frame, "m")

    def test_a_tag_and_a_field_of_one_name(self):
        frame = to_frame('m,a=x a="y",b=1i 5\n')["m"]
        self.assertEqual(from_frame(frame, "m"), 'm,a=x a="y",b=1i 5\n')
        both = pandas.concat([frame, to_frame('m,a=z a="y",b=1i 6\n')["m"]])
        with self.assertRaisesRegex(ValueError, "two tags, or two fields, of the frame have one name"):
            from_frame(both, "m")

    def test_columns_of_parts(self):
        """Columns that were read in parts keep tags apart; a frame that is made of them does not say which they are."""
        tables = [columns(text).tables["cpu"] for text in (FIRST, SECOND)]
        self.assertEqual("".join(write_columns({"cpu": table}) for table in tables), FIRST + SECOND)
        made = pandas.concat([
            pandas.DataFrame({key: column.values for key, column in {**table.tags, **table.fields}.items()}) for table in tables])
        self.refuse(made, "host", [])
        self.assertEqual(from_frame(made, "cpu", tags=list(tables[0].tags), fields=["x"])[:17], "cpu,host=a x=1.5\n")

    def test_an_empty_tag_is_left_out(self):
        hosts = ["", None, "x", "y"]
        wanted = "m f=1i\nm f=2i\nm,host=x f=3i\nm,host=y f=4i\n"
        for cells in (hosts, pandas.array(hosts, "string"), pandas.Categorical(hosts), pandas.Categorical(hosts, ["y", "", "x"])):
            frame = pandas.DataFrame({"host": cells, "f": [1, 2, 3, 4]})
            self.assertEqual(from_frame(frame, "m", tags=["host"]), wanted)
            self.assertEqual(from_frame(frame, "m", tags=[])[:10], 'm host="",')
        with self.assertRaisesRegex(TypeError, "row 1: the value of the tag 'host' is a str, not list"):
            from_frame(pandas.DataFrame({"host": ["", ["x"]], "f": [1, 2]}), "m", tags=["host"])

    def test_names_that_are_not_admitted(self):
        for cells, flaw in [
                (["a", "guest\npayments"], "holds a newline"), (["", "a\tb"], "holds a tab"), ([None, "a\\"], "ends in a backslash")]:
            for dtype in ("object", "category", "string"):
                frame = pandas.DataFrame({"user": pandas.Series(cells, dtype=dtype), "ok": [True, True]})
                for dialect in get_args(Dialect):
                    with self.assertRaises(NotAdmitted) as found:
                        from_frame(frame, "login", tags=["user"], dialect=dialect)
                    refused = found.exception
                    self.assertEqual(str(refused), (
                        f"the table 'login', row 1: the value of the tag 'user' is not admitted: {cells[1]!r} {flaw}"))
                    self.assertEqual((refused.part, refused.key, refused.value, refused.row, refused.table),
                                     ("tag value", "user", cells[1], 1, "login"))
        frame = pandas.DataFrame({"f": [1], "a\n": [2]})
        for measurement, named, part in [("#m", {}, "measurement"), ("", {}, "measurement"), ("m", {}, "field key")]:
            with self.assertRaises(NotAdmitted) as found:
                from_frame(frame, measurement, **named)
            self.assertEqual((found.exception.part, found.exception.row), (part, 0))
        self.assertEqual(from_frame(frame, "m", fields=["f"]), "m f=1i\n")


class WithoutPandas(unittest.TestCase):
    def test_it_is_asked_for_by_its_calls_alone(self):
        with mock.patch.dict(sys.modules, pandas=None):
            for call in (lambda: to_frame("m f=1i"), lambda: from_frame(None, "m")):
                with self.assertRaisesRegex(ImportError, "frames are those of pandas, which cannot be imported: "):
                    call()
            self.assertEqual(write_columns({"m": Table(Column([5]), {}, {"f": Column([1])})}), "m f=1i 5\n")
