"""The builder: each call in each state of a line. A call that raises leaves the builder as it was."""

import math
import unittest

from line_protocol import Builder, Unsigned

REFUSED = (TypeError, ValueError, OverflowError)

# For each call, what it is given here and the text that it adds to a line. The first field has a space before it.
CALLS = {
    "measurement": (("m",), "m"), "tag": (("k", "v"), ",k=v"), "field": (("f", 1), ",f=1i"), "timestamp": ((5,), " 5"),
    "close_line": ((), "\n"), "build": ((), ""),
}

# For each state, the calls that lead there; those that it allows; and those that end its line.
A_LINE = ["measurement", "field", "close_line"]
STATES = {
    "a new builder": ([], {"measurement", "build"}, []),
    "after a line": (A_LINE, {"measurement", "build"}, []),
    "after a measurement": (A_LINE + ["measurement"], {"tag", "field"}, ["field", "close_line"]),
    "after a tag": (A_LINE + ["measurement", "tag"], {"tag", "field"}, ["field", "close_line"]),
    "after a field": (A_LINE + ["measurement", "tag", "field"], {"field", "timestamp", "close_line"}, ["close_line"]),
    "after two fields": (A_LINE + ["measurement", "field", "field"], {"field", "timestamp", "close_line"}, ["close_line"]),
    "after a timestamp": (A_LINE + ["measurement", "field", "timestamp"], {"close_line"}, ["close_line"]),
}

# The state that each call leads to.
NEXT = {
    "measurement": "after a measurement", "tag": "after a tag", "field": "after a field", "timestamp": "after a timestamp",
    "close_line": "after a line", "build": "after a line"}

# What no state allows, whatever comes before it.
NEVER = [
    ("measurement", None), ("measurement", b"m"), ("measurement", 5), ("measurement", "\ud800"),
    ("tag", b"k", "v"), ("tag", "k", None), ("tag", "k", 5), ("tag", "\ud800", "v"), ("tag", "k", "\ud800"),
    ("field", None, 1), ("field", b"f", 1), ("field", "\ud800", 1), ("field", "f", "\ud800"), ("field", "f", None),
    ("field", "f", b"x"), ("field", "f", math.nan), ("field", "f", math.inf), ("field", "f", 2**63), ("field", "f", -(2**63) - 1),
    ("field", "f", Unsigned(2**64)), ("field", "f", Unsigned(-1)),
    ("timestamp", None), ("timestamp", True), ("timestamp", 1.9), ("timestamp", "5"), ("timestamp", 2**63),
    ("measurement", ""), ("measurement", "a\nb"), ("measurement", "a\\"), ("measurement", "#m"), ("measurement", "\0"),
    ("tag", "", "v"), ("tag", "a\n", "v"), ("tag", "k", ""), ("tag", "k", "a\tb"), ("tag", "k", "a\\"), ("field", "", 1),
    ("field", "a\nb", 1), ("field", "a\\", 1),
]


def call(builder, name):
    """Makes a call that is allowed."""
    return getattr(builder, name)(*CALLS[name][0])


def built(names):
    """What a builder gives that has had these calls, by the texts that they add."""
    text = ""
    for name in names:
        added = CALLS[name][1]
        has_field = " " in text.rpartition("\n")[2]
        text += " f=1i" if name == "field" and not has_field else added
    return text


class States(unittest.TestCase):
    def builder(self, state):
        """A builder in this state."""
        builder = Builder()
        for name in STATES[state][0]:
            call(builder, name)
        return builder

    def refuse(self, builder, name, *given):
        with self.assertRaises(REFUSED):
            getattr(builder, name)(*given)

    def ends(self, builder, made, state):
        """Ends the line, and compares what is built with these calls and those that end it."""
        names = made + STATES[state][2]
        for name in STATES[state][2]:
            call(builder, name)
        self.assertEqual(builder.build(), built(names))

    def each_call(self, state, refused):
        """Lets calls be refused that `refused` makes, and then makes each call of the table, and ends the line."""
        made, allowed, _ = STATES[state]
        for name in CALLS:
            builder = self.builder(state)
            refused(builder)
            if name in allowed:
                call(builder, name)
                self.ends(builder, made + [name], NEXT[name])
            else:
                with self.assertRaises(ValueError):
                    call(builder, name)
                self.ends(builder, made, state)

    def test_each_call_in_each_state(self):
        for state in STATES:
            with self.subTest(state=state):
                self.each_call(state, lambda builder: None)

    def test_a_refused_call_changes_nothing(self):
        for state in STATES:
            for name, *given in NEVER:
                with self.subTest(state=state, call=name, given=given):
                    self.each_call(state, lambda builder, name=name, given=given: self.refuse(builder, name, *given))

    def test_many_refused_calls_change_nothing(self):
        def refuse_all(builder):
            for name, *given in NEVER:
                self.refuse(builder, name, *given)

        for state in STATES:
            with self.subTest(state=state):
                self.each_call(state, refuse_all)

    def test_a_dropped_line_leaves_those_before_it(self):
        for state, (made, _, _) in STATES.items():
            with self.subTest(state=state):
                closed = built(A_LINE) if made else ""
                self.assertEqual(self.builder(state).drop_line().build(), closed)
                again = self.builder(state).drop_line().drop_line()
                for name in A_LINE:
                    call(again, name)
                self.assertEqual(again.build(), closed + built(A_LINE))


class Building(unittest.TestCase):
    def test_a_refused_field_costs_no_line(self):
        builder = Builder().measurement("a").field("x", 1).close_line().measurement("m").tag("k", "v")
        with self.assertRaisesRegex(ValueError, "'f': nan"):
            builder.field("f", math.nan)
        with self.assertRaisesRegex(ValueError, "'m' has no field"):
            builder.close_line()
        with self.assertRaisesRegex(ValueError, "drop_line"):
            builder.build()
        builder.tag("l", "w").field("f", 1.5).close_line()
        self.assertEqual(builder.build(), "a x=1i\nm,k=v,l=w f=1.5\n")
        self.assertEqual(builder.measurement("b").field("x", 2).close_line().build(), "a x=1i\nm,k=v,l=w f=1.5\nb x=2i\n")
