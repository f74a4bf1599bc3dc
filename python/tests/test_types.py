"""Types: which values they take, how these are written, and what comes back."""
from __future__ import annotations

import datetime
import decimal
import enum
import unittest
import uuid
from typing import Any

import support  # noqa: F401, puts the package on the path
from hardieflax import (BigInt, Binary, Bool, Date, Decimal, Enumeration, Float, Integer, Json, Nullable, RowError, SmallInt, SqlType, Text,
                        Time,
                        Timestamp, TimestampTz, Uuid, ValueRefused)
from hardieflax.sql_types import DECLARED, OTHERS, bound, bound_list


class Mood(enum.Enum):
    OK = "ok"
    SAD = "so sad"


class Level(enum.IntEnum):
    LOW = 1


MOMENT = datetime.datetime(2024, 1, 2, 3, 4, 5, 600)
FITTING: Any = [
    (SmallInt, [-32768, 32767], [-32769, 32768, True, 1.0, "1"]),
    (Integer, [-2**31, 2**31 - 1], [-2**31 - 1, 2**31, False, None]),
    (BigInt, [-2**63, 2**63 - 1], [-2**63 - 1, 2**63, decimal.Decimal(1)]),
    (Text, ["", "é\0\n", "x" * 100], [1, b"x", "\ud800"]),
    (Binary, [b"", b"\x00\xff", bytearray(b"x")], ["x", 1]),
    (Bool, [True, False], [0, 1, "true"]),
    (Date, [datetime.date(2024, 1, 2)], [MOMENT, "2024-01-02", 5]),
    (Time, [datetime.time(3, 4)], ["03:04"]),
    (Timestamp, [MOMENT], [datetime.date(2024, 1, 2), MOMENT.replace(tzinfo=datetime.timezone.utc)]),
    (TimestampTz, [MOMENT.replace(tzinfo=datetime.timezone.utc)], [MOMENT]),
    (Decimal, [decimal.Decimal("1E+3"), decimal.Decimal("-0.10")], [1.5, 1]),
    (Float, [1.5, 1e300], ["1.5", True]),
    (Uuid, [uuid.UUID(int=7)], ["00000000-0000-0000-0000-000000000007"]),
    (Json, [{"a": [1, None, "é"]}, [], "x", 1.5], [{1, 2}, float("nan")]),
    (Enumeration(Mood), [Mood.SAD], ["ok", Level.LOW]),
    (Enumeration(Level, by_name=True), [Level.LOW], [Mood.OK]),
]


class Types(unittest.TestCase):
    def test_values_that_fit_come_back(self) -> None:
        for type, fit, _ in FITTING:
            for value in fit:
                with self.subTest(type=type, value=value):
                    wire = type.encoded(value)
                    decode = type.decoder("Sqlite")
                    text = bytes.fromhex(wire) if type is Binary else wire
                    self.assertEqual(decode(text), value)

    def test_values_that_do_not_fit_are_refused(self) -> None:
        for type, _, misfit in FITTING:
            for value in misfit:
                with self.subTest(type=type, value=value), self.assertRaises(ValueRefused):
                    type.encoded(value)

    def test_null(self) -> None:
        for type, fit, _ in FITTING:
            self.assertIsNone(Nullable(type).encoded(None))
            self.assertIs(Nullable(Nullable(type)).nullable, True)
            with self.assertRaises(ValueRefused):
                type.encoded(None)
            decode = Nullable(type).decoder("Sqlite")
            self.assertIsNone(decode(None) if decode else None)

    def test_what_a_document_calls_them(self) -> None:
        self.assertEqual([each.document_name for each in DECLARED], ["SmallInt", "Integer", "BigInt", "Text", "Binary", "Bool"])
        self.assertEqual({each.document_name for each in OTHERS}, {"Text"})
        self.assertEqual(Nullable(Date).document_name, "Text?")
        self.assertEqual(repr(Nullable(Date)), "Nullable(Date)")

    def test_what_is_not_of_the_type_is_no_row(self) -> None:
        wrong: Any = [(Integer, "x"), (Integer, None), (Text, 5), (Binary, 5), (Bool, 2), (Date, "yesterday"), (Uuid, "x"),
                      (Enumeration(Mood), "no")]
        for type, value in wrong:
            with self.subTest(type=type), self.assertRaises(RowError):
                type.decoder("Sqlite")(value)

    def test_lists(self) -> None:
        self.assertEqual(bound_list(Nullable(Integer), [1, None]).wire, (1, None))
        self.assertEqual(bound_list(Binary, [b"\1"]).python(), [b"\1"])
        self.assertEqual(bound(Nullable(Binary), None).python(), None)
        for wrong in ("text", b"bytes"):
            with self.assertRaises(ValueRefused):
                bound_list(Text, wrong)

    def test_an_enumeration_needs_texts(self) -> None:
        with self.assertRaises(TypeError):
            Enumeration(Level)

    def test_a_message_shows_no_long_value(self) -> None:
        with self.assertRaises(ValueRefused) as caught:
            Integer.encoded("secret" * 50)
        self.assertLess(len(str(caught.exception)), 120)


def _(kind: SqlType[Any]) -> None:
    """The type of a type is public."""


if __name__ == "__main__":
    unittest.main()
