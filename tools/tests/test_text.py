"""Coordinates, fields and messages: exact both ways."""
import math

import pytest
from hypothesis import given
from hypothesis import strategies as st

from bgt_geo import forms, millimetres, text
from conftest import TOP

XS = st.integers(*millimetres.BOUNDS[0])
YS = st.integers(*millimetres.BOUNDS[1])


@given(XS | YS)
def test_a_millimetre_survives_text_and_double(number):
    assert millimetres.of_text(millimetres.text_of(number)) == number
    assert millimetres.of_double(millimetres.metres(number)) == number
    assert float(millimetres.text_of(number)) == millimetres.metres(number)


@given(XS | YS, st.integers(-3, 3).filter(bool))
def test_a_double_beside_a_millimetre_is_none(number, steps):
    value = millimetres.metres(number)
    for _ in range(abs(steps)):
        value = math.nextafter(value, math.inf * steps)
    assert millimetres.of_double(value) is None or value == 0 or abs(number) < 4


@pytest.mark.parametrize("value", [math.nan, math.inf, -math.inf, 155000.0005, 0.1 + 0.2 + 1e-9])
def test_no_millimetre(value):
    assert millimetres.of_double(value) is None


@pytest.mark.parametrize(("field", "value"), [
    ("155000", 155_000_000), ("155000.5", 155_000_500), ("000155000.05", 155_000_050), ("-0", 0), ("-0.001", -1), ("0.999", 999),
])
def test_coordinates(field, value):
    assert millimetres.of_text(field) == value


@pytest.mark.parametrize("field", ["", "155000,5", "1.", ".5", "1.0005", "1e5", "+1", "١", "1234567890", "155000.5 "])
def test_no_coordinates(field):
    with pytest.raises(ValueError):
        millimetres.of_text(field)


@pytest.mark.parametrize(("day", "is_day"), [
    ("2024-02-29", True), ("2023-02-29", False), ("1900-02-29", False), ("2000-02-29", True), ("0000-02-29", True), ("2024-13-01", False),
    ("2024-04-31", False), ("2024-4-01", False), ("2024-01-01 ", False),
])
def test_days(day, is_day):
    assert forms.is_day(day) is is_day


@pytest.mark.parametrize(("moment", "printed"), [
    ("2024-01-01T00:00:01", "2024-01-01T00:00:01"), ("2024-01-01T00:00:01.5", "2024-01-01T00:00:01.500"),
    ("2024-01-01T00:00:01.000", "2024-01-01T00:00:01"), ("2024-01-01T00:00:01.04", "2024-01-01T00:00:01.040"),
])
def test_moments(moment, printed):
    assert forms.is_moment(moment)
    assert forms.printed_moment(moment) == printed


@pytest.mark.parametrize(("moment", "before"), [
    ("2024-01-01T00:00:00", "2023-12-31T23:59:59.999"), ("2024-01-01T00:00:00.001", "2024-01-01T00:00:00"),
    ("2024-03-01T00:00:00.500", "2024-03-01T00:00:00.499"),
])
def test_the_moment_before(moment, before):
    assert forms.just_before(moment) == before


@pytest.mark.parametrize("name", ["street", "neighbourhood", "two-holders", "first-map", "gap"])
def test_messages_come_back(name):
    stream = (TOP / "examples" / f"{name}.txt").read_bytes()
    texts, tail = text.cut(stream)
    assert tail == b""
    for first, lines in texts:
        message = text.read_message(lines, first)
        again = text.print_message(message)
        without_lines = text.read_message(again.split("\n")[:-1])
        assert text.print_message(without_lines) == again
        assert again.count("\n") == len(lines)


def test_lines_are_those_of_the_file():
    stream = (TOP / "examples" / "street.txt").read_bytes()
    lines = stream.decode().split("\n")
    for first, of_text in text.cut(stream)[0]:
        for it in text.read_message(of_text, first).mutations:
            assert lines[it.line - 1].startswith(f"{it.word} {it.ident}")
            for ring in it.item.shape if it.item else ():
                assert lines[ring.line - 1].startswith(("RING", "GAT"))


def test_a_tail_is_what_follows_the_last_message():
    assert text.cut(b"BERICHT x\nEINDE\nrest\nmore")[1] == b"rest\nmore"
    assert text.cut(b"EINDE\r\n") == ([], b"EINDE\r\n")
