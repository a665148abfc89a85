"""Saved positions, and the states there."""
import pathlib
from decimal import Decimal
from fractions import Fraction

import pytest

import cosim
from texts import COOLER, DIVIDES, HALVES


def test_save(counter: cosim.Model) -> None:
    saved = counter.save(2)
    assert (saved.row, saved.ticks, saved.index, saved.words, saved.time) == (2, 2, 0, {"a": (2,)}, 2)
    assert saved.text.startswith(b"saved 1\nrow 2\nat 2 0\nstate a 2\ncosim 1\n")
    assert saved.model.run().to_csv() == counter.run().to_csv()
    assert cosim.Model.from_text(HALVES).save(1).time == Fraction(1, 2)


def test_resume_completes_the_trace(heater: cosim.Model) -> None:
    whole = heater.run().to_csv().splitlines(True)
    resumed = heater.resume(heater.save(12))
    assert resumed.to_csv() == b"".join(whole[13:])
    assert resumed.names == heater.run().names
    assert len(resumed) == len(whole) - 13
    assert resumed.time[0] == 720


def test_resume_by_another_model(counter: cosim.Model) -> None:
    saved = counter.save(2)
    assert counter.set_stop(5).resume(saved)["a.y"] == [2, 3, 4, 5]
    model = cosim.Model.from_text(COOLER)
    faster = model.set("cooler.rate", "0.50")
    assert [str(value) for value in faster.resume(model.save(2))["cooler.degrees_now"]] == ["0.50", "0.00"]
    with pytest.raises(cosim.Refused) as caught:
        model.resume(saved)
    assert caught.value.rule == 33


def test_resume_from_a_file(counter: cosim.Model, tmp_path: pathlib.Path) -> None:
    path = tmp_path / "counter.saved"
    path.write_bytes(counter.save(2).text.replace(b"state a 2", b"state a 40"))
    saved = cosim.Saved.read(path)
    assert saved.words == {"a": (40,)}
    assert counter.resume(saved)["a.y"] == [40, 41]
    assert counter.resume(path.read_bytes())["a.y"] == [40, 41]


def test_no_position(counter: cosim.Model) -> None:
    with pytest.raises(cosim.Refused) as caught:
        cosim.Saved.from_text("saved 1\nrow 02\nat 2 0\nstate a 2\n" + counter.text.decode())
    assert (caught.value.line, caught.value.rule) == (2, 32)


def test_files_without_an_end() -> None:
    with pytest.raises(cosim.Refused):
        cosim.Saved.read("/dev/zero")


def test_a_saved_text_that_is_too_long(counter: cosim.Model) -> None:
    with pytest.raises(cosim.Refused) as caught:
        cosim.Saved.from_text(counter.save(2).text + 2 * 1024 * 1024 * b"#")
    assert caught.value.rule == 2
    with pytest.raises(cosim.Refused) as caught:
        cosim.Saved.from_text(b"saved 1\nrow " + 5000 * b"1" + b"\nat 2 0\nstate a 2\n" + counter.text)
    assert caught.value.rule == 32


def test_state_at() -> None:
    model = cosim.Model.from_text(COOLER)
    assert model.state_at(0) == {"cooler": {"degrees": Decimal("1.00")}}
    assert model.state_at(3) == {"cooler": {"degrees": Decimal("0.25")}}
    with pytest.raises(cosim.UnknownName, match="there is no row 4"):
        model.state_at(4)


def test_states_that_no_output_shows(heater: cosim.Model) -> None:
    assert heater.state_at(0) == {
        "plate": {"temperature": Decimal("18.20")},
        "thermostat": {"heating": False},
        "heater": {},
        "battery": {"charge": Decimal("50.0000")},
    }
    assert heater.state_at(1)["thermostat"]["heating"] is True


def test_the_position_of_a_fault_has_no_row() -> None:
    model = cosim.Model.from_text(DIVIDES)
    assert model.state_at(2) == {"a": {"n": 0}}
    assert model.resume(model.save(2)).outcome.fault == 3


@pytest.mark.parametrize("row", [-1, 100_000])
def test_rows_out_of_range(counter: cosim.Model, row: int) -> None:
    with pytest.raises(cosim.UnfitValue, match="--row 0..99999"):
        counter.save(row)
