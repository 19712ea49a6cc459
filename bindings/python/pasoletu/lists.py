"""The passes, our own factors and the sheet (docs/RULES.md, section 7)."""
from __future__ import annotations

import ctypes
import functools
import os
from typing import Any, Iterable, NamedTuple, Optional, Union

from ._arguments import Law, doubles, first_not_finite
from ._arrays import Array, flat, table
from ._library import ask, words
from ._records import Records, copied, lent, widened
from ._table import (
    ANSWERS,
    FLOATS,
    HEADER,
    HEADER_COUNT,
    HEADER_MODEL,
    HEADER_PARAMETERS,
    LAW_OF,
    MODELS,
    SHEET_BYTES,
    SHEET_MOST,
    WHOLE,
)
from .laws import PLASTICITIES, CorotatedLinearElasticity, MaximumStressFailure, Plasticity
from .outcome import Passed, as_float
from .particle import PLACES, Particle
from .refusal import NOT_FINITE, Refused


class Judge(NamedTuple):
    """What a pass with failure judges by."""

    limits: MaximumStressFailure
    elasticity: CorotatedLinearElasticity


def judge(
    told: str, limits: Optional[MaximumStressFailure], elasticity: Optional[CorotatedLinearElasticity]
) -> Optional[Judge]:
    """Both, or None where neither is given."""
    if limits is None and elasticity is None:
        return None
    for given, name, other in ((limits, "limits", "elasticity"), (elasticity, "elasticity", "limits")):
        if given is None:
            raise TypeError("%s: %s is given and %s is not: the pass with failure needs both, the pass none" % (told, other, name))
    _of_type(told, "limits", limits, MaximumStressFailure)
    _of_type(told, "elasticity", elasticity, CorotatedLinearElasticity)
    return Judge(limits, elasticity)  # type: ignore[arg-type]


def _of_type(told: str, name: str, given: Any, wanted: type) -> None:
    if not isinstance(given, wanted):
        raise TypeError("%s: %s is a %s and must be a %s" % (told, name, type(given).__name__, wanted.__name__))


class Pass(NamedTuple):
    """A pass over records: who called it, the law, where the records stand, what it judges by, and whether it factors first."""

    told: str
    model: Plasticity
    records: Any
    judge: Optional[Judge]
    factored: bool = False

    def run(self, room: ctypes.Array[ctypes.c_double]) -> Passed:
        """The pass over the records' own room."""
        _of_type(self.told, "model", self.model, Plasticity)
        laws = [_list(law) for law in (self.model, *(self.judge or ()))]
        answers, counts = words(len(room) // FLOATS * ANSWERS), words(4 if self.judge else 3)
        call = "pass" + ("_factored" if self.factored else "") + ("_with_failure" if self.judge else "")
        status = ask(call, self.model.model, *laws, room, answers, counts)
        if status:
            raise Refused(status, self.told)
        return Passed(answers, list(counts), self.refusal)

    def refusal(self, k: int, number: int) -> Refused:
        """The refusal of record k."""
        return Refused(number, self.told, k, self._place(k) if number == NOT_FINITE else None)

    def _place(self, k: int) -> Optional[str]:
        """Where the first float is that is not finite: what is judged by, the law, the record as it stands now."""
        for whose, law in zip(("the limits' ", "the elasticity's "), self.judge or ()):
            place = first_not_finite(law.parameters(), (whose + name for name in law.names()))
            if place:
                return place
        with flat(self.records, "d") as floats:
            return self.model.first_not_finite(floats[FLOATS * k:FLOATS * (k + 1)].tolist())


def _list(law: Law) -> ctypes.Array[ctypes.c_double]:
    return doubles(type(law).__name__, "parameters", law.parameters())


def _room(told: str, held: list[Particle]) -> ctypes.Array[ctypes.c_double]:
    """The particles' records."""
    for k, particle in enumerate(held):
        _of_type(told, "particles[%d]" % k, particle, Particle)
    return doubles(told, "particles", (x for particle in held for x in particle.floats()))


def _taken(held: list[Particle], room: ctypes.Array[ctypes.c_double], passed: Passed) -> Passed:
    """The particles that were not refused take their records."""
    for k, (particle, outcome) in enumerate(zip(held, passed.outcomes)):
        if not isinstance(outcome, Refused):
            particle._take(room[FLOATS * k:FLOATS * (k + 1)])
    return passed


def _pass_particles(
    told: str, model: Plasticity, particles: Iterable[Particle], by: Optional[Judge], factored: bool
) -> Passed:
    held = list(particles)
    room = _room(told, held)
    return _taken(held, room, Pass(told, model, room, by, factored).run(room))


def pass_particles(model: Plasticity, particles: Iterable[Particle], factored: bool = False) -> Passed:
    """The plastic law on every particle, in place. The pass goes on after a refused one.

    factored: on the particles with the library's own factors, as Particle.factor works them; u, singular_values and v_t may be any finite
    floats. An untouched particle has the new factors; a refused one keeps every bit, the factors that it had too."""
    return _pass_particles("pass_particles", model, particles, None, factored)


def pass_with_failure(
    model: Plasticity,
    limits: MaximumStressFailure,
    elasticity: CorotatedLinearElasticity,
    particles: Iterable[Particle],
    factored: bool = False,
) -> Passed:
    """The pass with failure, in place: applies the law to each particle, judges the stress of what it leaves by the phase as it came,
    and sets the phase to 0.0 on a yes. A refused law is not judged; a refused stress leaves the particle as it came. factored: as in
    pass_particles."""
    _of_type("pass_with_failure", "limits", limits, MaximumStressFailure)
    return _pass_particles("pass_with_failure", model, particles, judge("pass_with_failure", limits, elasticity), factored)


def pass_records(
    model: Plasticity,
    records: Records,
    limits: Optional[MaximumStressFailure] = None,
    elasticity: Optional[CorotatedLinearElasticity] = None,
    factored: bool = False,
) -> Passed:
    """Either pass over records that stand in one buffer, in place and without a copy. With failure where limits and elasticity are
    given: both or none. factored: as in pass_particles, so that records may hold F and its determinant with any finite factors.

    records: a numpy array of float64, a record a row, (n, 37), row after row in memory; or all records in one dimension, as in an
    array('d'). TypeError for what holds no writable doubles, ValueError for another shape or order, refused by 8 for one dimension
    without whole records.

    A refused record keeps its bits, and its outcome names the first float that is not finite: as the record stands when the outcome
    is asked for."""
    by = judge("pass_records", limits, elasticity)
    return Pass("pass_records", model, records, by, factored).run(lent("pass_records", records))


def _factored(told: str, records: Any, room: ctypes.Array[ctypes.c_double]) -> Passed:
    """The factors of the records in a room, their own or a copy."""
    answers, counts = words(len(room) // FLOATS * ANSWERS), words(3)
    status = ask("factor_list", room, answers, counts)
    if status:
        raise Refused(status, told)

    def refusal(k: int, number: int) -> Refused:
        if number != NOT_FINITE:
            return Refused(number, told, k)
        with flat(records, "d") as floats:
            return Refused(number, told, k, first_not_finite(floats[FLOATS * k:FLOATS * (k + 1)], PLACES))

    return Passed(answers, list(counts), refusal)


def factor_particles(particles: Iterable[Particle]) -> Passed:
    """Particle.factor on every particle, in place. One whose factors are accepted is stored, with the amount 0.0; a refused one keeps
    every bit."""
    held = list(particles)
    room = _room("factor_particles", held)
    return _taken(held, room, _factored("factor_particles", room, room))


def factor_records(records: Records) -> Passed:
    """factor_particles over records that stand in one buffer, in place. records: as pass_records takes them."""
    return _factored("factor_records", records, lent("factor_records", records))


def fill_determinants(records: Records) -> None:
    """Makes the last float of each record the determinant of the F that stands in it, in place; the others keep their bits. For
    records whose F was written. It refuses no float: a determinant that is not finite goes in as worked, and the law refuses that
    record by 1. records: as pass_records takes them."""
    status = ask("fill_determinants", lent("fill_determinants", records))
    if status:
        raise Refused(status, "fill_determinants")


def completed(records: Records) -> Array:
    """Records of 36 floats as records of 37, each with its determinant, in an array of their own: numpy's where numpy is installed,
    else a memoryview. For what was kept before the determinant was. records: a record a row, (n, 36), or all in one dimension."""
    room = widened("completed", records)
    fill_determinants(room)
    return table(room, FLOATS, "d")


class Sheet:
    """A sheet that was read.

    model         the law
    determinants  whether its bytes keep each particle's determinant (by the model's number); where they don't, it was filled in
    records       its records, a record a row: numpy's array where numpy is installed, else a memoryview
    particles     copies of them as objects, made when they are first asked for

    bytes(sheet) is the sheet of the law and the records as they stand now: of one that was only read, the same bytes.
    """

    def __init__(self, model: Plasticity, room: ctypes.Array[ctypes.c_double], determinants: bool = False) -> None:
        self.model, self._room, self.determinants = model, room, determinants

    def __len__(self) -> int:
        return len(self._room) // FLOATS

    @property
    def records(self) -> Array:
        """Its records, a record a row, where they stand: what is written there is the sheet's."""
        return table(self._room, FLOATS, "d")

    @functools.cached_property
    def particles(self) -> list[Particle]:
        """Copies of its records as objects, made at the first asking."""
        return [Particle.from_floats(self._room[FLOATS * k:FLOATS * (k + 1)]) for k in range(len(self))]

    def __bytes__(self) -> bytes:
        return _written("bytes", self.model, self._room, self.determinants)

    def write(self, file: Union[str, "os.PathLike[str]"]) -> None:
        """Writes bytes(sheet) to the file of this name; what is refused writes no file."""
        data = _written("Sheet.write", self.model, self._room, self.determinants)
        with open(file, "wb") as out:
            out.write(data)


class Ran(Sheet):
    """A sheet that was read and passed: its records and particles are as the pass left them. `passed` says what it did."""

    def __init__(
        self, model: Plasticity, room: ctypes.Array[ctypes.c_double], passed: Passed, determinants: bool = False
    ) -> None:
        super().__init__(model, room, determinants)
        self.passed = passed


def law(model: int, parameters: Iterable[float]) -> Plasticity:
    """The plastic law of a model's number and its parameters in order; a flag is 1.0 or not."""
    if model not in MODELS:
        raise ValueError("law: model is %r and must be one of %s" % (model, ", ".join(map(str, MODELS))))
    held, names, flags = list(parameters), MODELS[model].parameters, MODELS[model].flags
    if len(held) != len(names):
        raise ValueError("law: parameters has %d entries and must have %d: %s" % (len(held), len(names), ", ".join(names)))
    return PLASTICITIES[model](*(x == 1.0 if name in flags else x for name, x in zip(names, held)))


def read_sheet(data: bytes) -> Sheet:
    """Reads a sheet's bytes. Floats pass as bits: a NaN is read here and refused by the law. Refused by 4, 5, 6 and 7."""
    return _read("read_sheet", data)


def _read(told: str, data: bytes) -> Sheet:
    header, room = words(HEADER), (ctypes.c_double * (SHEET_MOST * FLOATS))()
    status = ask("read_sheet", _bytes(told, data), header, room)
    if status:
        raise Refused(status, told)
    number, count = header[HEADER_MODEL], header[HEADER_COUNT]
    model, kept = LAW_OF[number]
    parameters = header[HEADER_PARAMETERS:HEADER_PARAMETERS + len(MODELS[model].parameters)]
    return Sheet(law(model, map(as_float, parameters)), (ctypes.c_double * (count * FLOATS)).from_buffer(room), kept)


def _bytes(told: str, data: bytes) -> ctypes.Array[ctypes.c_uint8]:
    try:
        held = memoryview(data).tobytes()
    except TypeError:
        raise TypeError("%s: data is a %s and must be the sheet's bytes" % (told, type(data).__name__)) from None
    return (ctypes.c_uint8 * len(held)).from_buffer_copy(held)


def run(data: bytes) -> Ran:
    """Reads a sheet's bytes and passes its particles. A refused sheet raises Refused (4, 5, 6 or 7); a refused particle is
    told in its outcome."""
    sheet = _read("run", data)
    room, answers, counts = sheet._room, words(len(sheet) * ANSWERS), words(4)
    status = ask("run_sheet", _bytes("run", data), room, answers, counts)
    if status:
        raise Refused(status, "run")
    passed = Passed(answers, counts[1:], Pass("run", sheet.model, room, None).refusal)
    return Ran(sheet.model, room, passed, sheet.determinants)


def write_sheet(model: Plasticity, particles: Union[Iterable[Particle], Records], determinants: bool = False) -> bytes:
    """The bytes of a sheet: a law and its particles, or their records as pass_records takes them. Floats pass as bits: a NaN is
    written here and refused by the law. The determinants are left out, and a reader fills them in; with determinants=True they are
    written as they stand, 37 floats a particle. read_sheet gives back every bit that was written. Refused by 7 for over 200 particles,
    by 8 for records of one dimension that are not whole."""
    _of_type("write_sheet", "model", model, Plasticity)
    given: Any = particles
    try:
        memoryview(given)
    except TypeError:
        return _written("write_sheet", model, _room("write_sheet", list(given)), determinants)
    return _written("write_sheet", model, copied("write_sheet", given), determinants)


def _written(told: str, model: Plasticity, records: ctypes.Array[ctypes.c_double], determinants: bool) -> bytes:
    room, written = (ctypes.c_uint8 * SHEET_BYTES)(), words(1)
    number = WHOLE[model.model] if determinants else model.model
    status = ask("write_sheet", number, _list(model), records, room, written)
    if status:
        raise Refused(status, told)
    return bytes(memoryview(room)[:written[0]])
