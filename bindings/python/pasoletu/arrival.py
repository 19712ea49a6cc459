"""Sheets that come in parts, over a slow line (docs/RULES.md, section 7)."""
from __future__ import annotations

import ctypes
from typing import Optional

from ._library import ask, words
from ._table import (
    ANSWERS,
    FLOATS,
    LAW_OF,
    MODELS,
    PARTS_COMPLETE,
    PARTS_COUNT,
    PARTS_PROGRESS,
    PARTS_STATE,
    PARTS_STATE_MODEL,
    PARTS_STATE_PARAMETERS,
    PARTS_STATE_WANTS,
    SHEET_MOST,
)
from .laws import Plasticity
from .lists import Pass, Ran, _bytes, law
from .outcome import Passed, as_float
from .refusal import Refused


class Arrival:
    """A sheet whose bytes come in parts, cut anywhere: each particle is passed by the sheet's law when its last byte comes.

    feed(data)    the next bytes, of no length too: how many particles are complete. A fault of the sheet raises Refused (5, 6 or 7),
                  and every later call raises it again; the particles complete before it stand
    finish()      the sheet has ended: what run(data) gives of the whole. 4 where something is missing, told only here; 15 after a
                  finish that gave a sheet, for feed and finish
    complete      how many particles are complete
    count         how many the sheet says it has, None before that is known
    model         the law, None before it is known
    ran           the complete particles as a Ran, None before the law is known
    write, close  feed and finish under a file's names, so that shutil.copyfileobj(line, arrival) works; a second close does nothing
    """

    def __init__(self) -> None:
        self._state, self._progress = words(PARTS_STATE), words(PARTS_PROGRESS)
        self._room = (ctypes.c_double * (SHEET_MOST * FLOATS))()
        self._answers = words(SHEET_MOST * ANSWERS)
        self.closed = False
        self._told("Arrival", ask("begin_parts", self._state))

    def _told(self, told: str, status: int) -> None:
        if status:
            raise Refused(status, told)

    def feed(self, data: bytes) -> int:
        """The next bytes, of no length too: how many particles are complete."""
        return self._feed("Arrival.feed", data)

    def _feed(self, told: str, data: bytes) -> int:
        self._told(told, ask("part", _bytes(told, data), self._state, self._room, self._answers, self._progress))
        return self.complete

    def finish(self) -> Ran:
        """The sheet has ended: what `run` gives of the whole."""
        self._finish("Arrival.finish")
        ran = self.ran
        assert ran is not None
        return ran

    def _finish(self, told: str) -> None:
        self._told(told, ask("end_parts", self._room, self._answers, self._state, self._progress))

    def write(self, data: bytes) -> int:
        """`feed` under a file's name: how many bytes were taken, which is all."""
        self._feed("Arrival.write", data)
        return len(data)

    def close(self) -> None:
        """`finish` under a file's name; a second one does nothing."""
        if not self.closed:
            self.closed = True
            self._finish("Arrival.close")

    @property
    def complete(self) -> int:
        """How many particles are complete."""
        return self._progress[PARTS_COMPLETE]

    @property
    def _known(self) -> bool:
        return self._state[PARTS_STATE_WANTS] == 0

    @property
    def count(self) -> Optional[int]:
        """How many particles the sheet says it has, None before that is known."""
        return self._progress[PARTS_COUNT] if self._known else None

    @property
    def model(self) -> Optional[Plasticity]:
        """The law, None before it is known."""
        if not self._known:
            return None
        number, _ = LAW_OF[self._state[PARTS_STATE_MODEL]]
        bits = self._state[PARTS_STATE_PARAMETERS:PARTS_STATE_PARAMETERS + len(MODELS[number].parameters)]
        return law(number, map(as_float, bits))

    @property
    def ran(self) -> Optional[Ran]:
        """The complete particles, None before the law is known."""
        model, k = self.model, self.complete
        if model is None:
            return None
        room = (ctypes.c_double * (k * FLOATS)).from_buffer(self._room)
        answers = (ctypes.c_uint64 * (k * ANSWERS)).from_buffer(self._answers)
        codes = answers[::ANSWERS]
        counts = [codes.count(code) for code in range(3)]
        passed = Passed(answers, counts, Pass("Arrival", model, room, None).refusal)
        return Ran(model, room, passed, LAW_OF[self._state[PARTS_STATE_MODEL]][1])
