"""What became of particles: outcomes one by one, and the answers of a pass as arrays."""
from __future__ import annotations

import ctypes
import math
import struct
from collections.abc import Sequence
from dataclasses import dataclass
from typing import Callable, Iterator, Union, overload

from ._arrays import Array, chosen, column, table
from ._table import ANSWERS, REFUSED, STORED
from .refusal import Refused


@dataclass(frozen=True)
class Untouched:
    """Inside the yield surface: nothing changed."""

    def __str__(self) -> str:
        return "untouched"


@dataclass(frozen=True)
class Stored:
    """Updated. The amount is the law's own: `MODELS` names it (docs/RULES.md, section 5)."""

    amount: float

    def __str__(self) -> str:
        return "stored %r" % self.amount


Outcome = Union[Untouched, Stored, Refused]
_UNTOUCHED = Untouched()


def as_float(bits: int) -> float:
    """The float of these bits."""
    return float(struct.unpack("<d", struct.pack("<Q", bits))[0])


def worked(code: int, beside: int) -> Union[Untouched, Stored]:
    """The outcome of two answers that are no refusal."""
    return Stored(as_float(beside)) if code == STORED else _UNTOUCHED


class Outcomes(Sequence):  # type: ignore[type-arg]
    """The outcomes of a pass as a sequence: each object is made when it is asked for. A slice is a list.

    Equal to any sequence of equal outcomes."""

    __slots__ = ("_answers", "_refusal")

    def __init__(self, answers: ctypes.Array[ctypes.c_uint64], refusal: Callable[[int, int], Refused]) -> None:
        self._answers, self._refusal = answers, refusal

    def __len__(self) -> int:
        return len(self._answers) // ANSWERS

    @overload
    def __getitem__(self, k: int) -> Outcome: ...

    @overload
    def __getitem__(self, k: slice) -> list[Outcome]: ...

    def __getitem__(self, k: Union[int, slice]) -> Union[Outcome, list[Outcome]]:
        places = range(len(self))[k]
        return [self._outcome(place) for place in places] if isinstance(places, range) else self._outcome(places)

    def __iter__(self) -> Iterator[Outcome]:
        return map(self._outcome, range(len(self)))

    def _outcome(self, k: int) -> Outcome:
        code, beside = self._answers[ANSWERS * k], self._answers[ANSWERS * k + 1]
        return self._refusal(k, beside) if code == REFUSED else worked(code, beside)

    def __eq__(self, other: object) -> bool:
        return isinstance(other, Sequence) and list(self) == list(other)

    __hash__ = None  # type: ignore[assignment]

    def __repr__(self) -> str:
        return repr(list(self))


class Passed:
    """What a pass did: numpy arrays where numpy is installed, else memoryviews and array.array.

    answers    two whole numbers a particle, as the library wrote them: 0 untouched, 1 stored, 2 refused; and what stands beside
    codes      the first of them, particle by particle
    amounts    what was stored, NaN where nothing was
    refusals   the refusals' numbers, 0 where none
    outcomes   the same as objects, each made when it is asked for: Untouched, Stored or Refused (not raised)
    untouched, stored, refused   how many of each. A refused particle keeps every bit; the others were still worked
    failed     how many of the particles not refused have failed in this pass; 0 in a pass without failure
    """

    __slots__ = ("_answers", "outcomes", "untouched", "stored", "refused", "failed")

    def __init__(
        self,
        answers: ctypes.Array[ctypes.c_uint64],
        counts: Sequence[int],
        refusal: Callable[[int, int], Refused],
    ) -> None:
        self._answers, self.outcomes = answers, Outcomes(answers, refusal)
        self.untouched, self.stored, self.refused = counts[:3]
        self.failed = counts[3] if len(counts) > 3 else 0

    def __len__(self) -> int:
        return len(self.outcomes)

    @property
    def answers(self) -> Array:
        """Two whole numbers a particle, as the library wrote them."""
        return table(self._answers, ANSWERS, "Q")

    @property
    def codes(self) -> Array:
        """0 untouched, 1 stored, 2 refused, particle by particle."""
        return column(self._answers, ANSWERS, 0, "Q")

    @property
    def amounts(self) -> Array:
        """What was stored, NaN where nothing was."""
        return self._beside(STORED, math.nan, "d")

    @property
    def refusals(self) -> Array:
        """The refusals' numbers, 0 where none."""
        return self._beside(REFUSED, 0, "Q")

    def _beside(self, code: int, otherwise: float, typecode: str) -> Array:
        return chosen(self.codes, code, column(self._answers, ANSWERS, 1, typecode), otherwise, typecode)

    def __repr__(self) -> str:
        counts = self.untouched, self.stored, self.refused, self.failed
        return "Passed(untouched=%d, stored=%d, refused=%d, failed=%d)" % counts
