"""Lists beyond one machine: the pass over a Dask array of records, chunk by chunk, on whatever runs Dask's tasks. Each record's
answer and bits are those of the pass over the whole list at once, since a record is worked by itself.

    worked = pasoletu.chunks.pass_array(law, records)      # nothing is worked yet
    after, answers, counts = dask.compute(worked.records, worked.answers, worked.counts)

Needs Dask with numpy; on Debian: apt-get install -y python3-distributed. Each worker needs the shared library, found as always.
"""
from __future__ import annotations

from typing import Any, NamedTuple, Optional

try:
    import numpy
    from dask import delayed
    from dask.array import Array, concatenate, from_delayed
except ImportError as error:
    raise ImportError(
        "pasoletu.chunks needs Dask with numpy (%s); on Debian: apt-get install -y python3-distributed" % error
    ) from None

from ._table import ANSWERS, FLOATS
from .laws import CorotatedLinearElasticity, MaximumStressFailure, Plasticity
from .lists import judge, pass_records

COUNTS = 4


class PassedArray(NamedTuple):
    """What a pass will do, as Dask arrays; computed together, each chunk is worked once.

    records   the records after it, chunked as those given, which stay as they are
    answers   two whole numbers a particle, as in Passed.answers
    counts    how many are untouched, stored, refused, failed
    """

    records: Any
    answers: Any
    counts: Any


def pass_array(
    model: Plasticity,
    records: Any,
    limits: Optional[MaximumStressFailure] = None,
    elasticity: Optional[CorotatedLinearElasticity] = None,
    factored: bool = False,
) -> PassedArray:
    """Either pass over a Dask array of float64, a record a row, (n, 37), chunked between rows only. factored: as in pass_records."""
    judge("pass_array", limits, elasticity)
    _check(records)
    work = delayed(_worked, nout=3, pure=True)
    done = [work(block, model, limits, elasticity, factored) for block in records.to_delayed()[:, 0]]
    heights = records.chunks[0]
    return PassedArray(
        _joined([after for after, _, _ in done], heights, FLOATS, numpy.float64),
        _joined([answers for _, answers, _ in done], heights, ANSWERS, numpy.uint64),
        _joined([counts for _, _, counts in done], [1] * len(done), COUNTS, numpy.uint64).sum(axis=0),
    )


def _check(records: Any) -> None:
    if not isinstance(records, Array):
        raise TypeError("pass_array: records is a %s and must be a Dask array" % type(records).__name__)
    if records.dtype != numpy.float64:
        raise TypeError("pass_array: records holds %s, not float64: pass records.astype(numpy.float64)" % records.dtype)
    if records.ndim != 2 or records.shape[1] != FLOATS:
        turned = ": pass records.T" if records.ndim == 2 and records.shape[0] == FLOATS else ""
        raise ValueError(
            "pass_array: records has the shape %r and needs a record a row, (n, %d)%s" % (records.shape, FLOATS, turned)
        )
    if records.numblocks[1] != 1:
        raise ValueError("pass_array: records is chunked within its rows: pass records.rechunk({1: %d})" % FLOATS)


def _worked(block: Any, model: Plasticity, limits: Any, elasticity: Any, factored: bool) -> tuple[Any, Any, Any]:
    """One chunk. A block may be others' too, so the pass works on a copy."""
    after = numpy.array(block, dtype=numpy.float64, order="C")
    passed = pass_records(model, after, limits, elasticity, factored)
    counts = [[passed.untouched, passed.stored, passed.refused, passed.failed]]
    return after, passed.answers, numpy.array(counts, dtype=numpy.uint64)


def _joined(blocks: list[Any], heights: Any, width: int, dtype: Any) -> Any:
    """Delayed blocks below each other."""
    arrays = [from_delayed(block, (height, width), dtype) for block, height in zip(blocks, heights)]
    return concatenate(arrays, axis=0)
