"""Pasoletu: how snow and debris yield, break and push, particle by particle, by proved laws.

    import pasoletu

    particle = pasoletu.Particle.stretched([0.9, 1.0, 1.0])
    print(pasoletu.SnowPlasticity().update_particle(particle))

Matrices are three rows of three. A refused call raises Refused and changes nothing; a pass tells a refused particle in its
outcome and works the others. Records that stand in one numpy array are worked there by pass_records, and answered in arrays;
pasoletu.chunks works a Dask array of them.

The shared library is opened at the first call: the file that PASOLETU_LIB names; else that of the PREFIX which the package is
installed in; else the system's libpasoletu.so.1. NoLibrary says how to get it where there is none.
"""
from . import elementary, laws, raw, refusal, utils
from ._find import NoLibrary
from ._mode import float_mode
from ._table import FLOATS, MODELS, SHEET_MOST
from ._table import VERSION as __version__
from .arrival import Arrival
from .laws import *
from .lists import (
    Ran,
    Sheet,
    completed,
    factor_particles,
    factor_records,
    fill_determinants,
    law,
    pass_particles,
    pass_records,
    pass_with_failure,
    read_sheet,
    run,
    write_sheet,
)
from .outcome import Outcomes, Passed, Stored, Untouched
from .particle import Particle
from .refusal import REFUSALS, Refused
from .reasons import Clamped, Stopped, Tested
from .reports import Column, Report, report
from .slices import FlatParticle, flat_pass
from .zones import Tally, Zones

__all__ = [
    "Arrival",
    "Clamped",
    "Column",
    "FLOATS",
    "FlatParticle",
    "MODELS",
    "NoLibrary",
    "Outcomes",
    "Particle",
    "Passed",
    "REFUSALS",
    "Ran",
    "Refused",
    "Report",
    "SHEET_MOST",
    "Sheet",
    "Stopped",
    "Stored",
    "Tally",
    "Tested",
    "Untouched",
    "Zones",
    "__version__",
    "completed",
    "elementary",
    "factor_particles",
    "factor_records",
    "fill_determinants",
    "flat_pass",
    "float_mode",
    "law",
    "pass_particles",
    "pass_records",
    "pass_with_failure",
    "raw",
    "read_sheet",
    "refusal",
    "report",
    "run",
    "utils",
    "write_sheet",
]
__all__ += laws.__all__
