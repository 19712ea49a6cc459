"""Made by tools/table from calls.toml and VERSION: edit those, not this file."""
import ctypes
from typing import NamedTuple, Optional


class Refusal(NamedTuple):
    """A refusal's name, what it means and what to do about it."""

    name: str
    what: str
    remedy: str


class Model(NamedTuple):
    """A plastic law: its name, the amount that stands beside `stored`, its parameters in order, which of them are flags, and
    the defaults of those that have one."""

    name: str
    title: str
    amount: str
    parameters: tuple[str, ...]
    flags: tuple[str, ...]
    defaults: dict[str, float]


class Part(NamedTuple):
    """A part of the record: its first place and its shape, () for one float."""

    field: str
    at: int
    shape: tuple[int, ...]


class Argument(NamedTuple):
    """An argument of a call. kind: f64, u8, u32 or u64. length: None for no list, 0 for a list whose length is not always the
    same. written: a list that the call may write."""

    name: str
    kind: str
    length: Optional[int]
    written: bool

    @property
    def argtypes(self) -> tuple[type, ...]:
        """As ctypes has it: a list is a pointer and a length."""
        return (KINDS[self.kind],) if self.length is None else (ctypes.c_void_p, ctypes.c_size_t)


KINDS = {"f64": ctypes.c_double, "u8": ctypes.c_uint8, "u32": ctypes.c_uint32, "u64": ctypes.c_uint64}


VERSION = "1.0.0"

# The refusals' numbers.
NOT_FINITE = 1
BELOW_RANGE = 2
NO_NUMBER = 3
ENDS_EARLY = 4
NOT_SHORTEST = 5
UNKNOWN = 6
TOO_MANY = 7
LENGTH = 8
NO_ROOM = 9
ABOVE_RANGE = 10
WRONG_DETERMINANT = 11
BAD_ZONE = 12
TALLY_FULL = 13
NOT_ACCEPTED = 14
AFTER_END = 15
TOO_LONG = 16
REFUSALS: dict[int, Refusal] = {
    1: Refusal(
        "NOT_FINITE",
        "an input is NaN or infinite",
        "find who wrote that value",
    ),
    2: Refusal(
        "BELOW_RANGE",
        "a function would get an argument below its range (crushed; of Snow: torn)",
        "look at the singular values and the hardenings",
    ),
    3: Refusal(
        "NO_NUMBER",
        "a NaN arose, or a modulus or a result is not finite",
        "look at the sizes of the parameters and inputs",
    ),
    4: Refusal(
        "ENDS_EARLY",
        "the sheet ends early",
        "send the sheet again, whole",
    ),
    5: Refusal(
        "NOT_SHORTEST",
        "a number of the sheet is not spelled shortest or has over two groups",
        "correct the sheet's writer",
    ),
    6: Refusal(
        "UNKNOWN",
        "unknown model, a flag that is neither 0.0 nor 1.0, or a number of axes that the call does not take",
        "check the model's number, its flags and its axes",
    ),
    7: Refusal(
        "TOO_MANY",
        "the sheet has over 200 particles, or bytes after the last",
        "split the sheet, or send it alone",
    ),
    8: Refusal(
        "LENGTH",
        "a list has the wrong length",
        "give 37 floats (the determinant last) and 2 answers a particle, 9 floats a matrix, 3 a vector",
    ),
    9: Refusal(
        "NO_ROOM",
        "the lent room is shorter than the sheet",
        "lend 59267 bytes, which hold every sheet",
    ),
    10: Refusal(
        "ABOVE_RANGE",
        "a function would get an argument above its range (torn; of Snow: crushed)",
        "look at the singular values and the hardenings",
    ),
    11: Refusal(
        "WRONG_DETERMINANT",
        "the record's stored determinant is not that of its F",
        "fill it in where you write F (fill_determinants)",
    ),
    12: Refusal(
        "BAD_ZONE",
        "a zone or a particle is out of range, there are over 256 tallies, or list lengths are unlike",
        "hold the zone list to the particles and the tallies",
    ),
    13: Refusal(
        "TALLY_FULL",
        "a tally would pass its end, 4294967295",
        "read the tallies, then clear them",
    ),
    14: Refusal(
        "NOT_ACCEPTED",
        "the factors or the principal values worked out miss their check",
        "look at the sizes of F's or the stress's entries, or give factors of your own",
    ),
    15: Refusal(
        "AFTER_END",
        "a part or an end of a sheet in parts comes after its end",
        "begin the next sheet",
    ),
    16: Refusal(
        "TOO_LONG",
        "a report has over 4096 particles",
        "report them in lists of at most 4096",
    ),
}

# The models' numbers.
SNOW = 0
RANKINE = 1
DRUCKER_PRAGER = 2
NACC = 3
MODELS: dict[int, Model] = {
    0: Model(
        "snow",
        "Snow",
        "elastic hardening",
        ("min_epsilon", "max_epsilon", "hardening_coeff"),
        (),
        {"min_epsilon": 0.025, "max_epsilon": 0.0045, "hardening_coeff": 10.0},
    ),
    1: Model(
        "rankine",
        "Rankine",
        "plastic hardening",
        ("young_modulus", "poisson_ratio", "tensile_strength", "softening_rate"),
        (),
        {},
    ),
    2: Model(
        "drucker_prager",
        "Drucker-Prager",
        "dq",
        ("h0", "h1", "h2", "h3", "lambda", "mu", "only_active_when_failed", "volume_correction"),
        ("only_active_when_failed",),
        {"h0": 0.6108652381980153, "h1": 0.15707963267948966, "h2": 0.2, "h3": 0.17453292519943295, "volume_correction": 1.0},
    ),
    3: Model(
        "nacc",
        "NACC",
        "alpha",
        ("young_modulus", "poisson_ratio", "cohesion", "hardening_enabled", "hardening_factor", "m"),
        ("hardening_enabled",),
        {},
    ),
}
# Of each number of a sheet's model the law's own, and whether the sheet's records end with the determinant; and the way back.
LAW_OF: dict[int, tuple[int, bool]] = {0: (0, False), 1: (1, False), 2: (2, False), 3: (3, False), 4: (0, True), 5: (1, True), 6: (2, True), 7: (3, True)}
WHOLE: dict[int, int] = {0: 4, 1: 5, 2: 6, 3: 7}

FLOATS = 37
RECORD: tuple[Part, ...] = (
    Part("deformation_gradient", 0, (3, 3)),
    Part("u", 9, (3, 3)),
    Part("singular_values", 18, (3,)),
    Part("v_t", 21, (3, 3)),
    Part("phase", 30, ()),
    Part("plastic_deformation_gradient_det", 31, ()),
    Part("plastic_hardening", 32, ()),
    Part("elastic_hardening", 33, ()),
    Part("log_vol_gain", 34, ()),
    Part("nacc_alpha", 35, ()),
    Part("determinant", 36, ()),
)

# The Rust's defaults of the laws that are no models.
NEO_HOOKEAN_CFL_COEFF = 0.5
COROTATED_CFL_COEFF = 0.9
MONAGHAN_MAX_NEG_PRESSURE = 1.0
# Answers: two numbers a particle. The first is the outcome, the second what stands beside it.
ANSWERS = 2  # numbers a particle
UNTOUCHED = 0  # inside the yield surface; beside it 0
STORED = 1  # updated; beside it the amount's bits (pasoletu_amount)
REFUSED = 2  # the record keeps its bits; beside it the refusal's number
# Sheets (section 7).
SHEET_MOST = 200  # particles of a sheet
SHEET_BYTES = 59267  # of the longest sheet that is not refused
WITH_DETERMINANT = 4  # added to a model's number: the same law, in a sheet whose records have 37 floats
SHEET_FLOATS = 36  # a record in a sheet without determinants
HEADER = 11  # entries of read_sheet's header
HEADER_MODEL = 0
HEADER_PARAMETERS = 1  # 8: bits of the parameters, 0 past the model's last
HEADER_COUNT = 9  # particles
HEADER_PLACE = 10  # of the first record's first byte in the sheet
# Sheets in parts (section 7): the state's words are the calls' own; these places of it may be read.
PARTS_STATE = 52  # entries of a state
PARTS_STATE_WANTS = 1  # 4 while what stands before the records is not complete, 0 once it is
PARTS_STATE_MODEL = 2
PARTS_STATE_PARAMETERS = 7  # 8: bits of the parameters, 0 past the model's last
PARTS_PROGRESS = 2  # entries of a call's progress
PARTS_COMPLETE = 0  # in it: how many particles are complete and worked
PARTS_COUNT = 1  # how many the sheet says it has; 0 before that is known
# The calling thread's floating-point mode (float_mode): what of it is not IEEE 754's default, by which all is proved.
MODE_ROUNDING = 1  # results are not rounded to nearest
MODE_FLUSHED = 2  # a result below the smallest normal number becomes 0 (flush-to-zero)
MODE_DENORMALS = 4  # an input below it is read as 0 (denormals-are-zero)
# Flat records (section 7): 20 doubles a particle, without a determinant.
FLAT_FLOATS = 20  # a flat record
FLAT_F = 0  # deformation gradient, two rows of two
FLAT_U = 4  # U of F = U diag(sigma) V^T, two rows of two
FLAT_SIGMA = 8  # two singular values
FLAT_VT = 10  # V^T, two rows of two
FLAT_PHASE = 14  # the six scalars, in the order of PASOLETU_PHASE to PASOLETU_ALPHA
# Reports (section 7): three columns of six entries. Least, greatest and total are whole numbers of 2^-30, as int64_t.
REPORT_MOST = 4096  # particles of a report
REPORT = 18  # entries of a report
REPORT_COLUMN = 6  # entries of a column
REPORT_PLASTIC_HARDENING = 0  # the first entry of this column
REPORT_ELASTIC_HARDENING = 6  # of this
REPORT_PLASTIC_DETERMINANT = 12  # and of this
REPORT_COUNT = 0  # in a column: how many values are counted
REPORT_LEAST = 1  # the least of them; 0 of none
REPORT_GREATEST = 2  # the greatest; 0 of none
REPORT_TOTAL = 3  # their sum
REPORT_OUTSIDE = 4  # how many lie not within 2^20 of zero
REPORT_NOT_FINITE = 5  # how many are NaN or infinite
# Why (section 7): the entries of a reason. Tests, steps and branches are numbered in docs/STEPS.md.
REASON = 11  # entries of a reason
REASON_KIND = 0  # 0 a test of two numbers, 1 of three zeros, 2 a flag, 3 Snow's bounds, 4 a refusal
REASON_REFUSAL = 1  # the refusal's number, else 0
REASON_STEP = 2  # the step that refused, else 0
REASON_OF = 3  # for 1 whose place: 1 a parameter's, 2 the record's; else 0
REASON_PLACE = 4  # that place, from 0
REASON_TEST = 5  # the last test that chose the branch, else 0
REASON_HELD = 6  # whether it held
REASON_BRANCH = 7  # the branch; 0 is untouched
REASON_NUMBERS = 8  # 3: bits of the numbers compared; of Snow the bounds, 0 neither, 1 lower, 2 upper

# The calls by name, without pasoletu_; each answers a ctypes.c_uint8, 0 or the refusal's number.
CALLS: dict[str, tuple[Argument, ...]] = {
    "exp": (
        Argument("x", "f64", None, False),
        Argument("out", "f64", 1, True),
    ),
    "ln": (
        Argument("x", "f64", None, False),
        Argument("out", "f64", 1, True),
    ),
    "sinh": (
        Argument("x", "f64", None, False),
        Argument("out", "f64", 1, True),
    ),
    "sin": (
        Argument("x", "f64", None, False),
        Argument("out", "f64", 1, True),
    ),
    "sqrt": (
        Argument("x", "f64", None, False),
        Argument("out", "f64", 1, True),
    ),
    "cbrt": (
        Argument("x", "f64", None, False),
        Argument("out", "f64", 1, True),
    ),
    "inv_cbrt": (
        Argument("x", "f64", None, False),
        Argument("out", "f64", 1, True),
    ),
    "cbrt_squared": (
        Argument("x", "f64", None, False),
        Argument("out", "f64", 1, True),
    ),
    "inv_cbrt_squared": (
        Argument("x", "f64", None, False),
        Argument("out", "f64", 1, True),
    ),
    "inv_exact": (
        Argument("e", "f64", None, False),
        Argument("out", "f64", 1, True),
    ),
    "shear_modulus": (
        Argument("young_modulus", "f64", None, False),
        Argument("poisson_ratio", "f64", None, False),
        Argument("out", "f64", 1, True),
    ),
    "bulk_modulus": (
        Argument("young_modulus", "f64", None, False),
        Argument("poisson_ratio", "f64", None, False),
        Argument("out", "f64", 1, True),
    ),
    "shear_modulus_from_lame": (
        Argument("lambda", "f64", None, False),
        Argument("mu", "f64", None, False),
        Argument("out", "f64", 1, True),
    ),
    "bulk_modulus_from_lame": (
        Argument("lambda", "f64", None, False),
        Argument("mu", "f64", None, False),
        Argument("out", "f64", 1, True),
    ),
    "lame_lambda_mu": (
        Argument("young_modulus", "f64", None, False),
        Argument("poisson_ratio", "f64", None, False),
        Argument("out", "f64", 2, True),
    ),
    "solve_quadratic": (
        Argument("a", "f64", None, False),
        Argument("b", "f64", None, False),
        Argument("c", "f64", None, False),
        Argument("out", "f64", 2, True),
    ),
    "spin_tensor": (
        Argument("m", "f64", 9, False),
        Argument("out", "f64", 9, True),
    ),
    "strain_rate": (
        Argument("m", "f64", 9, False),
        Argument("out", "f64", 9, True),
    ),
    "deviatoric_part": (
        Argument("m", "f64", 9, False),
        Argument("out", "f64", 9, True),
    ),
    "spherical_part": (
        Argument("m", "f64", 9, False),
        Argument("out", "f64", 1, True),
    ),
    "decomposed_times": (
        Argument("spherical", "f64", None, False),
        Argument("deviatoric", "f64", 9, False),
        Argument("v", "f64", 3, False),
        Argument("out", "f64", 3, True),
    ),
    "neo_hookean_fpk_stress": (
        Argument("law", "f64", 3, False),
        Argument("hardening", "f64", None, False),
        Argument("f", "f64", 9, False),
        Argument("out", "f64", 9, True),
    ),
    "neo_hookean_elastic_energy_density": (
        Argument("law", "f64", 3, False),
        Argument("phase", "f64", None, False),
        Argument("hardening", "f64", None, False),
        Argument("f", "f64", 9, False),
        Argument("out", "f64", 1, True),
    ),
    "neo_hookean_elastic_energy_density_in": (
        Argument("law", "f64", 3, False),
        Argument("one_split", "f64", None, False),
        Argument("phase", "f64", None, False),
        Argument("hardening", "f64", None, False),
        Argument("f", "f64", 9, False),
        Argument("out", "f64", 1, True),
    ),
    "neo_hookean_pos_energy": (
        Argument("law", "f64", 3, False),
        Argument("phase", "f64", None, False),
        Argument("hardening", "f64", None, False),
        Argument("f", "f64", 9, False),
        Argument("out", "f64", 1, True),
    ),
    "phase_coeff": (
        Argument("phase", "f64", None, False),
        Argument("out", "f64", 1, True),
    ),
    "corotated_elastic_energy_density": (
        Argument("law", "f64", 4, False),
        Argument("hardening", "f64", None, False),
        Argument("sigma", "f64", 3, False),
        Argument("out", "f64", 1, True),
    ),
    "corotated_pos_energy": (
        Argument("law", "f64", 4, False),
        Argument("hardening", "f64", None, False),
        Argument("f", "f64", 9, False),
        Argument("sigma", "f64", 3, False),
        Argument("out", "f64", 1, True),
    ),
    "neo_hookean_stress_and_verdict": (
        Argument("law", "f64", 3, False),
        Argument("limits", "f64", 2, False),
        Argument("record", "f64", 37, False),
        Argument("stress", "f64", 9, True),
        Argument("verdict", "u64", 1, True),
    ),
    "corotated_stress_and_verdict": (
        Argument("law", "f64", 4, False),
        Argument("limits", "f64", 2, False),
        Argument("record", "f64", 37, False),
        Argument("stress", "f64", 9, True),
        Argument("verdict", "u64", 1, True),
    ),
    "record_neo_hookean_fpk_stress": (
        Argument("law", "f64", 3, False),
        Argument("record", "f64", 37, False),
        Argument("out", "f64", 9, True),
    ),
    "record_neo_hookean_elastic_energy_density": (
        Argument("law", "f64", 3, False),
        Argument("record", "f64", 37, False),
        Argument("out", "f64", 1, True),
    ),
    "record_neo_hookean_elastic_energy_density_in": (
        Argument("law", "f64", 3, False),
        Argument("one_split", "f64", None, False),
        Argument("record", "f64", 37, False),
        Argument("out", "f64", 1, True),
    ),
    "record_neo_hookean_pos_energy": (
        Argument("law", "f64", 3, False),
        Argument("record", "f64", 37, False),
        Argument("out", "f64", 1, True),
    ),
    "record_corotated_elastic_energy_density": (
        Argument("law", "f64", 4, False),
        Argument("record", "f64", 37, False),
        Argument("out", "f64", 1, True),
    ),
    "record_corotated_pos_energy": (
        Argument("law", "f64", 4, False),
        Argument("record", "f64", 37, False),
        Argument("out", "f64", 1, True),
    ),
    "monaghan_pressure": (
        Argument("pressure0", "f64", None, False),
        Argument("gamma", "u32", None, False),
        Argument("viscosity", "f64", None, False),
        Argument("max_neg_pressure", "f64", None, False),
        Argument("mass", "f64", None, False),
        Argument("volume0", "f64", None, False),
        Argument("density", "f64", None, False),
        Argument("out", "f64", 1, True),
    ),
    "monaghan_kirchhoff_stress": (
        Argument("pressure0", "f64", None, False),
        Argument("gamma", "u32", None, False),
        Argument("viscosity", "f64", None, False),
        Argument("max_neg_pressure", "f64", None, False),
        Argument("mass", "f64", None, False),
        Argument("volume0", "f64", None, False),
        Argument("density", "f64", None, False),
        Argument("determinant", "f64", None, False),
        Argument("velocity_gradient", "f64", 9, False),
        Argument("out", "f64", 9, True),
    ),
    "monaghan_timestep_bound": (
        Argument("pressure0", "f64", None, False),
        Argument("gamma", "u32", None, False),
        Argument("viscosity", "f64", None, False),
        Argument("max_neg_pressure", "f64", None, False),
        Argument("determinant", "f64", None, False),
        Argument("mass", "f64", None, False),
        Argument("volume0", "f64", None, False),
        Argument("density", "f64", None, False),
        Argument("velocity", "f64", 3, False),
        Argument("cell_width", "f64", None, False),
        Argument("out", "f64", 1, True),
    ),
    "snow_clamp": (
        Argument("min_epsilon", "f64", None, False),
        Argument("max_epsilon", "f64", None, False),
        Argument("hardening_coeff", "f64", None, False),
        Argument("sigma", "f64", 3, False),
        Argument("out", "f64", 3, True),
    ),
    "rankine_project": (
        Argument("arguments", "f64", 4, False),
        Argument("s", "f64", None, False),
        Argument("strains", "f64", 3, False),
        Argument("out", "f64", 3, True),
    ),
    "drucker_prager_alpha": (
        Argument("fields", "f64", 8, False),
        Argument("q", "f64", None, False),
        Argument("out", "f64", 1, True),
    ),
    "nacc_friction": (
        Argument("axes", "u64", None, False),
        Argument("friction_angle", "f64", None, False),
        Argument("out", "f64", 1, True),
    ),
    "update": (
        Argument("model", "u64", None, False),
        Argument("parameters", "f64", 0, False),
        Argument("record", "f64", 37, True),
        Argument("answer", "u64", 2, True),
    ),
    "factor": (
        Argument("record", "f64", 37, True),
    ),
    "pass": (
        Argument("model", "u64", None, False),
        Argument("parameters", "f64", 0, False),
        Argument("records", "f64", 0, True),
        Argument("answers", "u64", 0, True),
        Argument("counts", "u64", 3, True),
    ),
    "pass_with_failure": (
        Argument("model", "u64", None, False),
        Argument("parameters", "f64", 0, False),
        Argument("limits", "f64", 2, False),
        Argument("corotated", "f64", 4, False),
        Argument("records", "f64", 0, True),
        Argument("answers", "u64", 0, True),
        Argument("counts", "u64", 4, True),
    ),
    "factor_list": (
        Argument("records", "f64", 0, True),
        Argument("answers", "u64", 0, True),
        Argument("counts", "u64", 3, True),
    ),
    "pass_factored": (
        Argument("model", "u64", None, False),
        Argument("parameters", "f64", 0, False),
        Argument("records", "f64", 0, True),
        Argument("answers", "u64", 0, True),
        Argument("counts", "u64", 3, True),
    ),
    "pass_factored_with_failure": (
        Argument("model", "u64", None, False),
        Argument("parameters", "f64", 0, False),
        Argument("limits", "f64", 2, False),
        Argument("corotated", "f64", 4, False),
        Argument("records", "f64", 0, True),
        Argument("answers", "u64", 0, True),
        Argument("counts", "u64", 4, True),
    ),
    "fill_determinants": (
        Argument("records", "f64", 0, True),
    ),
    "flat_update": (
        Argument("model", "u64", None, False),
        Argument("parameters", "f64", 0, False),
        Argument("record", "f64", 20, True),
        Argument("answer", "u64", 2, True),
    ),
    "flat_pass": (
        Argument("model", "u64", None, False),
        Argument("parameters", "f64", 0, False),
        Argument("records", "f64", 0, True),
        Argument("answers", "u64", 0, True),
        Argument("counts", "u64", 3, True),
    ),
    "clear_tallies": (
        Argument("particles", "u64", None, False),
        Argument("zones", "u64", 0, False),
        Argument("tallies", "u64", 0, True),
    ),
    "move_particle": (
        Argument("particles", "u64", None, False),
        Argument("particle", "u64", None, False),
        Argument("zone", "u64", None, False),
        Argument("zones", "u64", 0, True),
        Argument("tallies", "u64", 0, True),
    ),
    "pass_by_zone": (
        Argument("model", "u64", None, False),
        Argument("parameters", "f64", 0, False),
        Argument("zones", "u64", 0, False),
        Argument("records", "f64", 0, True),
        Argument("answers", "u64", 0, True),
        Argument("tallies", "u64", 0, True),
    ),
    "pass_with_failure_by_zone": (
        Argument("model", "u64", None, False),
        Argument("parameters", "f64", 0, False),
        Argument("limits", "f64", 2, False),
        Argument("corotated", "f64", 4, False),
        Argument("zones", "u64", 0, False),
        Argument("records", "f64", 0, True),
        Argument("answers", "u64", 0, True),
        Argument("tallies", "u64", 0, True),
    ),
    "read_sheet": (
        Argument("bytes", "u8", 0, False),
        Argument("header", "u64", 11, True),
        Argument("records", "f64", 0, True),
    ),
    "run_sheet": (
        Argument("bytes", "u8", 0, False),
        Argument("records", "f64", 0, True),
        Argument("answers", "u64", 0, True),
        Argument("counts", "u64", 4, True),
    ),
    "write_sheet": (
        Argument("model", "u64", None, False),
        Argument("parameters", "f64", 0, False),
        Argument("records", "f64", 0, False),
        Argument("bytes", "u8", 0, True),
        Argument("written", "u64", 1, True),
    ),
    "begin_parts": (
        Argument("state", "u64", 52, True),
    ),
    "part": (
        Argument("bytes", "u8", 0, False),
        Argument("state", "u64", 52, True),
        Argument("records", "f64", 0, True),
        Argument("answers", "u64", 0, True),
        Argument("progress", "u64", 2, True),
    ),
    "end_parts": (
        Argument("records", "f64", 0, False),
        Argument("answers", "u64", 0, False),
        Argument("state", "u64", 52, True),
        Argument("progress", "u64", 2, True),
    ),
    "report": (
        Argument("records", "f64", 0, False),
        Argument("report", "u64", 18, True),
    ),
    "join_reports": (
        Argument("first", "u64", 18, False),
        Argument("second", "u64", 18, False),
        Argument("joined", "u64", 18, True),
    ),
    "why": (
        Argument("model", "u64", None, False),
        Argument("parameters", "f64", 0, False),
        Argument("record", "f64", 37, False),
        Argument("reason", "u64", 11, True),
    ),
}
ARGTYPES: dict[str, tuple[type, ...]] = {
    name: sum((a.argtypes for a in arguments), ()) for name, arguments in CALLS.items()
}
