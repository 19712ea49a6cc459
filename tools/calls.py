#!/usr/bin/env python3
"""Makes what pages repeat of the sources, and holds the pages to them: every call with its contract, the crates, the tools, numbers of things.

  tools/calls.py            writes docs/CALLS.md, docs/TOOLS.md, the tables of docs/EXCEPTIONS.md and docs/HOUSE.md between their marks, and the numbers that pages tell
  tools/calls.py --check    holds the pages to the sources; the last line is 'N passed, M failed', and the status is 1 on a failure
  tools/calls.py --words    prints how many words of each page are kept by hand, and how many there may be
  tools/calls.py --open     prints the calls with a `requires`, or with no `ensures`

--check fails where a page or a table is not what this makes; where a call has no contract, no section or no words of its own (a C call's section is its heading's
in calls.toml, held to the definitions' pages, another's is read from these; a C call's words are calls.toml's, another's the source's or, where that has none,
calls.toml's [words]); where a call that requires something or takes a float has no row below that says what (REQUIRES, NANS or
FIRST), or a row names no such call; where a page cites what isn't there: `crate/specs/File: name, name` (a definition or a theorem, in crates/crate/specs/File.antt),
`crate/must-fail: name, name` (wrong builds), `crate::call`, a file, an option, a name in a code span; where a line is shown that no program of the gate prints;
where a number of things is another; and where there are too many words (tools/making/prose.py).
"""
import argparse
import ast
import collections
import fnmatch
import functools
import pathlib
import re
import sys
import tomllib

from making import prose

HERE = pathlib.Path(__file__).resolve().parent.parent
PAGE = "docs/CALLS.md"
HEAD = """# Every public call

Made by `tools/calls.py` from the sources: don't edit. A call stands with the path by which another crate names it; a C call with its own name.
The section is [RULES.md](RULES.md)'s, as the page of its definition cites it; the words of a C call are the header's first sentence, of another the source's or calls.toml's.
The contract names definitions, and below each table stands where these are. `result` is the result, `x.old` and `x.new` a lent list before and after, `x.now` one
that is only read. `host_c` exports the C calls under the same clauses. An *inner* call is public for the project's own crates alone: it requires something, which they prove, or it is no part of what a host is given ([EXCEPTIONS.md](EXCEPTIONS.md)).
"""

Call = collections.namedtuple("Call", "crate path name words takes gives requires ensures definitions source")

# docs/EXCEPTIONS.md's tables. A row: of which calls, each crate's by their names inside it, and what a reader is told of them.
REQUIRES = [
    ("fixed_point: to_float fixed", "a size. `to_float` says which float it is by `FloatOf`, which leaves one"),
    ("record: all_finite", "a list of a record's length"),
    ("record: determinant_right read_f read_u read_vt read_state", "a list of a record's length, whose floats are finite"),
    ("record: write_row write_rows", "a place inside the list"),
    ("record: finite_bits", "that what is written is finite"),
    ("record: store_row store_rows", "that what is written is finite, and a place inside the list"),
    ("one_record: copy", "two lists of one length"),
    ("one_record: take_step", "a list of a record's length, and that what was made ready is finite, as `model::make_ready` leaves it"),
    ("one_record: finite_step", "that too, and that the record's floats are finite"),
    ("particles: write_answer", "that the two places are inside the list, and that an amount which is stored is finite"),
    ("particles: count_one", "that no count is near the end of its range, as in a pass none is: it counts records of a list"),
    ("writer: write_words", "that the room has place for the words, as bytes"),
    ("model: model_of", "that the number is one of the eight and each flag is one, which `model::known` tells: every caller has asked it, or has read a header, which names such a model (`sheet/proofs/Known: read_known`)"),
    ("model: write_scalars", "a list of a record's length, and that what is written is finite"),
    (
        "plasticity_*: *::update_ready; model: update_ready",
        "that the record's floats are finite, and the law's parameters and moduli, as `model::make_ready` leaves them",
    ),
    (
        "plasticity_nacc: NaccPlasticity::hardened",
        "of the hardening step, on three axes or two: that the numbers compared are no NaN, and that the two roots handed in are what the root answers",
    ),
    ("elasticity_corotated_linear: kirchhoff pos", "of the steps with a determinant that is handed in: that sigma is finite"),
]

# Calls that require nothing and yet are no part of what a host is given.
INNER = [
    (
        "failure_maximum_stress: MaximumStressFailure::particle_failed",
        "the verdict on principal stresses that are handed in. `one_record` asks it (of a record that is judged, on those of its own rule) and `solid` (on those of the stress that it answers); "
        "sections 5 and 8 (P10, P11) are stated of it",
    ),
    ("plasticity_*: branch_number", "the branch of a test by the number that is handed in, whichever it is. `model::branch` asks it, of the test that a law has told"),
    ("elasticity_neo_hookean: kirchhoff", "the stress with a determinant that is handed in. `solid` asks it, and answers it with its verdict"),
    ("solid: judged::refused_judged", "`host_lists` asks it, of a list of the wrong length"),
    (
        "model: model_of rankine drucker_prager parameters_of is_flag_of law_of whole branch; host_lists: neo_hookean corotated limits",
        "the laws from their bits, for any number and any list: of a number above 7 no law, in whose place Snow is made, a place past the end reads as 0, a flag is any pattern but 0. "
        "Who asks them has asked `fit` and `known` before (8, 6), or has read a header; the header in a state of `parts` is the host's, and no call has tested it",
    ),
]

# What comes of a NaN that isn't refused by 1.
NANS = [
    ("numbers: max min", "the number beside it: section 6 exempts them"),
    (
        "plasticity_snow: SnowPlasticity::clamp SnowPlasticity::project_deformation_gradient; flat_snow: clamped; host: pasoletu_snow_clamp",
        "as the Rust works it: section 6 exempts Snow's bare clamp",
    ),
    (
        "exponential: exp_on_path sinh_on_path exps_on_path; logarithm: ln_on_path logs_on_path; sine: sin_on_path; "
        "thirds: cbrt_on_path inv_cbrt_on_path cbrt_squared_on_path inv_cbrt_squared_on_path; square_root: sqrt_on_path; physics: norm_on_path; answers: on_path first_refusal; plasticity_nacc: friction_on_path",
        "3: inside a law it arose on the path",
    ),
    ("answers: outside", "10, as of what doesn't lie below the range; `answers::bare` and `answers::on_path`, through which every function goes, hand it on of no NaN"),
    ("answers: answered finite_answer answered_pair; tensor: answered answered_vector", "3: a number to be returned"),
    (
        "numbers: powi bits_of; tensor: transpose dot mat_mul determinant recompose sum product row_add row_sub row_scale mat_add mat_scale identity_times "
        "to_rows of_rows; decomposed: inverse_transpose trace; flat: dot sum product row_sub to_rows",
        "as the Rust works it; the bits of a NaN are 7ff8000000000000",
    ),
    (
        "physics: plain::inv_exact plain::lame_lambda_mu plain::shear_modulus plain::bulk_modulus plain::shear_modulus_from_lame plain::bulk_modulus_from_lame; "
        "decomposed: plain::spherical_part plain::deviatoric_part plain::decompose plain::recompose plain::add plain::add_assign plain::times plain::spin_tensor plain::strain_rate; "
        "elasticity_neo_hookean: plain::phase_coeff",
        "as the Rust works it; the call of the same name outside `plain` refuses",
    ),
    (
        "plasticity_rankine: RankinePlasticity::first_side RankinePlasticity::second_side RankinePlasticity::back_one RankinePlasticity::back_both RankinePlasticity::soft_strength; "
        "plasticity_drucker_prager: DruckerPragerPlasticity::gamma DruckerPragerPlasticity::stays scalars_of; plasticity_nacc: NaccPlasticity::argument NaccPlasticity::p0 "
        "NaccPlasticity::pressure NaccPlasticity::stressed NaccPlasticity::low NaccPlasticity::volume_square NaccPlasticity::lower_square NaccPlasticity::y0 NaccPlasticity::y1 "
        "NaccPlasticity::y NaccPlasticity::scale scalars_of",
        "as the Rust works it: a law's formulas, which the law of two axes asks too. Each law has tested what it hands in, or tests what comes out",
    ),
    (
        "plasticity_drucker_prager: DruckerPragerPlasticity::alpha_on_path DruckerPragerPlasticity::measured; plasticity_nacc: NaccPlasticity::raised NaccPlasticity::hardened",
        "3, with the step: inside a law, on three axes or two, it arose on the path",
    ),
    ("plasticity_rankine: RankineArguments::law; plasticity_nacc: NaccArguments::law", "a law with that in it; the calls of the arguments have refused it by 1 before"),
    (
        "elasticity_neo_hookean: kirchhoff fpk density pos; elasticity_corotated_linear: kirchhoff pos",
        "3 where a step works with it. The calls of the law and of `solid`, which tests the determinant too, have tested all of them",
    ),
    (
        "elasticity_corotated_linear: CorotatedLinearElasticity::principal_stresses",
        "3 where it is in sigma, in the elastic hardening or in a modulus; a phase that is none is not 1.0. The pass has tested all of them, or they are the law's results, which the law has tested",
    ),
    (
        "plasticity: refuse; flat: refuse untouched stored; host_lists: sized sized_vector sized_matrix sized_judged flagged flagged_judged put put_pair put_vector put_matrix put_judged; "
        "record_why: words call_refusal; particles: count_one",
        "handed on: a state as it came, or an answer that its call has tested. Of `flat::stored` 3 where it is in F or sigma; `named` says that the other numbers are finite",
    ),
    (
        "record: word float write_row write_rows determinant determinant_with; one_record: copy; particles: fill_determinants; writer: write_words; host_lists: row matrix decomposed; model: rankine "
        "drucker_prager model_of fit known; host_lists: neo_hookean corotated limits; host_passes: pasoletu_fill_determinants",
        "read, written or copied as it is, of a determinant as worked (7ff8000000000000); the law refuses that record or those parameters by 1",
    ),
    (
        "record: finite_bits read_f read_u read_vt read_state store_row store_rows determinant_right; plasticity_*: *::update_ready; "
        "model: update_ready write_scalars; particles: write_answer",
        "none comes in: they require that all floats are finite",
    ),
    ("factors: factors_of principal_of", "as the sweeps work it: what comes out misses the check"),
    ("factors: factored principals", "14: it misses the check. A record's call has refused it by 1 before"),
    (
        "numbers: is_finite is_number; answers: in_range all_in_range; tensor: row_finite mat_finite rows_finite row_number; decomposed: mat_number; flat: row_finite; "
        "nearness: near_all orthogonal surely_near surely_orthogonal; factors: accepted principal_accepted; plasticity: scalars_finite inputs_finite; "
        "flat: inputs_finite; plasticity_*: *::parameters_finite *::moduli_finite; "
        "elasticity_neo_hookean: NeoHookeanElasticity::law_finite NeoHookeanElasticity::is_fluid; elasticity_corotated_linear: CorotatedLinearElasticity::law_finite "
        "CorotatedLinearElasticity::is_fluid; eos_monaghan_sph: MonaghanSphEos::is_fluid; failure_maximum_stress: MaximumStressFailure::limits_finite; record: all_finite; "
        "model: model_finite parameters_ready; one_record: judge_finite",
        "a test's answer",
    ),
    ("answer_text: put_sheet", "its bits in sixteen digits: an answer that its call has tested"),
    ("parts: names_model", "no where it stands for a flag; of another parameter it asks nothing, and the law refuses each record by 1"),
]

# Calls with floats whose answer can be a refusal, and that refuse a NaN by 1 (`*` stands for any name): the other half of what NANS tells.
FIRST = [
    "exponential: exp sinh; logarithm: ln; sine: sin; thirds: cbrt inv_cbrt cbrt_squared inv_cbrt_squared; square_root: sqrt; answers: bare",
    "physics: inv_exact lame_lambda_mu shear_modulus bulk_modulus shear_modulus_from_lame bulk_modulus_from_lame solve_quadratic",
    "decomposed: DecomposedTensor::decompose DecomposedTensor::recompose DecomposedTensor::add DecomposedTensor::add_assign DecomposedTensor::times",
    "decomposed: spin_tensor strain_rate deviatoric_part spherical_part",
    "plasticity_*: *::new *::with_m *::update_particle *::reason *::project *::project_deformation_gradient *::alpha; plasticity_nacc: friction_of; flat_*: update_particle project project_deformation_gradient new; model: reason_of make_ready",
    "elasticity_*: *::new *::fpk_stress *::phase_coeff *::elastic_energy_density *::elastic_energy_density_in *::pos_energy",
    "eos_monaghan_sph: *::new *::pressure *::kirchhoff_stress *::timestep_bound; failure_maximum_stress: *::new *::particle_failed",
    "solid: *::stress_and_verdict *::fpk_stress *::elastic_energy_density *::elastic_energy_density_in *::pos_energy",
    "one_record: update_record take_step finite_step; particles: pass* ready_for; factored_particles: factor_* pass_*; flat_particles: update_record pass; tallies: pass*; host*: pasoletu_*",
]

FLOATS, LISTS = r"\bf64\b", r"\[u64"
REFUSAL = r"\bRefused\(|\brefusal: u8|^u8$"
MADE = re.compile(r"(<!-- made by tools/calls.py: (\w+) -->\n)(.*?)(<!-- end -->)", re.S)
HALF = re.compile(r"(?:The same|And|Its|Their|Of it|Likewise)\b")
HEADING = re.compile(r"^( *)pub fn (\w+)((?:.|\n)*?)\n\1\{|^( *)pub fn (\w+)([^\n]*)\{$", re.M)
CITED = re.compile(r"`(\w+)/((?:specs|proofs)/[\w/]+|must-fail)(?:: ([^`]+))?`")
CALLED = re.compile(r"`(\w+)::([\w:]+)`")


def crates(top):
    """Each crate's name and what crates.txt says of it."""
    for line in (top / "crates.txt").read_text().splitlines():
        name, colon, rest = line.partition(":")
        if colon and "#" not in name:
            yield name.split()[0], rest.partition("#")[2].strip()


@functools.lru_cache(maxsize=None)
def told_of(top):
    """What calls.toml tells: of each C call its section and words, of each other call that it names its words; and how many C calls there are."""
    path = top / "calls.toml"
    if not path.exists():
        return {}, {}
    rows = tomllib.loads(path.read_text())
    c = {}
    for section in rows.get("section", []):
        numbers = re.findall(r"\d+", (re.search(r"sections? ([\d, and]+)", section["title"]) or re.match("()", "")).group(1))
        for call in section["call"]:
            text = " ".join(call["text"].split())
            c["pasoletu_" + call["name"]] = ", ".join(numbers), re.split(r"(?<=[.]) (?=[A-Z])", text)[0]
    return c, rows.get("words", {})


def dependencies(top):
    """Each crate's name and the crates that it knows."""
    found = {}
    for line in (top / "crates.txt").read_text().splitlines():
        name, colon, rest = line.partition(":")
        if colon and "#" not in name:
            found[name.split()[0]] = rest.partition("#")[0].split()
    return found


def first_sentence(before):
    """Of the comment that ends just before a call."""
    lines = []
    for line in reversed(before.rstrip("\n").split("\n")):
        line = line.strip()
        if line.startswith("//"):
            lines.insert(0, line.lstrip("/- "))
        elif not line.startswith("#["):
            break
    return re.split(r"(?<=[.])\s", " ".join(lines))[0]


def cited_sections(text):
    """The numbers of the sections that a page's opening comment cites."""
    opening = re.match(r"(?:(?://|--)[^\n]*\n)*", text).group()
    cited = re.findall(r"sections? ((?:\d+(?:, | and )?)+)", opening)
    return {int(n) for numbers in cited for n in re.findall(r"\d+", numbers)}


def definitions(text):
    """Each definition that a source names, with its place: crate/specs/File."""
    found = {}
    for crate, place, names in re.findall(r"^ghost use Rattle\.(?!std\.)(\w+)\.(specs(?!\.declared\b)(?:\.\w+)+)\.\{([^}]*)\};", text, re.M):
        for name in names.split(","):
            found[name.strip()] = "%s/%s" % (crate, place.replace(".", "/"))
    return found


def owner(before):
    """The type whose `impl` is open at the end of a text."""
    opened = list(re.finditer(r"^impl (\w+)|^\}", before, re.M))
    return opened[-1].group(1) if opened else None


def public_path(crate, module, own, name, root):
    """How another crate names a function, or nothing where it can't."""
    if own:
        return "%s::%s::%s" % (crate, own, name)
    used = re.findall(r"^pub use %s::(?:\{([^}]*)\}|(\w+));" % module, root, re.M)
    if module == "lib" or name in re.findall(r"\w+", " ".join(map(" ".join, used))):
        return "%s::%s" % (crate, name)
    if re.search(r"^pub mod %s;" % module, root, re.M):
        return "%s::%s::%s" % (crate, module, name)
    return None


def signature(rest, own):
    """What a call takes and what it gives, as they are written; `self` is its type."""
    written = " ".join(re.split(r"^ *(?:requires|ensures)\b", rest, maxsplit=1, flags=re.M)[0].split())
    takes, _, gives = written.partition(" -> ")
    return re.sub(r"\bself\b", own or "", takes), gives


def types(top):
    """Each struct's and enum's name with what it holds, by crate."""
    found = collections.defaultdict(dict)
    for crate, _ in crates(top):
        for path in (top / "crates" / crate / "src").glob("*.rt"):
            text = re.sub(r"//.*", "", path.read_text())
            for name, body in re.findall(r"^(?:pub(?:\(crate\))? )?(?:struct|enum) (\w+)[^{;]*\{(.*?)^\}", text, re.M | re.S):
                found[name][crate] = body
    return found


def holds(known, crate, written, wanted, through=()):
    """Whether types as written are, or hold in some part, what a pattern finds."""
    if re.search(wanted, written):
        return True
    for name in set(re.findall(r"\w+", written)) - set(through):
        bodies = known.get(name, {})
        if any(holds(known, crate, b, wanted, through + (name,)) for b in ([bodies[crate]] if crate in bodies else bodies.values())):
            return True
    return False


def calls_of(top, crate):
    source = top / "crates" / crate / "src"
    root = (source / "lib.rt").read_text() if (source / "lib.rt").exists() else ""
    for path in sorted(source.glob("*.rt")):
        text = path.read_text()
        named = definitions(text)
        for m in HEADING.finditer(text):
            name, rest = (m.group(2), m.group(3)) if m.group(2) else (m.group(5), m.group(6))
            public = public_path(crate, path.stem, owner(text[:m.start()]), name, root)
            if not public:
                continue
            if name.startswith("pasoletu_"):
                public = name
            ensures, requires = (re.findall(r"^ *%s\*?(?: \w+)? \{ (.*) \}$" % word, rest, re.M) for word in ("ensures", "requires"))
            used = {w: named[w] for w in re.findall(r"[^\s()]+", " ".join(ensures)) if w in named}
            takes, gives = signature(rest, owner(text[:m.start()]))
            yield Call(crate, public, name, call_words(top, public, text[:m.start()]), takes, gives, requires, ensures, used, path.relative_to(top / "crates"))


def call_words(top, public, before):
    """A C call's words are the header's, another's its comment's or, where there is none, calls.toml's."""
    c, others = told_of(top)
    return c[public][1] if public in c else others.get(public) or first_sentence(before)


def page_sections(top, place):
    """The sections that a page of definitions cites."""
    path = top / "crates" / (place + ".antt")
    return cited_sections(path.read_text()) if path.exists() else set()


def sections_read(top, call):
    """The sections of the pages that a call's contract leads to: those of its own crate, else its source's, else those of the crate that knows the others."""
    pages = set(call.definitions.values())
    own = {p for p in pages if p.startswith(call.crate + "/")}
    source = cited_sections((top / "crates" / call.source).read_text())
    if own or source:
        return set().union(*(page_sections(top, p) for p in own)) if own else source
    order = [crate for crate, _ in crates(top)]
    last = max((p.split("/")[0] for p in pages), key=order.index, default=None)
    return set().union(*(page_sections(top, p) for p in pages if p.split("/")[0] == last))


def section_of(top, call):
    """A C call's section is that of its heading in calls.toml, another's is read from the pages of its definitions."""
    c, _ = told_of(top)
    return c[call.path][0] if call.path in c else ", ".join(map(str, sorted(sections_read(top, call))))


def named_by(top, place, name, through=()):
    """The pages of the definitions that a definition names, by itself or through others of its page."""
    path = top / "crates" / (place + ".antt")
    text = path.read_text() if path.exists() else ""
    found = {}
    for crate, file, names, alias in re.findall(r"^(?:pub )?use Rattle\.(\w+)\.specs((?:\.\w+)+)(?:\.\{([^}]*)\}| as (\w+))$", text, re.M):
        for item in names.split(",") if names else [alias]:
            found[item.strip().split(" ")[-1]] = "%s/specs%s" % (crate, file.replace(".", "/"))
    body = re.search(r"^ *(?:unfoldable |abbrev |pub )*%s(?= ).*?(?=\n\n|\Z)" % re.escape(name), text, re.M | re.S)
    words = {w.split(".")[0] for w in re.findall(r"[^\s()]+", body.group() if body else "")}
    pages = {found[w] for w in words if w in found}
    for other in words - {name, *through, *found}:
        if re.search(r"^(?:unfoldable |abbrev |pub )*%s :(?: |$)" % re.escape(other), text, re.M):
            pages |= named_by(top, place, other, (name, *through))
    return pages


def pages_sections(top, call):
    """The sections that the pages cite to which a C call's contract leads, by itself or through the hosts' own definitions."""
    pages = set(call.definitions.values())
    for name, place in call.definitions.items():
        if place.startswith("host"):
            pages |= named_by(top, place, name)
    return set().union(*(page_sections(top, p) for p in pages))


def heading_faults(top, listed):
    """A heading of calls.toml names what the definitions' pages of its calls cite: each call's one of its sections, and all together all of them."""
    calls = {c.path: c for c in listed}
    for section in tomllib.loads((top / "calls.toml").read_text()).get("section", []):
        told = {name: pages_sections(top, calls[name]) for name in ("pasoletu_" + call["name"] for call in section["call"]) if name in calls}
        heading = {int(n) for name in told for n in re.findall(r"\d+", told_of(top)[0][name][0])}
        for name, cited in told.items():
            yield None if heading & cited else "%s: its heading in calls.toml, %r, names no section of its definitions' pages, %s" % (name, section["title"], sorted(cited))
        more = heading - set().union(*told.values())
        yield None if not more else "calls.toml: the heading %r names a section that no page of its calls' definitions cites: %s" % (section["title"], sorted(more))


@functools.lru_cache(maxsize=None)
def named(calls):
    """The crate and the name inside it of each call that a row names."""
    parts = (part.partition(": ") for part in calls.split("; "))
    return [(crate, name) for crate, _, names in parts for name in names.split()]


def inside(call):
    """A call's name inside its crate."""
    return call.path.partition("::")[2] or call.path


def words_of(rows, call):
    """What a table tells of a call, or nothing."""
    return next((words for calls, words in rows if any(matches(call, n) for n in named(calls))), None)


def matches(call, pattern):
    return fnmatch.fnmatchcase(call.crate, pattern[0]) and fnmatch.fnmatchcase(inside(call), pattern[1])


def takes(known, call, wanted):
    return holds(known, call.crate, call.takes, wanted)


def refuses(known, call):
    """Whether its answer can be a refusal."""
    return holds(known, call.crate, call.gives, REFUSAL)


def table(rows, head):
    """A table of EXCEPTIONS, a row a crate: its calls, and what is told of each."""
    told = collections.defaultdict(list)
    for calls, words in rows:
        for part in calls.split("; "):
            crate, _, names = part.partition(": ")
            told[crate].append("%s: %s" % (", ".join("`%s`" % name for name in names.split()), words))
    lines = ["| Crate | %s |" % head, "|---|---|"]
    lines += ["| `%s` | %s |" % (crate, ". ".join(cells)) for crate, cells in sorted(told.items())]
    return "\n".join(lines) + "\n"


def exceptions(text):
    """docs/EXCEPTIONS.md with its tables made anew."""
    tables = {"requires": (REQUIRES, "Call, and what it requires"), "inner": (INNER, "Call, what it is, and who asks it"), "nan": (NANS, "Call, and what comes of a NaN")}
    return MADE.sub(lambda m: m.group(1) + "\n" + table(*tables[m.group(2)]) + "\n" + m.group(4), text)


def cell(text):
    return text.replace("|", "\\|")


def contract(call):
    said = "; ".join("`%s`" % cell(e) for e in call.ensures) or "none"
    if call.requires:
        return said + " (inner: requires %s)" % "; ".join("`%s`" % cell(r) for r in call.requires)
    return said + (" (inner)" if words_of(INNER, call) else "")


def row(top, call):
    return "| `%s` | %s | %s | %s |" % (call.path, section_of(top, call), cell(call.words), contract(call))


def where_defined(calls):
    """A line for each page that defines what the calls' contracts name."""
    pages = collections.defaultdict(set)
    for call in calls:
        for name, place in call.definitions.items():
            pages[place].add(name)
    return ["- [crates/%s.antt](../crates/%s.antt): %s" % (p, p, ", ".join("`%s`" % n for n in sorted(pages[p]))) for p in sorted(pages)]


def page(top, listed):
    parts = [HEAD]
    for crate, about in crates(top):
        calls = [c for c in listed if c.crate == crate]
        if calls:
            table = ["| Call | Section | In words | Contract |", "|---|---|---|---|"] + [row(top, c) for c in calls]
            parts.append("\n".join(["## %s: %s" % (crate, about), ""] + table + [""] + where_defined(calls)) + "\n")
    return "\n".join(parts)


def declared(text, name):
    """Whether a page of definitions or theorems declares a name."""
    return re.search(r"^ *(?:unfoldable |abbrev )?(?:pub )?(?:record |data )?%s(?= )" % re.escape(name), text, re.M)


def edits(top, crate):
    """The names of a crate's wrong builds: a file's own, or those that a file of several has as its headings."""
    files = list((top / "crates" / crate / "must-fail").glob("*.edit"))
    return {f.stem for f in files} | {n for f in files for n in re.findall(r"^# (\S+)$", f.read_text(), re.M)}


def citation_faults(top, crate, place, names):
    """What a citation `crate/place: names` names and isn't there."""
    if place == "must-fail":
        there = edits(top, crate)
        return ["crates/%s/must-fail has no edit %s" % (crate, n) for n in names if n not in there]
    file = top / "crates" / crate / (place + ".antt")
    if not file.exists():
        return ["there is no crates/%s/%s.antt" % (crate, place)]
    text = file.read_text()
    return ["crates/%s/%s.antt does not declare %s" % (crate, place, n) for n in names if not declared(text, n)]


def document(top, name):
    """A document's text; of one that isn't there none."""
    path = top / "docs" / name
    return path.read_text() if path.exists() else ""


def page_fault(top, listed):
    stale = "%s is not what the sources say: run tools/calls.py and commit it" % PAGE
    return None if document(top, "CALLS.md") == page(top, listed) else stale


def exceptions_fault(top):
    text = document(top, "EXCEPTIONS.md")
    if {m.group(2) for m in MADE.finditer(text)} != {"requires", "inner", "nan"}:
        return "docs/EXCEPTIONS.md has not its three made tables"
    return None if text == exceptions(text) else "docs/EXCEPTIONS.md's tables are not what tools/calls.py makes: run it and commit the page"


def contract_fault(top, known, call):
    """What a call's contract or signature has that no row tells, or nothing."""
    if not call.ensures:
        return "%s has no contract (docs/RULES.md, section 9)" % call.path
    if not section_of(top, call):
        return "%s has no section: let the opening comment of its definition's page, or of its source, name it" % call.path
    if not call.words:
        return "%s has no words: give its source a comment, or calls.toml's [words] a row" % call.path
    if HALF.match(call.words):
        return "%s: its words, %r, are half a sentence" % (call.path, call.words)
    if call.requires and not words_of(REQUIRES, call):
        return "%s requires something: make it the crate's own, or say in REQUIRES of tools/calls.py what" % call.path
    if words_of(NANS, call):
        return None
    if not refuses(known, call) and (takes(known, call, FLOATS) or takes(known, call, LISTS)):
        return "%s takes a NaN and can't refuse it: make it the crate's own, or say in NANS of tools/calls.py what comes of it" % call.path
    if takes(known, call, FLOATS) and not any(matches(call, n) for row in FIRST for n in named(row)):
        return "%s takes a float: name it in FIRST of tools/calls.py if it refuses a NaN by 1, else say in NANS what comes of it" % call.path
    return None


def row_faults(listed):
    """For each call that a row names, its fault, or nothing: no such call, or the row is untrue of it."""
    for title, rows in (("REQUIRES", REQUIRES), ("INNER", INNER), ("NANS", NANS), ("FIRST", [(row, "") for row in FIRST])):
        for pattern in (n for calls, _ in rows for n in named(calls)):
            found = [c for c in listed if matches(c, pattern)]
            if not found:
                yield "tools/calls.py: %s names %s of %s, which hands out no such call" % (title, pattern[1], pattern[0])
            elif (title == "REQUIRES") > bool(found[0].requires):
                yield "tools/calls.py: REQUIRES names %s, which requires nothing" % found[0].path
            else:
                yield None


def name_rows(top, listed):
    """calls.toml's [words] names calls that are there, and its headings the sections of what they hold."""
    paths = {c.path for c in listed}
    for path in told_of(top)[1]:
        yield None if path in paths else "calls.toml: [words] names %s, which no crate hands out" % path
    yield from heading_faults(top, listed)


# ---- the house and the tools

TOOLS_HEAD = """# Every command

Made by `tools/calls.py` from the first sentence of each: don't edit. `COMMAND --help` or the head of its file says the rest.
"""
COMMANDS = (
    ("For people", "bin/slope tools/sheet.py tools/draw.py tools/night tools/night_job.py tools/report.py tools/arrive.py install.sh"),
    ("For hosts and for the build", "tools/built tools/prove tools/jobs tools/shared tools/samples.py"),
    ("The gate's parts", "tools/table tools/calls.py tools/no_division.py tools/reasons.py tools/list_cases.py tools/check_cases.py tools/vectors.py tools/twice.py tools/believe.py tools/joint tools/edits-check"),
    ("Tests", "tests/all tests/linked tests/test_all.py tests/test_command.py tests/test_install.py tests/test_night.py bindings/test bindings/guide.py tools/test_tools.py tools/test_table.py tools/cases.py tools/faults.py fuzz/run"),
    ("Beside the Rust, and measured", "beside/run beside/flat/run beside/factors/run beside/speed beside/page.py beside/waits tools/measure/accuracy.py tools/measure/surface.py "
     "tools/measure/flat_surface.py tools/measure/replayed.py tools/measure/roots.c"),
)


def what_it_does(path):
    """The first sentence of a command's own text."""
    text = path.read_text()
    if "python" in text.split("\n")[0] or path.suffix == ".py":
        told = ast.get_docstring(ast.parse(text)) or ""
    elif path.suffix == ".c":
        told = re.sub(r"^ ?\*? ?", "", (re.match(r"/\*(.*?)\*/", text, re.S) or re.match(r"(?://(.*)\n)+", text)).group(1), flags=re.M)
    else:
        told = "\n".join(line.lstrip("# ") if line.strip("# ") else "" for line in re.match(r"#![^\n]*\n((?:#[^\n]*\n)*)", text).group(1).split("\n"))
    return re.split(r"(?<=[.])\s|:\s+(?=tools/|tests/)|\n\n", " ".join(told.strip().split("\n\n")[0].split()) + " ")[0].strip().rstrip(".")


def tools_page(top):
    lines = [TOOLS_HEAD]
    for title, names in COMMANDS:
        lines += ["## " + title, "", "| command | does |", "|---|---|"]
        lines += ["| [`%s`](../%s) | %s |" % (name, name, cell(what_it_does(top / name))) for name in names.split()]
        lines.append("")
    return "\n".join(lines)


def tools_faults(top):
    """docs/TOOLS.md is what is made, and every command of tools/ and tests/ is on it."""
    stale = "docs/TOOLS.md is not what the commands say: run tools/calls.py and commit it"
    yield None if document(top, "TOOLS.md") == tools_page(top) else stale
    named_ones = {name for _, names in COMMANDS for name in names.split()}
    for folder in ("tools", "tests", "bin"):
        for path in sorted((top / folder).iterdir()):
            name = "%s/%s" % (folder, path.name)
            if path.is_file() and path.stat().st_mode & 0o100:
                yield None if name in named_ones else "tools/calls.py: COMMANDS lacks %s" % name


def house_table(top):
    """The crates, each after those that it knows, in crates.txt's order else."""
    knows, about = dependencies(top), dict(crates(top))
    rows, left = [], list(knows)
    while left:
        crate = next(c for c in left if not any(d in left for d in knows[c]))
        left.remove(crate)
        code = "" if any((top / "crates" / crate / "src").glob("*.rt")) else ": no code"
        rows.append("| `%s` | %s |" % (crate, cell(about[crate] + ("" if "no code" in about[crate] else code))))
    return "\n".join(["| crate | holds |", "|---|---|"] + rows) + "\n"


def house(top, text):
    return MADE.sub(lambda m: m.group(1) + "\n" + house_table(top) + "\n" + m.group(4) if m.group(2) == "crates" else m.group(), text)


def house_fault(top):
    text = document(top, "HOUSE.md")
    if [m.group(2) for m in MADE.finditer(text)] != ["crates"]:
        return "docs/HOUSE.md has not its made table of crates"
    return None if text == house(top, text) else "docs/HOUSE.md's table is not what crates.txt says: run tools/calls.py and commit the page"


def numbers_of(top):
    return prose.counts(top, dependencies(top), len(told_of(top)[0]))


def cited_faults(top, listed, page):
    """For each place that a page cites, and in PROMISES each call, its fault, or nothing."""
    text = prose.pages(top)[page]
    for crate, place, names in CITED.findall(text):
        for fault in citation_faults(top, crate, place, names.split(", ") if names else []) or [None]:
            yield fault and "%s: %s" % (page, fault)
    paths, known = {c.path for c in listed}, {crate for crate, _ in crates(top)}
    for crate, rest in CALLED.findall(text) if page == "docs/PROMISES.md" else []:
        path = "%s::%s" % (crate, rest)
        if crate in known:
            yield None if path in paths else "%s: no crate hands out %s" % (page, path)


# The functions of the Rust that are held (docs/RULES.md, sections 1 and 2), by file: each has its row in PROMISES.
RUST_FUNCTIONS = {
    "lib.rs": "decompose zero recompose add add_assign mul",
    "physics.rs": "inv_exact lame_lambda_mu shear_modulus bulk_modulus shear_modulus_from_lame bulk_modulus_from_lame solve_quadratic spin_tensor strain_rate deviatoric_part spherical_part",
    "plasticity_snow.rs": "new project_deformation_gradient update_particle",
    "plasticity_rankine.rs": "new update_particle",
    "plasticity_drucker_prager.rs": "new project_deformation_gradient alpha update_particle",
    "plasticity_nacc.rs": "new with_m project_deformation_gradient update_particle",
    "elasticity_neo_hookean.rs": "new fpk_stress kirchhoff_stress phase_coeff elastic_energy_density pos_energy",
    "elasticity_corotated_linear.rs": "new kirchhoff_stress elastic_energy_density pos_energy",
    "eos_monaghan_sph.rs": "new pressure kirchhoff_stress timestep_bound",
    "failure_maximum_stress.rs": "new particle_failed",
}


def rust_faults(top):
    """Each held function of the Rust has its row, below its file's name, with a place that defines it."""
    part = re.search(r"^## The Rust's functions\n(.*?)(?=^## |\Z)", prose.pages(top).get("docs/PROMISES.md", ""), re.M | re.S)
    told, file = collections.defaultdict(set), None
    for first, place in re.findall(r"^- (.*?): (.*)$", part.group(1) if part else "", re.M):
        file = (re.match(r"\w+\.rs", first) or re.match("()", "")).group() or file
        told[file].update(re.findall(r"`(\w+)`", first) if CITED.search(place) else [])
    for file, names in RUST_FUNCTIONS.items():
        for name in names.split():
            yield None if name in told[file] else "docs/PROMISES.md, The Rust's functions: there is no row with a definition of %s, %s" % (file, name)


PAGES = ["README.md", "CONTRIBUTING.md", "CHANGELOG.md"] + ["docs/%s.md" % name for name in (
    "DECISIONS DIFFERENCES EXCEPTIONS FACTORS GUIDE HOUSE LANDINGS PROMISES REQUESTS RULES SITES STEPS".split())]


def page_faults(top, listed):
    """What is wrong with the pages that are written by hand: each fault, or nothing for what is right."""
    there = prose.pages(top)
    yield from (None if page in there else "there is no %s" % page for page in PAGES)
    for page in there:
        if page not in prose.HISTORY:
            yield from cited_faults(top, listed, page)
    yield from rust_faults(top)
    yield from prose.name_faults(top, dependencies(top))
    yield from prose.link_faults(top)
    yield from prose.request_faults(top)
    yield from prose.printed_faults(top)
    yield from prose.count_faults(top, numbers_of(top))
    yield from prose.held_faults(top)
    yield from prose.length_faults(top)


def check(top, listed):
    known = types(top)
    faults = [page_fault(top, listed), exceptions_fault(top), house_fault(top), *tools_faults(top)]
    faults += [contract_fault(top, known, c) for c in listed] + list(row_faults(listed)) + list(name_rows(top, listed)) + list(page_faults(top, listed))
    for fault in dict.fromkeys(filter(None, faults)):
        print(fault)
    failed = sum(1 for fault in faults if fault)
    print("%d passed, %d failed" % (len(faults) - failed, failed))
    return 1 if failed else 0


def main():
    parser = argparse.ArgumentParser(description=__doc__, formatter_class=argparse.RawDescriptionHelpFormatter)
    parser.add_argument("--check", action="store_true", help="hold the documents to the sources")
    parser.add_argument("--open", action="store_true", help="print the calls with a requires, or with no ensures")
    parser.add_argument("--words", action="store_true", help="print how many words of each page are kept by hand")
    parser.add_argument("--top", type=pathlib.Path, default=HERE, help="the repository; default: the one that this tool is in")
    options = parser.parse_args()
    if not (options.top / "crates.txt").exists():
        parser.error("%s is no repository of crates (it has no crates.txt): name one by --top" % options.top)
    if options.words:
        print("\n".join(prose.told_words(options.top)))
        return 0
    listed = [c for crate, _ in crates(options.top) for c in calls_of(options.top, crate)]
    if options.check:
        return check(options.top, listed)
    if options.open:
        print("\n".join("%s: %s" % (c.path, contract(c)) for c in listed if c.requires or not c.ensures))
    else:
        write(options.top, listed)
    return 0


def write(top, listed):
    """Makes anew what is made."""
    (top / PAGE).write_text(page(top, listed))
    (top / "docs/TOOLS.md").write_text(tools_page(top))
    (top / "docs/EXCEPTIONS.md").write_text(exceptions(document(top, "EXCEPTIONS.md")))
    (top / "docs/HOUSE.md").write_text(house(top, document(top, "HOUSE.md")))
    numbers = numbers_of(top)
    for name, text in prose.pages(top).items():
        if prose.counted(text, numbers) != text:
            (top / name).write_text(prose.counted(text, numbers))


if __name__ == "__main__":
    sys.exit(main())
