"""The proofs of those functions of crates/model and crates/flat_particles that have an arm a law, and of those that there are of each law: what their goals
need goes with the laws' rows alone. The functions, and all else about a law, are written by hand: a proof that is made of a wrong row is refused."""
from .rows import WRITABLE

HEAD = "-- `{path}` meets its contract: {how}. Made by tools/table from calls.toml: edit that, not this file.\n"


class Names:
    """The toolchain's names of what is called in a function: a second one of a name is told by its arm, and by its number there."""

    def __init__(self):
        self.taken = set()

    def __call__(self, name, arm=None):
        told = f"{name}-in-{arm}" if arm else f"{name}"
        tries = [name] + ([told] if arm else []) + [f"{told}-{k}" for k in range(2, 100)]
        found = next(t for t in tries if t not in self.taken)
        self.taken.add(found)
        return found


def ensured(call):
    return f"c.{call}.ensures"


def taken(arm):
    """That an arm was taken."""
    return f"c.in-{arm}.is"


def simp(*facts):
    return f"simp ({', '.join(facts)})" if len(facts) > 1 else f"simp {facts[0]}"


def answer(goal, body, unfolding=""):
    """A goal's answer. A body of several lines begins with a new one."""
    opened = f"unfolding {unfolding}\n" if unfolding else ""
    return f"pub {goal} : goal.{goal}\n{opened}{goal} c ={'' if body.startswith(chr(10)) else ' '}{body}\n"


def returned(arm, *facts, unfolding=""):
    return answer(f"returns-in-{arm}" if arm else "returns", simp(*facts), unfolding)


def proof(crate, function, how, uses, answers):
    """A file: what it uses, and the answers."""
    uses = [*uses, f"Rattle.{crate}.proofs.rows.{function}.Goals as goal"]
    parts = [HEAD.format(path=f"{crate}::rows::{function}", how=how) + "".join(f"use {name}\n" for name in uses), *answers]
    return f"crates/{crate}/proofs/rows/{function}/Answers.antt", "\n".join(parts)


def shape_of(laws):
    def number(k):
        return "number" if k == 1 else f"number-{k}"

    last = len(laws)
    tests = [f"c.if-{number(k)}.false" for k in range(1, last + 1)]
    facts = [[*tests[: k - 1], f"c.if-{number(k)}.true"] for k in range(1, last + 1)] + [tests]
    goals = [f"returns-then-{number(k)}" for k in range(1, last + 1)] + [f"returns-else-{number(last)}"]
    answers = [answer(goal, "rw " + (f"({', '.join(told)})" if len(told) > 1 else told[0]), "law_of kinds_of") for goal, told in zip(goals, facts)]
    return proof("model", "shape_of", "by the number", ["Rattle.model.specs.Kinds.{law_of, kinds_of}"], answers)


def branch(laws):
    names = Names()
    answers = [returned(m.variant, ensured(names("branch_number", m.variant)), taken(m.variant)) for m in laws]
    return proof("model", "branch", "by the law", [], [*answers, returned("Unknown", taken("Unknown"))])


def reader(m):
    """Of one law: each place as it is read, the last first."""
    names = Names()
    read = [names("word" if p.flag else "float") for p in m.parameters]
    return proof("model", m.name, "each place as it is read", [], [returned("", *map(ensured, reversed(read)))])


def model_of(laws):
    """The law of no number reads as the first."""
    names = Names()

    def arm(variant, call):
        told = f"\n    let t = rw c.shape_of-k.ensures at {taken(variant)} in\n    "
        return answer(f"returns-in-{variant}", told + simp(ensured(names(call, variant)), "t"), "model_of")

    answers = [*(arm(m.variant, m.name) for m in laws), arm("Unknown", laws[0].name)]
    return proof("model", "model_of", "by the law", ["Rattle.model.specs.Fields.{model_of}"], answers)


def ready(m):
    """Of a law with moduli."""
    return proof("model", "ready_" + m.name, "by the moduli", [], [returned("", ensured("ready_if"), ensured("moduli_finite"))])


def make_ready(laws):
    """Moduli are worked and tested between the parameters' test and the answer."""
    names, answers = Names(), []
    for m in laws:
        between = [f"ready_{m.name}", "law"] if m.moduli else []
        calls = [ensured(names(call, m.variant)) for call in ("ready_if", *between, "parameters_finite")]
        answers.append(returned(m.variant, *calls, taken(m.variant), unfolding="ready_of"))
    return proof("model", "make_ready", "by the model", ["Rattle.model.specs.Ready.{ready_of}"], answers)


def parameters_ready(laws):
    arms = [*(m.variant for m in laws), "Refused"]
    return proof("model", "parameters_ready", "by the law, or by the refusal", [], [returned(arm, taken(arm)) for arm in arms])


def by_model(laws, call, unfolding=""):
    names = Names()
    return [returned(m.variant, ensured(names(call, m.variant)), taken(m.variant), unfolding=unfolding) for m in laws]


def reason_of(laws):
    return proof("model", "reason_of", "by the model", ["Rattle.reason.specs.Reason.{reason_from, reason_of}"], by_model(laws, "reason", "reason_of reason_from"))


def update_ready(laws):
    """What is known of a model made ready is what its law requires: of one with moduli, of these too."""
    names = Names()

    def required(m):
        told = f"\n    let p = c.requires in\n    let t = simp {taken(m.variant)} at p.0 in\n    "
        law = f"\n    let law = c.in-{m.variant}.p in"
        split = f"let b = and_both ({m.name}.parameters_finite law) ({m.name}.moduli_finite law) t in\n    (simp (b.0, p.1), b.1)"
        return answer(names("update_ready-requires", m.variant), law + told + split if m.moduli else told + "simp (t, p.1)")

    answers = [*map(required, laws), *by_model(laws, "update_ready"), returned("Refused", ensured("refuse"), taken("Refused"))]
    uses = ["Rattle.numbers.proofs.Laws.{and_both}", *(f"Rattle.plasticity_{m.name}.specs.Law as {m.name}" for m in laws if m.moduli)]
    return proof("model", "update_ready", "by the law", uses, answers)


def written(laws, call):
    """Of each law what it calls for each scalar that it writes."""
    names = Names()
    return [[names(call, m.variant) for _ in m.written] for m in laws]


def wrote(m, calls):
    """What an arm wrote, the last first."""
    return returned(m.variant, *map(ensured, reversed(calls)), taken(m.variant))


def write_scalars(laws):
    """What is given is finite; a model that is refused writes nothing."""
    names, answers = Names(), []
    for m, calls in zip(laws, written(laws, "finite_bits")):
        for scalar in m.written:
            answers.append(answer(names("finite_bits-requires", m.variant), f"(scalars_parts c.args.s.scalars c.requires.1).{WRITABLE[scalar]}"))
        answers.append(wrote(m, calls))
    answers.append(returned("Refused", taken("Refused")))
    uses = ["Rattle.plasticity.proofs.Parts.{scalars_parts}"]
    return proof("model", "write_scalars", "what each arm writes, and what it is given is finite", uses, answers)


def flat_update(laws):
    return proof("flat_particles", "update", "by the model", ["Rattle.flat_particles.specs.Law.{walk_of}"], by_model(laws, "update_particle", "walk_of"))


def flat_write_scalars(laws):
    answers = [wrote(m, calls) for m, calls in zip(laws, written(laws, "bits_of"))]
    return proof("flat_particles", "write_scalars", "what each arm writes", [], answers)


ARMS = (shape_of, branch, model_of, make_ready, parameters_ready, reason_of, update_ready, write_scalars, flat_update, flat_write_scalars)


def made(table):
    """The text of each file, by its name."""
    laws = table.models
    return dict([*(make(laws) for make in ARMS), *(reader(m) for m in laws), *(ready(m) for m in laws if m.moduli)])
