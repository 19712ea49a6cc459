"""include/pasoletu.h: what stands between its marks."""
from .text import filled, wrapped

BEGIN = "/* ==== Made by tools/table from calls.toml and VERSION: edit those ==== */"
END = "/* ==== End of what tools/table makes ==== */"
TYPES = {"f64": "double", "u8": "uint8_t", "u32": "uint32_t", "u64": "uint64_t"}


def rule(title):
    return f"/* ---- {title} ".ljust(117, "-") + " */"


def comment(text):
    lines = wrapped(text, "/* ", " * ", 117)
    if len(lines) == 1:
        return [lines[0] + " */"]
    return [*lines, " */"] if len(lines[-1]) > 114 else [*lines[:-1], lines[-1] + " */"]


def aligned(rows, begin, ends):
    """Rows (code, comment) with the comments in one column."""
    column = max(len(begin + code) for code, _ in rows) + 1
    for (code, words), end in zip(rows, ends):
        line = begin + code + end
        yield line if not words else line.ljust(column) + f" /* {words} */"


def enum(rows):
    """Rows (name, number, comment)."""
    rows = [(f"{name} = {number}", words) for name, number, words in rows]
    yield "enum {"
    yield from aligned(rows, "    ", [","] * (len(rows) - 1) + [""])
    yield "};"


def defines(rows):
    """Rows (name, value, comment)."""
    rows = list(rows)
    return aligned([(f"{name} {value}", words) for name, value, words in rows], "#define ", [""] * len(rows))


def version(table):
    yield f'#define PASOLETU_VERSION "{table.version}"'
    for part, number in zip(("MAJOR", "MINOR", "PATCH"), table.version.split(".")):
        yield f"#define PASOLETU_VERSION_{part} {number}"
    yield ""
    yield "/* The version of this header, which install.sh installs with its library. The text is constant. */"
    yield "static inline const char *pasoletu_version(void)"
    yield "{"
    yield "    return PASOLETU_VERSION;"
    yield "}"


def case(name, text):
    yield f"    case PASOLETU_{name}:"
    lines = wrapped(text, '        return "', '               "', 117)
    yield from (line + ' "' for line in lines[:-1])
    yield lines[-1] + '";'


def refusals(table):
    yield rule("Refusals (section 6)")
    yield ""
    numbers = [(f"PASOLETU_{r.name}", r.number, r.what.split(" (")[0]) for r in table.refusals]
    yield from enum([("PASOLETU_DONE", 0, ""), *numbers])
    yield ""
    yield "/* What a refusal means and what to do, in words. The text is constant: nothing is to be freed. */"
    yield "static inline const char *pasoletu_refusal_text(uint64_t refusal)"
    yield "{"
    yield "    switch (refusal) {"
    yield from case("DONE", "done: nothing was refused")
    for r in table.refusals:
        yield from case(r.name, f"{r.what}: {r.remedy}")
    yield "    default:"
    yield '        return "no refusal of this library: header and library do not belong together";'
    yield "    }"
    yield "}"


def model_comment(m):
    names = ", ".join(p.name + (" (flag)" if p.flag else "") for p in m.parameters)
    arguments_of = f", the arguments of {m.arguments_of}" if m.arguments_of else ""
    return f"{m.title}: {names}{arguments_of}. Its amount: {m.amount}."


def models(table):
    yield rule("Models and their parameters (sections 5 and 7)")
    yield ""
    for m in table.models:
        yield from comment(model_comment(m))
        yield f"#define PASOLETU_{m.name.upper()} {m.number}"
    yield ""
    yield "/* How many parameters each model has. */"
    yield from defines((f"PASOLETU_{m.name.upper()}_PARAMETERS", len(m.parameters), "") for m in table.models)
    yield ""
    yield "/* The Rust's defaults of the models' parameters. */"
    yield from defines(
        (f"PASOLETU_{m.name.upper()}_{p.name.upper()}", repr(p.default), p.meaning)
        for m in table.models for p in m.parameters if p.default is not None
    )


def record(table):
    yield rule("A record: the doubles of a particle (section 7)")
    yield ""
    yield f"#define PASOLETU_FLOATS {table.floats}"
    yield "/* The place of each part in a record. */"
    yield from defines(
        (f"PASOLETU_{part.name}", part.at, f"{part.length}: {part.meaning}" if part.shape else part.meaning)
        for part in table.record
    )


def constants(group):
    yield from comment(group.title)
    yield from defines((f"PASOLETU_{c.name}", repr(c.value), c.meaning) for c in group.rows)


FLOAT_MODE = """\
/* The floating-point mode of the thread that calls, as arithmetic shows it: 0, or a sum of PASOLETU_MODE_ numbers. */
static inline int pasoletu_float_mode_tried(void)
{
    /* 1/4 and 3/4 of the last place of 1; the smallest normal number; 2^52 */
    volatile double one = 1.0, low = 1.0 / 18014398509481984.0, high = 3.0 / 18014398509481984.0;
    volatile double least = 2.2250738585072014e-308, half = 0.5, large = 4503599627370496.0, tiny, result;
    double held;
    uint64_t bits = 1;
    int wrong = 0;
    result = one + low;
    if (result != 1.0)
        wrong |= PASOLETU_MODE_ROUNDING;
    result = one + high;
    if (result == 1.0)
        wrong |= PASOLETU_MODE_ROUNDING;
    memcpy(&held, &bits, sizeof held);
    tiny = held;
    result = tiny * large;
    if (result == 0.0)
        wrong |= PASOLETU_MODE_DENORMALS;
    result = least * half;
    held = result;
    memcpy(&bits, &held, sizeof bits);
    if (bits == 0)
        wrong |= PASOLETU_MODE_FLUSHED;
    return wrong;
}

/* The same from the processor's control word where that can be read. A host that is built with -ffast-math, or that sets
 * the mode itself, asks once a thread before the first call; a mode that is set is the thread's own. */
static inline int pasoletu_float_mode(void)
{
#if defined(__x86_64__) && defined(__GNUC__)
    uint32_t word = 0; /* MXCSR */
    __asm__ __volatile__("stmxcsr %0" : "=m"(word));
    return ((word & 0x6000u) != 0 ? PASOLETU_MODE_ROUNDING : 0) | ((word & 0x8000u) != 0 ? PASOLETU_MODE_FLUSHED : 0) |
           ((word & 0x0040u) != 0 ? PASOLETU_MODE_DENORMALS : 0);
#elif defined(__aarch64__) && defined(__GNUC__)
    uint64_t word = 0; /* FPCR: its bit FZ is for results and inputs */
    __asm__ __volatile__("mrs %0, fpcr" : "=r"(word));
    return ((word & 0xc00000u) != 0 ? PASOLETU_MODE_ROUNDING : 0) | ((word & 0x1000000u) != 0 ? PASOLETU_MODE_FLUSHED : 0) |
           ((word & 0x1000001u) != 0 ? PASOLETU_MODE_DENORMALS : 0);
#else
    return pasoletu_float_mode_tried();
#endif
}"""


def declared(a):
    if not a.is_list:
        return [f"{TYPES[a.kind]} {a.name}"]
    return [f"{'' if a.written else 'const '}{TYPES[a.kind]} *{a.name}", f"size_t {a.name}_length"]


def lengths(call):
    told = [f"{a.name}: {a.length}" for a in call.arguments if a.length]
    return "; ".join(told) + ". " if told else ""


def call(c):
    yield from comment(lengths(c) + c.text)
    arguments = [part for a in c.arguments for part in declared(a)]
    yield from filled(arguments, f"uint8_t pasoletu_{c.name}(", ");")


def section(s):
    yield rule(s.title)
    if s.text:
        yield from comment(s.text)
    for c in s.calls:
        yield ""
        yield from call(c)


def region(table):
    """The lines between the marks."""
    parts = [version(table), refusals(table), models(table), record(table)]
    parts += [constants(group) for group in table.constants] + [[FLOAT_MODE]] + [section(s) for s in table.sections]
    return "\n\n".join("\n".join(part) for part in parts)


def made(old, table):
    """The whole header, of which only the part between the marks is new."""
    if old.count(BEGIN) != 1 or old.count(END) != 1:
        raise ValueError(f"it must have each of these lines once:\n{BEGIN}\n{END}")
    before, after = old.split(BEGIN)[0], old.split(END)[1]
    return f"{before}{BEGIN}\n\n{region(table)}\n\n{END}{after}"
