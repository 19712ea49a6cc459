#!/usr/bin/env python3
"""Brings this repository's own names of specs/, proofs/ and ghost lines to snake case, once, after the kit's port.py: `answeredOf` becomes
`answered_of`, `den-scale` `den_scale`. Types and modules keep their capital, names of src/ and of other libraries their spelling.

usage: tools/port_names.py            rewrites crates/ in place
       tools/port_names.py --dry      says what would fall together, and changes nothing
       tools/port_names.py --map      prints old and new of each name
"""

import os
import re
import sys

TOP = os.path.dirname(os.path.dirname(os.path.realpath(__file__)))
WORD = r"[^\s(){}\[\];,.:\"'⟦⟧«»λ∷≡→×⊎|\\][^\s(){}\[\];,.:\"⟦⟧«»λ|\\]*"
TOKEN = re.compile(r"--[^\n]*|\"(?:[^\"\\\n]|\\.)*\"|//[^\n]*|" + WORD + r"|[^\n]|\n")
NAME = re.compile(r"^[A-Za-z#][\w'◌≤≡<-]*$")
HEAD = re.compile(r"^[ ]*(?:where )?((?:abbrev |unfoldable |pub |private |data |record |opaque )*)(" + WORD + r")((?: *[({][^\n]*?[)}])*) : ", re.M)
CTOR = re.compile(r"^ +(?:\| *)?(" + WORD + r") :", re.M)
LET = re.compile(r"\blet (" + WORD + r")(?= |:|=)")
EQ = re.compile(r"^ +(" + WORD + r")(?: [^\n=]*)? = ", re.M)
BIND = re.compile(r"[({]((?:" + WORD + r" )+):")
AS = re.compile(r" as (" + WORD + r")(?=[,}\s;])")
LAM = re.compile(r"λ ((?:" + WORD + r" ?|_ )+)\.")
USE = re.compile(r"^\s*(?:pub )?(?:ghost )?use ([\w.'+#\-]+?)(?:\.\{([^}]*)\})?(?: as ([\w']+))?;?$", re.M | re.S)
# lemmas that port.py gave the text that a definition gets here
FIRST = {"root_in", "kept_by", "by_way", "word_below", "not_finite"}
# names that would fall together with another: a lemma ends in `_lem` then, a constructor in `_case`
OTHER = {}


def snake(name):
    """The name in snake case: humps and dashes become underscores; a capital that a fact or a type brings stays."""
    if name in OTHER:
        return OTHER[name]
    out = name.replace("-", "_")
    if out[0].islower():
        out = re.sub(r"(?<=[a-z0-9'])([A-Z])(?=[a-z0-9_']|$)", lambda m: "_" + m.group(1).lower(), out)
        out = re.sub(r"(?<=[a-z0-9'])([A-Z]+)(?=_|$)", lambda m: "_" + m.group(1).lower(), out)
        out = re.sub(r"(?<=_[a-z])([A-Z])(?=[a-z])", lambda m: "_" + m.group(1).lower(), out)
    return out


def files():
    for folder, dirs, names in os.walk(os.path.join(TOP, "crates")):
        at_top = os.path.dirname(folder) == os.path.join(TOP, "crates")
        dirs[:] = sorted(d for d in dirs if not (at_top and d in ("out", "data")))
        for n in sorted(names):
            if n.endswith((".rt", ".antt")):
                yield os.path.join(folder, n)


def is_function_proof(path):
    return os.path.basename(path) == "Proof.antt"


def uncommented(text):
    return re.sub(r"--[^\n]*", "", text)


def declared(path, text):
    """The names that a file of antt declares or binds."""
    text = uncommented(text)
    found = set()
    for m in HEAD.finditer(text):
        found.add(m.group(2))
    for pattern in (CTOR, LET, EQ, AS):
        found.update(m.group(1) for m in pattern.finditer(text))
    for m in BIND.finditer(text):
        found.update(m.group(1).split())
    for m in LAM.finditer(text):
        found.update(m.group(1).split())
    return {n for n in found if NAME.match(n)}


def ours(module, crates):
    parts = module.split(".")
    return parts[0] == "Rattle" and len(parts) > 1 and parts[1] in crates


def outside(text, crates):
    """What a file brings from other libraries: names, and the aliases of their modules."""
    names, aliases = set(), set()
    for m in USE.finditer(text):
        module, items, alias = m.groups()
        if ours(module, crates):
            for item in re.split(r",\s*", (items or "").strip().strip(",")):
                if " as " in item:
                    pass
            continue
        for item in re.split(r",\s*", (items or "").strip().strip(",")):
            item = item.strip()
            if item:
                names.add(item.split(" as ")[-1].strip())
                names.add(item.split(" as ")[0].strip())
        aliases.add(alias or module.split(".")[-1])
    return names, aliases


def used(text, path):
    return set(t for t in TOKEN.findall(uncommented(text) if path.endswith(".antt") else text) if NAME.match(t))


def collect():
    crates = set(os.listdir(os.path.join(TOP, "crates")))
    texts = {}
    own = {}
    for p in files():
        with open(p, encoding="utf-8") as f:
            texts[p] = f.read()
        if p.endswith(".antt"):
            found = declared(p, texts[p])
            if is_function_proof(p):
                # a goal's answer is named by the toolchain; the theorem and what stands beside the answers is ours
                found = {n for n in found if not re.search(r"^" + re.escape(n) + r" : \w*\.?(?:Need|goal)", texts[p], re.M) and not n.startswith("#")}
            own[p] = {n for n in found if snake(n) != n}
    return crates, texts, own


def main():
    mode = sys.argv[1] if len(sys.argv) > 1 else ""
    crates, texts, own = collect()
    everywhere = set().union(*(v for p, v in own.items() if not is_function_proof(p)))
    if mode == "--map":
        for n in sorted(everywhere):
            print(n + "\t" + snake(n))
        return
    for p in texts:
        # in these three `not_finite` is a field of the code's Column
        fields = {"not_finite"} if re.search(r"/crates/(report|host_words|host_sheets)/", p) else set()
        if p.endswith(".antt"):
            texts[p] = "".join(t + "_lem" if t in FIRST - fields else t for t in TOKEN.findall(texts[p]))
    tell_apart(texts, everywhere)
    fallen = 0
    changed = 0
    for p, text in texts.items():
        names, aliases = outside(text, crates)
        mine = (everywhere | own.get(p, set())) - names
        proof = is_function_proof(p)
        tokens = TOKEN.findall(text)
        out = []
        turned = {}
        plain = set(t for t in tokens if NAME.match(t))
        for i, t in enumerate(tokens):
            if t.startswith("--") or t.startswith("//"):
                out.append(re.sub(r"`([^`\n]+)`", lambda m: "`" + respell(m.group(1), mine) + "`", t))
                continue
            if t in mine and NAME.match(t):
                before = tokens[i - 1] if i else ""
                head = tokens[i - 2] if i > 1 else ""
                if p.endswith(".rt") and not ghost(tokens, i):
                    out.append(t)
                    continue
                if before == "." and head in aliases:
                    out.append(t)
                    continue
                if before == "." and proof and re.match(r"^(c\d*|w\d*|q\d*|l|goal|tie|t\d+|h\d*)$", chain_head(tokens, i)):
                    out.append(t)
                    continue
                turned[t] = snake(t)
                out.append(snake(t))
                continue
            out.append(t)
        for old, new in turned.items():
            if new in plain:
                fallen += 1
                print(f"{os.path.relpath(p, TOP)}: {old} -> {new}, which the file has")
        back = {}
        for old, new in turned.items():
            if new in back:
                fallen += 1
                print(f"{os.path.relpath(p, TOP)}: {old}, {back[new]} -> {new}")
            back[new] = old
        made = "".join(out)
        if made != text:
            changed += 1
            if mode != "--dry":
                with open(p, "w", encoding="utf-8") as f:
                    f.write(made)
    if mode != "--dry":
        changed += clauses()
        changed += operators()
    print(f"{changed} files, {fallen} names that may fall together")


def tell_apart(texts, everywhere):
    """Fills OTHER with the dashed names that a file has beside what would be their new text."""
    made = set()
    for p, text in texts.items():
        if p.endswith(".antt") and "/specs/" in p:
            for block in re.findall(r"^(?:pub )?data [^\n]* where\n((?:  [^\n]*\n)+)", text, re.M):
                made.update(m.group(1) for m in CTOR.finditer(block))
    found = {}
    for p, text in texts.items():
        if not p.endswith(".antt") or is_function_proof(p):
            continue
        plain = set(t for t in TOKEN.findall(uncommented(text)) if NAME.match(t))
        turned = {}
        for t in plain:
            new = snake(t) if t in everywhere else t
            turned.setdefault(new, set()).add(t)
        for new, olds in turned.items():
            for old in olds:
                if "-" in old and len(olds) > 1:
                    found[old] = new + ("_case" if old in made else "_lem")
    OTHER.update(found)


WALK = "Rattle.walk.specs.Walk"


def clauses():
    """`result` is what a clause calls the function's own: the walk's is `walk_result`, and the clauses that stood beside it lose their star."""
    changed = 0
    for p in files():
        with open(p, encoding="utf-8") as f:
            text = f.read()
        aliases = set(re.findall(r"use " + re.escape(WALK) + r" as (\w+)", text))
        has = any("result" in re.split(r"[,\s]+", items) for items in re.findall(r"use " + re.escape(WALK) + r"\.\{([^}]*)\}", text))
        has = has or p.endswith("crates/walk/specs/Walk.antt")
        if not has and not aliases:
            continue
        tokens = TOKEN.findall(text)
        out = []
        for i, t in enumerate(tokens):
            if t == "result":
                before = tokens[i - 1] if i else ""
                if (before != "." and has) or (before == "." and tokens[i - 2] in aliases):
                    t = "walk_result"
            out.append(t)
        made = "".join(out)
        if p.endswith(".rt"):
            made = re.sub(r"ensures\* \{ λ (\w+)\. ⌜ (.*) ⌝ \}$", lambda m: "ensures { " + re.sub(r"\b" + m.group(1) + r"\b(?!\.)(?<!\.)", "result", m.group(2)) + " }", made, flags=re.M)
        if made != text:
            changed += 1
            with open(p, "w", encoding="utf-8") as f:
                f.write(made)
    return changed


EXPR = "Rattle.walk.specs.Expr"
OPS = "+-*/"


def operators():
    """The operators of the walk's expressions get names of their own: `a + b` of `Expr` is `a +ᵉ b`, as the library's float orders end in `ᶠ`."""
    changed = 0
    for p in files():
        with open(p, encoding="utf-8") as f:
            text = f.read()
        its = set()
        for items in re.findall(r"use " + re.escape(EXPR) + r"\.\{([^}]*)\}", text):
            its |= {o for o in OPS if f"◌{o}◌" in re.split(r"[,\s]+", items)}
        if p.endswith("crates/walk/specs/Expr.antt"):
            its = set(OPS)
        aliases = set(re.findall(r"use " + re.escape(EXPR) + r" as (\w+)", text))
        if not its and not aliases:
            continue
        lines = []
        is_code = p.endswith(".rt")
        use = ""
        for line in text.split("\n"):
            ghost = re.match(r"\s*(?:pub )?(?:ghost use|requires|ensures)\b", line)
            if is_code and not ghost or line.lstrip().startswith(("--", "//")):
                lines.append(line)
                continue
            if re.match(r"\s*(?:pub )?(?:ghost )?use ", line) or use:
                use += line
                if use.split("use ", 1)[1].startswith(EXPR + ".{"):
                    for o in its:
                        line = line.replace(f"◌{o}◌", f"◌{o}ᵉ◌")
                if "{" not in use or "}" in use:
                    use = ""
                lines.append(line)
                continue
            for o in its:
                e = re.escape(o)
                line = re.sub(r"(?<![\w.])◌" + e + "◌", f"◌{o}ᵉ◌", line)
                line = re.sub(r"(?<=\s)" + e + r"(?=\s|$)", o + "ᵉ", line)
            for a in aliases:
                for o in OPS:
                    line = line.replace(f"{a}.◌{o}◌", f"{a}.◌{o}ᵉ◌")
            lines.append(line)
        made = "\n".join(lines)
        if made != text:
            changed += 1
            with open(p, "w", encoding="utf-8") as f:
                f.write(made)
    return changed


def respell(text, mine):
    return "".join(snake(t) if t in mine and NAME.match(t) else t for t in TOKEN.findall(text))


def chain_head(tokens, i):
    """The first word of the path that ends at token i."""
    while i > 1 and tokens[i - 1] == ".":
        i -= 2
    return tokens[i]


def ghost(tokens, i):
    """Whether token i of a .rt file stands in a ghost item or a clause."""
    j = i
    depth = 0
    while j >= 0:
        t = tokens[j]
        if t == "}":
            depth += 1
        elif t == "{":
            if depth == 0:
                k = j - 1
                line = []
                while k >= 0 and tokens[k] not in "\n;":
                    line.append(tokens[k])
                    k -= 1
                text = "".join(reversed(line)).strip()
                if re.match(r"^(pub )?(ghost use|ghost invariant|ghost \w+|requires|ensures|also_owns)\b", text):
                    return True
                depth = 0
            else:
                depth -= 1
        elif depth == 0 and t == ";" :
            return False
        elif depth == 0 and t == "\n":
            pass
        j -= 1
        if i - j > 4000:
            return False
    line = []
    k = i - 1
    return False


if __name__ == "__main__":
    main()
