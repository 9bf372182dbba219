#!/usr/bin/env python3
"""Brings the names of definitions, fields and lemmas to snake case, once, behind the toolchain's own script.

usage: tools/respell.py        at the top of the repository

Definitions and variables in camel case, and lemmas and fields with a dash, get words joined by '_'. A lemma that would get a definition's
name gets '_lem' behind it. Types, modules, functions of src/, strings and made names, as those of goals and steps, stay.
It stops, and writes nothing, where two names of a file would fall together.
"""
import glob
import re
import sys

# words that the toolchain's script cut in two
WHOLE = {"load_lE": "load_le", "store_lE": "store_le"}
# old words of the library that edits still cite
CITED = {"getD": "get_or"}
CAMEL = re.compile(r"[a-z][a-z0-9_]*[A-Z]")
NAME = r"[A-Za-zΑ-ω_][\w'₀-₉-]*"
TOKEN = re.compile(r"(?<![\w'₀-₉-])" + NAME)
TOP = re.compile(r"(?:abbrev |unfoldable )?(?:pub )?(?:(?:data|record|ruleset) )?([^\s:({]+)\s*:")


def snake(name):
    if name in WHOLE:
        return WHOLE[name]
    if name in CITED:
        return CITED[name]
    name = re.sub(r"(?<=[a-z0-9])([A-Z]+)", lambda m: "_" + m[1].lower(), name)
    return name.replace("-", "_")


def tops(text):
    """The names that stand at the top of a file or of its sections, and the fields of its records."""
    found, fields, within = set(), set(), ""
    for line in text.split("\n"):
        if not line or line.startswith(("--", "use", "pub use")):
            continue
        inner = re.match(r"  (?! )(.*)", line)
        if not line.startswith(" "):
            within = line.split()[0] if not line.startswith("pub ") else line.split()[1]
            m = TOP.match(line)
            if m:
                found.add(m[1])
        elif inner and not inner[1].startswith("--"):
            m = TOP.match(inner[1])
            if m and within == "module":
                found.add(m[1])
            elif m and within in ("record", "data"):
                fields.add(m[1])
    return found, fields


def is_lower(name):
    return name[:1].islower()


paths = sorted(p for p in glob.glob("crates/*/**/*", recursive=True) if p.endswith((".antt", ".rt", ".edit")) and "/out/" not in p)
texts = {p: open(p, encoding="utf-8").read() for p in paths}
specs = {p for p in paths if re.match(r"crates/\w+/specs/", p)}
lemma_files = {p for p in paths if re.match(r"crates/\w+/proofs/\w+\.antt$", p)}
definitions = set().union(*(tops(texts[p])[0] for p in specs))
definitions = {d for d in definitions if is_lower(d)}
new_of = {d: snake(d) for d in definitions}
taken = set(new_of.values())
# constructors too
for p in specs:
    taken |= {snake(n) for n in TOKEN.findall(re.sub("--.*", "", texts[p])) if CAMEL.match(n)}
module_of = {p: ".".join(["Rattle", p.split("/")[1], "proofs", p.split("/")[3][:-5]]) for p in lemma_files}
lemmas = {}
for p in lemma_files:
    lemmas[module_of[p]] = {l: snake(l) + ("_lem" if snake(l) in taken else "") for l in tops(texts[p])[0] if is_lower(l)}
fields = set()
for p in sorted(specs | lemma_files):
    fields |= {f for f in tops(texts[p])[1] if is_lower(f) and ("-" in f or CAMEL.match(f))}
dashed = {d for d in definitions if "-" in d}

USE = re.compile(r"(?m)^(?:ghost )?(?:pub )?use (Rattle\.[\w.+-]+?)(?:\.\{([^}]*)\}| as ([\w-]+))?;?$")


def renames(path, text):
    """The names of lemmas that the file has or brings in, and by which names other modules go in it."""
    found, aliases = {}, {}
    if path in module_of:
        found.update(lemmas[module_of[path]])
    for module, names, alias in USE.findall(text):
        if module in lemmas:
            table = lemmas[module]
            for name in re.split(r",\s*", names or ""):
                name = name.strip().split(" as ")[0]
                if name in table:
                    found[name] = table[name]
            if not names:
                aliases[alias or module.split(".")[-1]] = table
        short = module.rsplit(".", 1)
        if not names and not alias and len(short) == 2 and short[0] in lemmas and short[1] in lemmas[short[0]]:
            found[short[1]] = lemmas[short[0]][short[1]]
    return found, aliases


clashes = []


def turned(path, text):
    found, aliases = renames(path, text) if path.endswith(".antt") else ({}, {})
    seen = {}

    def token(m):
        name, at = m[0], m.start()
        before = text[:at]
        owner = None
        if before.endswith("."):
            w = re.search(r"([\w-]+)\.$", before)
            owner = w[1] if w else ""
        new = name
        if owner is not None and owner in aliases and name in aliases[owner]:
            new = aliases[owner][name]
        elif owner is None and name in found:
            new = found[name]
        elif name in fields and (owner is not None or path.endswith(".antt")):
            new = snake(name)
        elif owner is None and name in dashed:
            new = snake(name)
        elif CAMEL.match(name) and "-" not in name and not (path.endswith(".rt") and re.search(r"[\\0]$", before)):
            new = snake(name)
        if owner is None:
            seen.setdefault(new, set()).add(name)
        return new

    if path.endswith(".rt"):
        # strings, numbers and comments stay
        parts = re.split(r'("(?:[^"\\]|\\.)*"|\b0x[0-9A-Fa-f_]+|//[^\n]*)', text)
        out = []
        for i, part in enumerate(parts):
            text = part
            out.append(part if i % 2 else TOKEN.sub(token, part))
        result = "".join(out)
    else:
        parts = re.split(r"(\b0x[0-9A-Fa-f_]+)", text)
        if path.endswith(".antt"):
            result = TOKEN.sub(token, text)
        else:
            out = []
            for i, part in enumerate(parts):
                text = part
                out.append(part if i % 2 else TOKEN.sub(token, part))
            result = "".join(out)
    for new, olds in seen.items() if path.endswith(".antt") else ():
        if len(olds) > 1:
            clashes.append((path, new, sorted(olds)))
    return result


after = {p: turned(p, t) for p, t in texts.items()}
for c in clashes:
    print("fall together:", *c)
if clashes and "--anyway" not in sys.argv:
    raise SystemExit(1)
for p, t in after.items():
    if t != texts[p]:
        open(p, "w", encoding="utf-8").write(t)
