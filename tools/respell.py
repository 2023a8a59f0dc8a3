#!/usr/bin/env python3
"""Spells the repository's own definitions and lemmas in snake case: no dash and no hump inside a name.

    tools/respell.py            at the top of the repository, once, behind the kit's port.py

Names of the library keep their spelling: a name that a file imports from a module outside `Rattle.CRATE` is left as it is in that file.
Names that Rattle makes (goals, steps) are left in the folders of the functions' proofs. Functions of src/, exported names, strings,
inputs and outputs have no dash and no hump that stands in specs/ or proofs/, and are not touched. Names that fall together are told.
"""
import os
import re
import sys

TOP = os.getcwd()
WORD = re.compile(r"[^\s(){}\[\].,;:`\"]+")
OWN_USE = re.compile(r"^\s*(?:pub |ghost )*use (Rattle\.[\w.'+-]+?)\.\{([^{}]*)\};?\s*$", re.S)
ANY_USE = re.compile(r"^\s*(?:pub |ghost )*use ([^\s{}]+?)\.\{([^{}]*)\};?\s*$")
DEF = re.compile(r"^\s*(?:abbrev |unfoldable )*(?:pub )?((?:[^\s(){}\[\].,;:]+ )+): ")
OUTER = re.compile(r"^(?:abbrev |unfoldable )*(?:pub )?(?:record|data|module) (\S+)")


# Lemmas about a word of the same name, which are spelled like it once the hump is gone. A lemma that would have its function's name ends
# in `_lem`.
LEMMAS = {("house", "some_of"), ("fitting", "kind_fits"), ("fitting", "link_fits"), ("term_reading", "is_digit")}
# A field that says how long a list is, beside the word for that length; the cases of an enum beside a word for one of its values.
GIVEN = {"rows-size": "rows_sized", "rig-fact": "rig_case", "rule-fact": "rule_case"}


def crates():
    with open(os.path.join(TOP, "crates.txt"), encoding="utf-8") as f:
        for line in f:
            line = line.split("#")[0].strip()
            if line:
                yield line.split(":")[0].split()[0]


def files(kinds):
    for c in crates():
        for folder, dirs, names in os.walk(os.path.join(TOP, "crates", c)):
            dirs[:] = sorted(d for d in dirs if d != "out")
            for n in sorted(names):
                if n.endswith(kinds):
                    yield os.path.join(folder, n)


def odd(name):
    return bool(re.search(r"[\w'₀-₉]-[\w']", name)) or bool(re.match(r"[a-z][a-z0-9_]*[A-Z]", name))


words = set()


def snake(name):
    if name in GIVEN:
        return GIVEN[name]
    if "-" in name and plainly(name) in words:
        return plainly(name) + "_lem"
    return plainly(name)


def plainly(name):
    name = name.replace("-", "_")
    if re.match(r"[a-z]", name):
        name = re.sub(r"(?<=[a-z0-9])([A-Z])", lambda m: "_" + m.group(1).lower(), name)
    return name


def in_function(path):
    rel = os.path.relpath(path, TOP).split(os.sep)
    return rel[2] == "proofs" and len(rel) > 4


def code_of(line):
    at = line.find("--")
    if at >= 0 and (at == 0 or line[at - 1] in " ("):
        return line[:at], line[at:]
    return line, ""


def use_lists(text):
    for m in re.finditer(r"^\s*(?:pub |ghost )*use ([^\s{};]+?)\.\{([^{}]*)\}", text, re.M):
        yield m.group(1), [x.strip() for x in m.group(2).split(",") if x.strip()]


def imported(text, own_crates):
    """Names that a file takes from elsewhere than this repository, and those that it takes from it."""
    outside, own = set(), set()
    for module, names in use_lists(text):
        mine = module.startswith("Rattle.") and module.split(".")[1] in own_crates
        for n in names:
            parts = n.split(" as ")
            if mine:
                own.add(parts[0].strip())
                own.update(p.strip() for p in parts[1:])
            else:
                outside.add(parts[0].strip())
                own.update(p.strip() for p in parts[1:])
    return outside, own


def definitions(path, text):
    found = set()
    for line in text.split("\n"):
        code, _ = code_of(line)
        m = DEF.match(code)
        if m:
            rest = code[m.end():].lstrip()
            if in_function(path) and re.match(r"(tie|goal)\.|[\w-]+\.(Need|invariant|decreases)", rest):
                continue
            found.update(x for x in m.group(1).split() if odd(x))
    return found


def goals(text):
    """Names that answer a goal in a proof file of a function."""
    found = set()
    for line in text.split("\n"):
        code, _ = code_of(line)
        m = DEF.match(code)
        if m and re.match(r"\(?[\w+'-]*\.?(Need-|invariant-|decreases-)", code[m.end():].lstrip()):
            found.update(m.group(1).split())
        elif m and re.search(r"\btie\.|\bNeed-|\bgoal\.", code[m.end():]) and not re.search(r"→", code[m.end():]):
            found.update(m.group(1).split())
    return found


def turn(text, change):
    """Each word of a text, as change says, given the sign before it."""
    out, at = [], 0
    for m in WORD.finditer(text):
        out.append(text[at:m.start()])
        before = text[m.start() - 1] if m.start() else ""
        out.append(change(m.group(0), before))
        at = m.end()
    out.append(text[at:])
    return "".join(out)


def main():
    own_crates = set(crates())
    texts, known = {}, set()
    for p in files((".antt",)):
        with open(p, encoding="utf-8") as f:
            texts[p] = f.read()
        known |= definitions(p, texts[p])
    words.update(plainly(x) for x in known if re.match(r"[a-z]+[A-Z]", x) and "-" not in x)
    said = 0
    for p in files((".antt", ".rt", ".edit")):
        with open(p, encoding="utf-8") as f:
            text = f.read()
        outside, own = imported(text, own_crates)
        antt, walked = p.endswith(".antt"), in_function(p)
        kept = goals(text) if walked else set()
        mine = definitions(p, text) if antt else set()
        turned = {}

        crate = os.path.relpath(p, TOP).split(os.sep)[1]

        def change(word, before):
            if antt and before != "." and (crate, word) in LEMMAS:
                return word + "_lem"
            if not odd(word) or word in kept:
                return word
            if before == ".":
                if word not in known:
                    return word
            elif word in outside:
                return word
            elif not antt:
                if word not in known or (p.endswith(".rt") and word not in own):
                    return word
            elif walked and word not in own and word not in mine and not word.endswith("-spec"):
                return word
            turned.setdefault(snake(word), set()).add(word)
            return snake(word)

        lines = []
        for line in text.split("\n"):
            if p.endswith(".rt"):
                at = line.find("//")
                code, note = (line, "") if at < 0 else (line[:at], line[at:])
            elif p.endswith(".edit"):
                code, note = line, ""
            else:
                code, note = code_of(line)
            if re.match(r"\s*(?:pub |ghost )*use [^{]*$", code) and " as " not in code:
                lines.append(line)
                continue
            parts = re.split(r"(\"[^\"]*\")", code) if p.endswith(".rt") else [code]
            code = "".join(x if x.startswith('"') else turn(x, change) for x in parts)
            note = re.sub(r"`[^`]*`", lambda m: turn(m.group(0), lambda w, b: snake(w) if odd(w) and w in known and w not in outside else w), note)
            lines.append(code + note)
        new = "\n".join(lines)
        before = {m.group(0) for m in WORD.finditer(text)}
        for to, froms in sorted(turned.items()):
            if len(froms) > 1 or to in before:
                print(f"together: {os.path.relpath(p, TOP)}: {', '.join(sorted(froms))} and {to}")
                said += 1
        if new != text:
            with open(p, "w", encoding="utf-8") as f:
                f.write(new)
    print(f"names: {len(known)}; fall together: {said}")


if __name__ == "__main__":
    sys.exit(main())
