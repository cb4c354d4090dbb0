#!/usr/bin/env python3
"""Brings the names of specs/ and proofs/ to today's spelling: words in snake case, types in upper camel case.

usage: python3 tools/respell.py    at the top of the repository, once, right after the kit's port.py

Names of the kit's library, of src/ and of strings keep their spelling. A lemma that would have the name of the
function that it speaks of gets _lem after it. Prints each name that it changed otherwise than by case and dashes.
"""

import collections
import os
import re
import subprocess

# In a clause `result` is what a function returns.
FIXED = {"result": "result_of", "jobRel": "JobRelAt"}
RENAMED_FILES = [
    ("crates/taskgraph_heard/specs/Contracts.antt", "crates/taskgraph_heard/specs/Interface.antt"),
]
TOKEN = re.compile(r"[^\s(){}\[\],;.\"`:]+|[\s(){}\[\],;.\"`:]")
NAME = r"[\w'₀-₉]"
CAMEL = re.compile(rf"[a-z]{NAME}*[A-Z]{NAME}*(-{NAME}+)*$")
KEBAB = re.compile(rf"[A-Za-z]{NAME}*(-{NAME}+)+$")
USE = re.compile(r"^(?:ghost )?use ([^\s{;]+?)(?:\.\{([^}]*)\}|;|$| as)", re.M)
OWN = re.compile(r"Rattle\.(?!std\b)[a-z]")


def files():
    for folder, dirs, names in os.walk("crates"):
        dirs[:] = sorted(d for d in dirs if d != "out")
        for name in sorted(names):
            if name.endswith((".antt", ".rt", ".edit")):
                yield os.path.join(folder, name)


def comment(line, path):
    """Where a line's comment begins, or its end."""
    found = re.search(r"(^|\s)(--|//)( |$)", line)
    return found.start() if found else len(line)


def code(text, path):
    return "\n".join(line[: comment(line, path)] for line in text.split("\n"))


def words(text):
    return {t for t in TOKEN.findall(text) if not TOKEN.fullmatch(t).group()[0] in " \n\t(){}[],;.\"`:"}


def imported(text):
    """The names that a file takes from the kit."""
    names = set()
    for found in USE.finditer(text):
        if not OWN.match(found.group(1)):
            names |= set(re.split(r"[,\s]+", found.group(2) or "")) - {""}
    return names


def snake(name):
    if re.fullmatch(r"[A-Z][A-Z0-9]*(-[A-Z0-9]+)+", name):
        return name.replace("-", "_")
    if re.match(r"[A-Z]", name):
        return name
    name = name.replace("-", "_")
    name = re.sub(r"([a-z0-9'])([A-Z])", r"\1_\2", name)
    name = re.sub(r"([A-Z])([A-Z][a-z])", r"\1_\2", name)
    return name.lower()


def respelling():
    texts = {p: open(p, encoding="utf-8").read() for p in files()}
    plain = {p: code(t, p) for p, t in texts.items()}
    kit = {p: imported(t) for p, t in plain.items()}
    every_kit = set().union(*kit.values())
    found = {p: words(t) for p, t in plain.items()}
    own = set()
    for p, names in found.items():
        if p.endswith(".antt") and not p.endswith("Proof.antt"):
            own |= names
    own -= every_kit
    turned = {n: snake(n) for n in own if CAMEL.match(n) and n not in FIXED}
    taken = set(turned.values())
    declared = set()
    for p, t in plain.items():
        if p.endswith(".antt") and not p.endswith("Proof.antt"):
            declared |= set(re.findall(r"(?m)^\s*(?:(?:pub|abbrev|unfoldable) )*([a-z][\w']*) :", t))
    # what port.py respelled already, where a function now has the name
    for n in sorted((declared & taken) - every_kit):
        turned[n] = n + "_lem"
    antt = set().union(*(s for p, s in found.items() if p.endswith(".antt")))
    for n in sorted(n for n in own if KEBAB.match(n) and n not in turned):
        to = snake(n)
        if to == n:
            continue
        if to in taken or to in antt or to in every_kit:
            to += "_lem"
        if to in taken:
            raise SystemExit(f"{n}: {to} is taken")
        taken.add(to)
        turned[n] = to
    return texts, kit, turned


def turn(text, path, table, fixed):
    out = []
    for line in text.split("\n"):
        cut = comment(line, path)
        parts, quoted, last = [], False, ""
        for token in TOKEN.findall(line[:cut]):
            quoted ^= token == '"'
            if not quoted:
                if token in fixed and last != ".":
                    token = fixed[token]
                else:
                    token = table.get(token, token)
            parts.append(token)
            last = token
        said = re.sub(r"`[^`]*`", lambda m: "".join(table.get(t, t) for t in TOKEN.findall(m.group())), line[cut:])
        said = re.sub(rf"(?<![\w`'-])[a-z]{NAME}*[A-Z]{NAME}*", lambda m: table.get(m.group(), m.group()), said)
        out.append("".join(parts) + said)
    return "\n".join(out)


CLAUSE = re.compile(r"(ensures|requires)\* \{ λ (\w+)\. ⌜(.*?)⌝ \}", re.S)


def bare(match):
    """A clause without its λ: the result is called `result`."""
    body = re.sub(rf"(?<![\w.']){match.group(2)}(?![\w'])", "result", match.group(3)) if match.group(2) != "_" else match.group(3)
    return f"{match.group(1)} {{ {body.strip()} }}"


def main():
    texts, kit, turned = respelling()
    for n in sorted(n for n in turned if turned[n] != snake(n)):
        print(f"{n} -> {turned[n]}")
    for path, text in texts.items():
        plain = code(text, path)
        table = {n: to for n, to in turned.items() if n not in kit[path]}
        if path.endswith(("Proof.antt", ".rt")):
            table = {n: to for n, to in table.items() if CAMEL.match(n) or KEBAB.match(n)}
        runs = "result" in words(plain) and (re.search(r"Runs\.\{[^}]*\bresult\b", plain) or path.endswith("def_terms/specs/Runs.antt"))
        fixed = FIXED if runs or path.endswith(".edit") and "result r" in plain else {"jobRel": "JobRelAt"}
        new = turn(text, path, table, fixed)
        if path.endswith(".rt"):
            new = CLAUSE.sub(bare, new)
        for old, to in RENAMED_FILES:
            a, b = (os.path.splitext(os.path.basename(n))[0] for n in (old, to))
            crate = old.split("/")[1]
            new = new.replace(f"Rattle.{crate}.specs.{a}.", f"Rattle.{crate}.specs.{b}.")
            if path == f"crates/{crate}/specs/Lib.antt":
                new = new.replace(f"pub mod {a}\n", f"pub mod {b}\n")
            if path.startswith(f"crates/{crate}/"):
                new = new.replace(f"{a}.antt asks", f"{b}.antt asks")
        if new != text:
            with open(path, "w", encoding="utf-8") as f:
                f.write(new)
    for old, to in RENAMED_FILES:
        os.rename(old, to)
    for crate in sorted(os.listdir("crates")):
        subprocess.run(["rt", "fmt"], cwd=os.path.join("crates", crate), capture_output=True, check=False)


if __name__ == "__main__":
    main()
