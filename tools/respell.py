#!/usr/bin/env python3
"""Brings the repository's own definitions and lemmas to today's spelling: words in snake case, types and modules in camel case, and a dash only
between two names of definitions. Run once, at the top, after the kit's port.py:

    tools/respell.py           respells specs/, proofs/, clauses and imports of src/, and names in backticks in README and docs/
    tools/respell.py --list    only prints what it would respell

Functions of src/, exported names, strings, inputs and outputs keep their names. A new spelling that is taken already gets `_lem`."""
import collections
import glob
import re
import sys

SIGNATURE = re.compile(r"^\s*(?:(?:abbrev|pub|unfoldable)\s+)*((?:[^\s:(){}\[\],;.=λ|]+\s+)+):\s")
CONSTRUCTOR = re.compile(r"^\s*\|?\s*([^\s:(){}\[\],;.=λ|]+)\s*:\s")
TOKEN = re.compile(r"[^\s(){}\[\],;.λ\"`:]+")
WORDS = {"pub", "abbrev", "unfoldable", "record", "data", "module", "where", "let", "in", "|", "use", "ruleset"}
KEPT = {"is-inf"}
# Definitions that no clause of src/ cites by a bare name: a parameter or field of the same spelling hides them nowhere.
UNCITED = {"twoNyquist", "windowGates", "skipBetweenRays", "skipAlongRay"}
# Definitions whose laws are named by both, as in `seg-put_below`.
JOINED = {"map", "length", "get_or", "take", "drop", "set", "seg", "put", "upto", "tabulate", "cond"}


def antt_files():
    return sorted(glob.glob("crates/*/specs/**/*.antt", recursive=True) + glob.glob("crates/*/proofs/**/*.antt", recursive=True))


def of_function(path):
    """Whether the file is the proof of one function: its own names are its answers."""
    return path.endswith("/Proof.antt")


def lines_of(path):
    with open(path, encoding="utf-8") as file:
        return file.read().split("\n")


def signature_names(path):
    for line in lines_of(path):
        if line.strip().startswith("--") or line.startswith("use "):
            continue
        match = SIGNATURE.match(line)
        if match:
            for name in match.group(1).split():
                if name not in WORDS:
                    yield name


def foreign_names(crates):
    """Names that some file imports from outside the repository."""
    found = set()
    paths = antt_files() + sorted(glob.glob("crates/*/src/**/*.rt", recursive=True))
    for path in paths:
        for line in lines_of(path):
            match = re.match(r"^(?:ghost )?use ([^{;]*)\.\{([^}]*)\}", line)
            if not match:
                continue
            head = match.group(1)
            if head.startswith("Rattle.") and head.split(".")[1] in crates:
                continue
            for item in match.group(2).split(","):
                words = item.split()
                if words:
                    found.add(words[0])
                    found.add(words[-1])
    return found


def snake(part):
    return re.sub(r"(?<=[a-z0-9])([A-Z])", lambda m: "_" + m.group(1).lower(), part)


def respelled(name, known):
    if name[0].isupper():
        parts = name.split("-")
        return "_".join(parts) if len(parts) > 1 and all(parts) and not set(parts[1:]) & known else name
    parts = [snake(part.replace("getD", "get_or")) if re.search("[a-z]", part) else part for part in name.split("-")]
    if not all(parts):
        return name
    out = parts[0]
    for left, right in zip(parts, parts[1:]):
        out += ("-" if left in known and right in known else "_") + right
    return out


def rust_names():
    """Parameters, fields and locals of src/: a definition of such a name would be hidden by it. Names of functions hide nothing."""
    found = set()
    for path in glob.glob("crates/*/src/**/*.rt", recursive=True):
        for line in lines_of(path):
            found.update(re.findall(r"\b([a-z_0-9]+):\s", line))
            found.update(re.findall(r"\blet (?:mut )?([a-z_0-9]+)\b", line))
    return found


def function_names():
    return {name for path in glob.glob("crates/*/src/**/*.rt", recursive=True)
            for line in lines_of(path) for name in re.findall(r"\bfn ([a-z_0-9]+)", line)}


def mapping():
    crates = {path.split("/")[1] for path in glob.glob("crates/*/src")}
    foreign, hidden = foreign_names(crates), rust_names()
    own, tokens = collections.OrderedDict(), set()
    for path in sorted(antt_files(), key=lambda path: ("/specs/" not in path, path)):
        if not of_function(path):
            for name in signature_names(path):
                own[name] = True
    for path in antt_files():
        for line in lines_of(path):
            tokens.update(TOKEN.findall(line))
    names, taken = {}, foreign | hidden | (tokens - set(own) - function_names())
    camel = [name for name in own if "-" not in name and re.search("[a-z0-9][A-Z]", name)]
    plain = [name for name in own if "-" not in name and not re.search("[a-z0-9][A-Z]", name)]
    for name in camel + plain + [name for name in own if "-" in name]:
        if name in foreign or name in KEPT:
            continue
        new = respelled(name, JOINED)
        while new in taken and name not in UNCITED:
            if new == name and name in plain and name not in names.values():
                break
            new += "_lem"
        taken.add(new)
        if new != name:
            names[name] = new
    return names


def turn(text, names):
    return TOKEN.sub(lambda m: names.get(m.group(0), m.group(0)), text)


def turn_antt(text, names):
    """Code whole; of a comment names in camel case and those in backticks."""
    out = []
    for line in text.split("\n"):
        match = re.search(r"(^|\s)--(\s|$)", line)
        if not match:
            out.append(turn(line, names))
        else:
            out.append(turn(line[:match.start()], names) + turn_camel(turn_page(line[match.start():], names), names))
    return "\n".join(out)


def turn_rt(text, names):
    """Clauses and imports: text between `ghost use`, `requires` or `ensures` and the end of the clause."""
    out, depth, inside = [], 0, False
    for line in text.split("\n"):
        head = line.lstrip()
        if head.startswith("ghost use "):
            line = turn(line, names)
        elif inside or re.match(r"(requires|ensures|ghost)\b", head):
            inside = True
            line = turn(line, names)
            depth += line.count("{") - line.count("}")
            if depth <= 0:
                inside, depth = False, 0
        elif head.startswith("//"):
            line = turn_camel(line, names)
        out.append(line)
    return "\n".join(out)


def turn_camel(line, names):
    return TOKEN.sub(lambda m: names[m.group(0)] if m.group(0) in names and re.search("[a-z0-9][A-Z]", m.group(0)) else m.group(0), line)


def turn_page(text, names):
    return re.sub(r"`[^`\n]*`", lambda m: turn(m.group(0), names), text)


def main():
    names = mapping()
    if "--list" in sys.argv:
        for old, new in names.items():
            print(old, new)
        return
    for path in antt_files():
        rewrite(path, lambda text: turn_antt(text, names))
    for path in glob.glob("crates/*/src/**/*.rt", recursive=True):
        rewrite(path, lambda text: turn_rt(text, names))
    for path in ["README.md"] + glob.glob("docs/**/*.md", recursive=True):
        rewrite(path, lambda text: turn_page(text, names))


def rewrite(path, change):
    with open(path, encoding="utf-8") as file:
        text = file.read()
    new = change(text)
    if new != text:
        with open(path, "w", encoding="utf-8") as file:
            file.write(new)


if __name__ == "__main__":
    main()
