#!/usr/bin/env python3
"""Brings the repository's own definitions and lemmas to today's spelling: run once, behind port.py.

    tools/respell.py [--dry] [FOLDER]

Words are in snake case: the definition `ruleAt` becomes `rule_at`, and the lemma `rule-kept` becomes `rule_kept`. A dash stays
between a definition and a word of the library's lists, as in `bytes-length`. Types and modules keep their capitals. A lemma that
would fall together with a definition gets `_lem`. Names of src/ keep theirs, as do strings and the programs' texts. It goes by
tokens, over specs/, proofs/, the clauses of src/ and the edits of must-fail/, and renames the files Contracts.antt of specs/,
whose name Rattle makes itself, to Phrases.antt.
"""
import collections
import glob
import os
import re
import subprocess
import sys

# words of the library's lists that lemmas are named by
WORDS = set("append length take drop set sets replicate reverse map at".split())
# statements in capitals, beside the records that they speak of
STATEMENTS = {"ALWAYS": "AlwaysHolds", "DEMAND": "DemandHolds", "IN-WORDS": "InWordsHolds", "BY-CODE-POINTS": "ByCodePointsHolds"}
# a token of antt, or of a clause
TOKEN = re.compile(r"[^\s(){}\[\].,;:\"`⌜⌝⟨⟩|&·]+")
DECLARED = re.compile(r"^(\s*)((?:(?:pub|abbrev|unfoldable|record|data|ruleset) )*)([^\s:({\"]+)\s*(?=[:({]|where|=)")
PASSED = ("--", "use ", "mod ", "pub mod ", "open ", "unfolding ", "module ")
# an operator or a number is no name
NAME = re.compile(r"^[^\W\d_]")


def snake(name):
    return re.sub(r"(?<=[a-z0-9])([A-Z])", lambda m: "_" + m.group(1).lower(), name)


def sources(root):
    for kind in ("specs/**/*.antt", "proofs/**/*.antt", "src/**/*.rt", "must-fail/*.edit"):
        yield from sorted(glob.glob(root + "/crates/*/" + kind, recursive=True))


def declared(text):
    """The names that a file declares, each with whether it is a lemma or definition of its own (and no field)."""
    for line in text.splitlines():
        if line.lstrip().startswith(PASSED):
            continue
        m = DECLARED.match(line)
        if m and NAME.match(m.group(3)) and (m.group(2) or re.match(r"^\s*[^\s:({]+ :(?: |$)", line)):
            yield m.group(3)


def foreign(text):
    """The names that a file takes from modules of the library."""
    for m in re.finditer(r"(?m)^(?:ghost )?use ([^\s{]+)\.\{([^}]*)\}", text):
        if not m.group(1).startswith("Rattle.") or m.group(1).startswith("Rattle.std."):
            yield from re.split(r"[\s,]+", m.group(2))


def respelt(name, defined):
    if name in STATEMENTS:
        return STATEMENTS[name]
    parts = [snake(part) if part[:1].islower() else part for part in name.split("-")]
    if name[0].isupper() and len(parts) == 1:
        return name
    if len(parts) == 2 and parts[0] in defined and parts[1] in WORDS:
        return "-".join(parts)
    return "_".join(parts)


def mapping(texts):
    """Old name to new, and for a file the names that fall together there alone."""
    specs, proofs = set(), set()
    turned = {}
    for path, text in texts.items():
        if path.endswith("/Proof.antt"):
            # Rattle gives these their names, but for the proof itself
            turned.update((name, name.replace("-", "_")) for name in declared(text) if re.fullmatch(r"[a-z0-9_\-]+-spec", name))
        elif path.endswith(".antt"):
            (specs if "/specs/" in path else proofs).update(declared(text))
    defined = {snake(n) for n in specs if "-" not in n}
    for name in sorted(specs | proofs):
        new = respelt(name, defined)
        if "-" in name and name not in specs and new in defined and name not in STATEMENTS:
            new += "_lem"
        if new != name:
            turned[name] = new
    by_new = collections.defaultdict(set)
    for old, new in turned.items():
        by_new[new].add(old)
    for new, olds in sorted(by_new.items()):
        lemmas = [old for old in olds if "-" in old and old not in specs]
        if len(olds) > 1 and len(lemmas) < len(olds):
            for old in lemmas:
                turned[old] = new + "_lem"
        elif len(olds) > 1:
            print("two old names for one: %s: %s" % (new, ", ".join(sorted(olds))))
    alone = {}
    for path, text in texts.items():
        if "/proofs/" not in path:
            continue
        tokens = set(TOKEN.findall(text))
        own = set(declared(text))
        for old, new in turned.items():
            if old in tokens and new in own and new not in turned and re.search(r"(?m)^\s*%s( [^:\n]*)? =" % re.escape(new), text):
                alone.setdefault(path, {})[new] = new + "_lem"
    # port.py turned some names in specs/ and proofs/, but in no edit
    for path, text in texts.items():
        if path.endswith(".edit"):
            for token in set(TOKEN.findall(text)):
                if re.match(r"^[a-z]+[a-z0-9]*[A-Z]", token) and snake(token) in specs | proofs and token not in turned:
                    alone.setdefault(path, {})[token] = snake(token)
    return turned, alone


def turn(path, text, turned, alone):
    here = dict(turned, **alone.get(path, {}))
    for name in foreign(text):
        here.pop(name, None)
    in_rust = path.endswith(".rt")

    def line_of(line):
        if in_rust and line.lstrip().startswith("//"):
            return line
        quoted = [m.span() for m in re.finditer(r'"[^"\n]*"', line)] if in_rust else []

        def one(m):
            token = m.group(0)
            # a word of Rust with a minus is no name
            if in_rust and "-" in token and "ghost use" not in line:
                return token
            if any(a <= m.start() < b for a, b in quoted):
                return token
            return here.get(token, token)

        return TOKEN.sub(one, line)

    return "\n".join(line_of(line) for line in text.split("\n"))


def main():
    dry = "--dry" in sys.argv
    rest = [a for a in sys.argv[1:] if not a.startswith("--")]
    root = os.path.abspath(rest[0] if rest else ".")
    texts = {path: open(path, encoding="utf-8").read() for path in sources(root)}
    turned, alone = mapping(texts)
    if dry:
        for old, new in sorted(turned.items()):
            print(old, new)
        for path, names in sorted(alone.items()):
            print(path[len(root) + 1:], names)
        return
    for path, text in texts.items():
        new = turn(path, text, turned, alone)
        # Rattle makes a module `contracts` of its own
        new = re.sub(r"\bspecs\.Contracts\b", "specs.Phrases", new)
        if path.endswith("specs/Lib.antt"):
            new = re.sub(r"(?m)^(pub )?mod Contracts$", r"\1mod Phrases", new)
        if new != text:
            open(path, "w", encoding="utf-8").write(new)
        if path.endswith("/specs/Contracts.antt"):
            subprocess.run(["git", "mv", path, path[: -len("Contracts.antt")] + "Phrases.antt"], cwd=root, check=True)
    print("respell: %d names" % len(turned))


if __name__ == "__main__":
    main()
