#!/usr/bin/env python3
"""Brings the definitions and lemmas of the repository's own .antt files to snake case, in .antt, .rt and .edit files below crates/ and in the pages, once, after the scripts of the
kit's port. usage: python3 tools/names.py [--list]      at the top of the repository.

A dash stays only where it joins two names: in a lemma each of whose parts is the name of a definition, and in names that the kit declares or that Rattle makes
(what only proofs/F/Proof.antt declares)."""
import os
import re
import sys

TOKEN = re.compile(r"[^\s(){}\[\],;.«»⟨⟩\"⌜⌝|@`:]+")
SIGNATURE = re.compile(r"^(\s*)((?:(?:abbrev|unfoldable|pattern|pub|axiom|syntax)\s+)*)([^\s:(){}\[\],;\"]+)(?:\s*[({][^:]*?[)}])*\s+:(?=\s|$)")
DATA = re.compile(r"^\s*(?:pub\s+)?(?:data|record|class)\s+([^\s:(){}]+)")
# operators and plain words that stand in the names of lemmas beside definitions
WORDS = set("length take drop map append reverse set sum and or not zero suc one add mul sub neg le lt eq ne mem true false nil cons div mod pow abs get_or min max".split())


def files(*endings):
    for folder, dirs, names in os.walk("crates"):
        dirs[:] = sorted(d for d in dirs if d != "out")
        for name in sorted(names):
            if name.endswith(endings):
                yield os.path.join(folder, name)


def dashed(word):
    return re.search(r"[\w'₀-₉]-[\w'₀-₉]", word) is not None and not word.startswith("--")


def snake(word):
    return re.sub(r"(?<=[\w'₀-₉])-(?=[\w'₀-₉])", "_", word)


def declared():
    """Of each dashed name that is declared here: whether it is a lemma alone; and the names of definitions."""
    lemma, definitions, kit = {}, set(), set()
    own = {line.split(":")[0].split()[0] for line in open("crates.txt", encoding="utf-8") if line.strip() and not line.startswith("#")}
    for path in files(".antt"):
        walk = path.endswith("Proof.antt")
        text = open(path, encoding="utf-8").read()
        for module, names in re.findall(r"^use ([^\s{]+?)\.?(\{[^}]*\})?$", text, re.M):
            parts = module.split(".")
            if not (parts[0] == "Rattle" and parts[1] in own):
                kit |= set(TOKEN.findall(module.replace(".", " ") + " " + names))
        if walk:
            continue
        for line in text.split("\n"):
            if line.lstrip().startswith("--"):
                continue
            m = SIGNATURE.match(line)
            if m:
                marks, name = m.group(2).split(), m.group(3)
                if "abbrev" in marks or "unfoldable" in marks:
                    definitions.add(snake(name))
                    if dashed(name):
                        lemma[name] = False
                elif dashed(name):
                    lemma.setdefault(name, True)
            for m in re.finditer(r"\blet ([^\s:(){}=]+)", line):
                if dashed(m.group(1)):
                    lemma[m.group(1)] = False
            for m in re.finditer(r"[({]([^(){}:]*?) :(?= )", line):
                for name in m.group(1).split():
                    if dashed(name):
                        lemma[name] = False
    return lemma, definitions, kit


# where the name in snake case is that of a function of src/ cited beside it
OTHERWISE = {"not-negated": "not_negated_number", "sense-size": "size_of_sense"}
QUOTED = re.compile(r"`[^`\n]*`")


def turn(text, turned, ending):
    """The text with the names turned: of code, but not in prose and strings, and in prose what stands in backquotes."""
    name = lambda m: turned.get(m.group(0), m.group(0))
    quoted = lambda t: QUOTED.sub(lambda m: TOKEN.sub(name, m.group(0)), t)
    if ending == ".md":
        return quoted(text)
    lines = []
    for line in text.split("\n"):
        if ending == ".edit":
            lines.append(TOKEN.sub(name, line) if line.startswith(("old:", "new:")) else quoted(line))
            continue
        mark = "//" if ending == ".rt" else "--"
        at = re.search(r"(?:^|(?<=\s))" + mark + r"(?=\s|$)", line)
        code, prose = (line[: at.start()], line[at.start() :]) if at else (line, "")
        parts = re.split(r'("(?:[^"\\\n]|\\.)*")', code)
        lines.append("".join(p if i % 2 else TOKEN.sub(name, p) for i, p in enumerate(parts)) + quoted(prose))
    return "\n".join(lines)


def main():
    lemma, definitions, kit = declared()
    known = definitions | WORDS
    turned = {}
    for name, is_lemma in lemma.items():
        if name in kit:
            continue
        if is_lemma and all(part in known for part in name.split("-")):
            continue
        turned[name] = OTHERWISE.get(name, snake(name))
    paths = list(files(".antt", ".rt", ".edit"))
    texts = {path: open(path, encoding="utf-8").read() for path in paths}
    before = set()
    for text in texts.values():
        before |= set(TOKEN.findall(text))
    for name, new in sorted(turned.items()):
        if new in before:
            print(f"falls together: {name} {new}")
    for name in sorted(n for n in lemma if n not in turned):
        print(f"stays: {name}{' (of the kit)' if name in kit else ''}")
    if "--list" in sys.argv:
        return
    pages = ["README.md"] + [os.path.join("docs", name) for name in sorted(os.listdir("docs")) if name.endswith(".md")]
    texts |= {path: open(path, encoding="utf-8").read() for path in pages}
    for path, text in texts.items():
        new = turn(text, turned, os.path.splitext(path)[1])
        if new != text:
            with open(path, "w", encoding="utf-8") as f:
                f.write(new)
    print(f"{len(turned)} names turned")


main()
