#!/usr/bin/env python3
"""Brings the repository's own names to today's spelling: a definition's name is in snake case, and a dash joins two names only.

usage: respell.py [--list]      at the top of the repository, once, after the kit's port.py

Renamed are names that a file of specs/ or a file of lemmas in proofs/ declares. Functions of src/, types, modules, strings, inputs and outputs keep their
names. A lemma that would get the name of a definition gets `_lem`. --list prints the names and writes nothing.
"""
import collections
import os
import re
import sys

WORD = re.compile(r'"(?:[^"\\]|\\.)*"|[^\s(){}.;,@"«»\[\]\\]+')
DECLARED = re.compile(r"^(\s*)((?:pub |abbrev |unfoldable )*)((?:[^\s(){}.;,@\"«»\[\]\\:=]+ )+): ")
TYPE = re.compile(r"^\s*(?:pub )?(?:abbrev |unfoldable )?(?:data|record) (\S+)")
# words of std that stand as a part of a lemma's name
STD = set("""length take drop append get_or cons set map eqb leb ltb min max add sub mul div mod not and or nat_abs neg signed toZ ofZ to_z of_z
suc pos negsuc bind option_map range replicate zero filter sum fold update flatten concat pow""".split())


def texts(root, ends):
    for folder, dirs, files in os.walk(root):
        dirs[:] = sorted(d for d in dirs if d not in ("out", ".git", "target"))
        for f in sorted(files):
            if f.endswith(ends):
                yield os.path.join(folder, f)


def snake(word):
    word = re.sub(r"(?<=[a-z0-9])([A-Z])", lambda m: "_" + m.group(1).lower(), word)
    return word.replace("get_d", "get_or")


def in_function(path, root):
    """Whether the file belongs to one function's proof: those names are Rattle's own."""
    return os.path.basename(path) in ("Proof.antt", "Answers.antt", "Invariants.antt") and "/proofs/" in path and path.count("/") > len(root.split("/")) + 2


def declared(root):
    defs, lemmas, types = {}, {}, set()
    for p in texts(os.path.join(root, "crates"), ".antt"):
        below = "/specs/" in p
        own = in_function(p, root)
        with open(p, encoding="utf-8") as f:
            for line in f:
                if re.match(r"\s*(--|use |pub use )", line):
                    continue
                m = TYPE.match(line)
                if m:
                    types.add(m.group(1))
                    continue
                m = DECLARED.match(line)
                if m and not re.match(r"\s*(module|let|in|where)\b", line):
                    for n in m.group(3).split():
                        if own and "-" in n:
                            continue
                        (defs if below else lemmas).setdefault(n, p)
    return defs, lemmas, types


def spelled(name, names):
    parts = [snake(p) for p in re.split(r"[-_]", name)] if "-" in name else [snake(name)]
    if len(parts) == 1:
        return parts[0]
    # parts that are one name with '_' go together, the longest first
    words, at = [], 0
    while at < len(parts):
        end = next((e for e in range(len(parts), at + 1, -1) if "_".join(parts[at:e]) in names and e - at < len(parts)), at + 1)
        words.append("_".join(parts[at:end]))
        at = end
    out = words[0]
    for left, right in zip(words, words[1:]):
        out += ("-" if left in names and right in names else "_") + right
    return out


def table(root):
    defs, lemmas, types = declared(root)
    names = {snake(n) for n in defs if "-" not in n} | STD | {snake(n) for n in lemmas if "-" not in n and re.search("[A-Z]", n)}
    out, taken = {}, {}
    for kind in (defs, lemmas):
        for n in sorted(kind):
            if n in out or not re.match(r"[a-z]", n) or not re.search(r"[-A-Z]", n):
                continue
            out[n] = spelled(n, names)
    every = set(defs) | types | {n for n in lemmas if n not in {snake(d) for d in defs if re.search("[A-Z]", d)}}
    for n in sorted(out, key=lambda n: (n not in defs, n)):
        to = out[n]
        if to == n:
            taken.setdefault(to, n)
            continue
        if to in taken and taken[to] != n or (to in every and to not in out):
            to += "_lem"
            if to in taken or to in every:
                to = n
        out[n] = to
        taken[to] = n
    return {n: t for n, t in out.items() if n != t}


def make_room(root):
    """A lemma whose name a definition takes by its new spelling gets `_lem`, in the file that declares it and in those that import it."""
    defs, lemmas, _ = declared(root)
    wanted = {snake(d) for d in defs if re.search("[A-Z]", d)} & {n for n in lemmas if re.fullmatch("[a-z0-9_]+", n)} - set(defs)
    for p in texts(os.path.join(root, "crates"), ".antt"):
        with open(p, encoding="utf-8", newline="") as f:
            old = f.read()
        here = set()
        for line in old.split("\n"):
            m = DECLARED.match(line)
            if m and not in_function(p, root):
                here |= wanted & set(m.group(3).split())
            m = re.match(r"(?:pub )?use Rattle\.\w+\.proofs\.[\w.]*\.\{(.*)\}", line)
            if m:
                here |= wanted & set(re.split(r", *", m.group(1)))
        if here:
            new = re.sub(r"(?<![\w.'-])[a-z0-9_]+(?![\w.'-])", lambda m: m.group(0) + "_lem" if m.group(0) in here else m.group(0), old)
            with open(p, "w", encoding="utf-8", newline="") as f:
                f.write(new)
            print(p, sorted(here))


def turned(text, names):
    return WORD.sub(lambda m: names.get(m.group(0), m.group(0)), text)


def turned_comment(text, names):
    return re.sub(r"`[^`]*`", lambda m: turned(m.group(0)[1:-1], names).join("``"), text)


def turn(text, path, names):
    mark = "//" if path.endswith(".rt") else "--"
    out = []
    for line in text.split("\n"):
        if path.endswith(".edit"):
            out.append(turned(line, names))
        elif line.lstrip().startswith(mark):
            out.append(turned_comment(line, names))
        else:
            out.append(turned(line, names))
    return "\n".join(out)


def main(argv):
    root = os.getcwd()
    names = table(root)
    if "--list" in argv:
        for n in sorted(names):
            print(n, names[n])
        return 0
    make_room(root)
    for p in texts(os.path.join(root, "crates"), (".antt", ".rt")):
        with open(p, encoding="utf-8", newline="") as f:
            old = f.read()
        new = turn(old, p, names)
        if in_function(p, root):
            # there a field is a step of the code, which keeps its name
            new = re.sub(r"(?<=\.)([a-z]\w*)_lem\b", r"\1", new)
        if new != old:
            with open(p, "w", encoding="utf-8", newline="") as f:
                f.write(new)
    with open(os.path.join(root, "tools", "respelled.tsv"), "w", encoding="utf-8") as f:
        f.writelines(f"{n}\t{names[n]}\n" for n in sorted(names))
    return 0


if __name__ == "__main__":
    raise SystemExit(main(sys.argv[1:]))
