#!/usr/bin/env python3
"""Brings the repository's own definitions and lemmas to snake case, once, right after the kit's port.py.

usage: python3 tools/snake_names.py [--dry]      at the top of the repository

Renamed are the names that the .antt files of specs/ and proofs/ declare (definitions, lemmas, constructors, fields of records of antt),
where they are in mixed case (`sheetOf`, now `sheet_of`) or have dashes (`count-read`, now `count_read`). Types and modules keep their names,
and so does all that Rust source names: functions, structs, fields, strings. Names that a file imports from a library are left in that file.
"""
import collections, os, re, subprocess, sys

TOKEN = re.compile(r"[A-Za-z_\u0370-\u03ff\u2080-\u209c0-9][A-Za-z0-9_'\u2032\u2070-\u209c\u0370-\u03ff-]*")
MARKS = {"pattern", "unfoldable", "abbrev", "pub", "instance"}


def own(path):
    return path.startswith("crates/") and "/out/" not in path


def listed():
    out = subprocess.run(["git", "ls-files", "--cached", "--others", "--exclude-standard", "crates"], capture_output=True, text=True, check=True).stdout.split()
    return [p for p in out if own(p) and os.path.isfile(p)]


def is_mixed(n):
    return n[0].islower() and re.search(r"[a-z0-9\u2080-\u2089][A-Z]", n)


def snake(n):
    n = re.sub(r"([a-z0-9\u2080-\u2089])([A-Z])", lambda m: m[1] + "_" + m[2].lower(), n)
    return n.replace("-", "_")


def declared(text):
    """The names that a file declares at a line `NAMES : ..` (also `pub NAMES : ..`, nested ones too)."""
    for line in text.split("\n"):
        if line.lstrip().startswith("--"):
            continue
        head, colon, _ = line.partition(" : ")
        if not colon:
            if line.endswith(" :"):
                head = line[:-2]
            else:
                continue
        words = head.split()
        while words and words[0] in MARKS:
            words.pop(0)
        if words and all(TOKEN.fullmatch(w) for w in words):
            yield from words


def imported(text):
    """The names that a file takes from libraries that are not this repository's."""
    found = set()
    for m in re.finditer(r"(?m)^\s*(?:ghost )?use ([^\s.]+(?:\.[^\s.{]+)*)\.\{([^}]*)\}", text):
        first = m[1].split(".")[:2]
        if first[0] == "Rattle" and first[1] in CRATES:
            continue
        for w in m[2].split(","):
            w = w.strip()
            if w:
                found.add(w.split(" as ")[-1].strip())
                found.add(w.split(" as ")[0].strip())
    return found


def turned(text, names, skip, comment):
    """The text with the names replaced; in comments only between backticks, and mixed names everywhere."""
    out = []
    for line in text.split("\n"):
        cut = line.find(comment)
        if cut >= 0 and (cut == 0 or line[cut - 1] in " \t"):
            code, note = line[:cut], line[cut:]
        else:
            code, note = line, ""
        put = lambda m: names[m[0]] if m[0] in names and m[0] not in skip else m[0]
        code = TOKEN.sub(put, code)
        note = re.sub(r"`[^`]*`", lambda q: TOKEN.sub(put, q[0]), note)
        note = TOKEN.sub(lambda m: names[m[0]] if m[0] in names and m[0] not in skip and is_mixed(m[0]) else m[0], note)
        out.append(code + note)
    return "\n".join(out)


def main():
    global CRATES
    if os.path.exists("docs/PORT.md"):
        sys.exit("snake_names: docs/PORT.md is there, so this repository has its names; a second run would turn names of goals")
    files = listed()
    CRATES = {p.split("/")[1] for p in files}
    read = {p: open(p, encoding="utf-8").read() for p in files if p.endswith((".antt", ".rt"))}
    all_names, names = set(), {}
    for p, t in read.items():
        if p.endswith(".antt"):
            all_names.update(declared(t))
    for n in all_names:
        if (is_mixed(n) or "-" in n) and not n[0].isupper():
            names[n] = snake(n)
    # Names that fall together: the definition (in mixed case, or spelled so already) has the plain name, the lemma gets `_lem`.
    back = collections.defaultdict(set)
    for n in all_names:
        back[names.get(n, n)].add(n)
    plain = {}
    for k, v in sorted(back.items()):
        if len(v) == 1:
            continue
        first = ([n for n in sorted(v) if is_mixed(n)] or [k])[0]
        for n in sorted(v - {first}):
            print("falls together:", k, sorted(v), "and so", n, "is", k + "_lem")
            if n == k:
                plain[n] = k + "_lem"
            else:
                names[n] = k + "_lem"
    if "--dry" in sys.argv:
        for n in sorted(names):
            print(n, names[n])
        return
    for p, t in read.items():
        # A name that a library has too is left where the file takes it from there.
        out = imported(t)
        for n in sorted(names):
            if names[n] in out and n not in out and re.search(r"(?<![\w'-])" + re.escape(n) + r"(?![\w'-])", t):
                print(f"look: {p}: {n} becomes {names[n]}, which the file takes from a library")
        if p.endswith(".antt"):
            # A name spelled so already that makes room, where it is declared or brought in; Rust functions of that name keep it.
            for n in plain:
                if n in set(declared(t)) or any(n in [w.strip() for w in m[1].split(",")] for m in re.finditer(r"(?m)^use [^{]*\{([^}]*)\}", t)):
                    t = "\n".join(l if l.startswith("--") else re.sub(r"(?<![.\w'-])" + n + r"(?![\w'.-])", plain[n], l) for l in t.split("\n"))
        new = turned(t, names, out, "--" if p.endswith(".antt") else "//")
        if new != read[p]:
            open(p, "w", encoding="utf-8").write(new)
    print(f"{len(names)} names turned")


main()
