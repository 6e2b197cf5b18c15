#!/usr/bin/env python3
"""Respells the repository's own antt names, run once behind port.py: a dash in a name becomes '_'.

usage: tools/snake_names.py ROOT LIBRARY [--apply]

Names of the library (LIBRARY holds its sources) keep their dashes, and so do the names that Rattle makes (Need-.., returns-2). A name that
both the library and this repository declare is respelled in the files that declare it or import it from a crate of this repository.
Comments are respelled between backticks alone. Prints the names that would fall together in one file; with --apply it writes.
"""
import collections
import os
import re
import sys

TOKEN = re.compile(r"[^\s(){}\[\],;.:\"«»@\\‵]+")
MADE = re.compile(r"^(Need|Loop|loop|returns|overflow)-")
DECLARED = r"([^\s(){}\[\],;.:\"«»@]*-[^\s(){}\[\],;.:\"«»@]*)(?=(?: [^\s(){}:,]+)*\s*(?:\{[^}]*\}\s*)*:)"
DASHED = re.compile(r"[\w'αβγℕℤ]-[\w]")


# A lemma whose name would fall together with a word of the library that it is about.
APART = {"non-neg": "is_non_neg"}


def respelled(name):
    return APART.get(name, name.replace("-", "_"))


def texts(top, ends):
    for folder, folders, files in os.walk(top):
        folders[:] = sorted(f for f in folders if f not in ("out", ".git"))
        for f in sorted(files):
            if f.endswith(ends):
                yield os.path.join(folder, f)


def read(path):
    with open(path, encoding="utf-8", errors="replace") as f:
        return f.read()


def code_of(line):
    """The line's code and its comment."""
    m = re.search(r"(^|\s)--(?=\s|$)", line)
    return (line, "") if not m else (line[: m.start()], line[m.start() :])


def main(root, library, apply):
    lib = set()
    for p in texts(library, ".antt"):
        lib.update(re.findall(DECLARED, read(p)))
    own, seen = set(), set()
    antt = list(texts(os.path.join(root, "crates"), ".antt"))
    for p in antt:
        for line in read(p).split("\n"):
            code, _ = code_of(line)
            own.update(re.findall(DECLARED, code))
            seen.update(w for w in TOKEN.findall(code) if DASHED.search(w))
    plain = {w for w in seen if w not in lib and not MADE.match(w)}
    both = {w for w in seen if w in lib and w in own and not MADE.match(w)}
    fell = collections.defaultdict(set)

    def turn(code, names):
        def one(m):
            w = m.group(0)
            return respelled(w) if w in names else w

        return TOKEN.sub(one, code)

    def comment(text, names):
        return re.sub(r"`([^`]*)`", lambda m: "`" + turn(m.group(1), names) + "`", text)

    for p in antt + list(texts(os.path.join(root, "crates"), ".rt")):
        t = read(p)
        here = set(plain)
        if p.endswith(".antt"):
            for w in both:
                if re.search(r"(?m)^[ \t]*(?:pub |abbrev |opaque )*" + re.escape(w) + r"(?: [^\s(){}:,]+)*\s*(?:\{[^}]*\}\s*)*:", t) or re.search(r"(?s)use Rattle\.[^\s{]*\{[^}]*(?<![^\s{,])" + re.escape(w) + r"(?![^\s},])[^}]*\}", t):
                    here.add(w)
            lines = []
            for line in t.split("\n"):
                code, rest = code_of(line)
                lines.append(turn(code, here) + comment(rest, here))
            new = "\n".join(lines)
        else:
            for w in both:
                if re.search(r"(?s)ghost use Rattle\.(?!std)[^\s{]*\{[^}]*(?<![^\s{,])" + re.escape(w) + r"(?![^\s},])[^}]*\}", t):
                    here.add(w)
            parts = re.split(r'("(?:[^"\\]|\\.)*"|//[^\n]*)', t)
            for i in range(len(parts)):
                if i % 2 == 0:
                    parts[i] = turn(parts[i], here)
                elif parts[i].startswith("//"):
                    parts[i] = comment(parts[i], here)
            new = "".join(parts)
        words = set(TOKEN.findall("\n".join(code_of(l)[0] for l in t.split("\n")))) if p.endswith(".antt") else set()
        for w in words:
            if w in here and respelled(w) in words:
                fell[w].add(p)
        if apply and new != t:
            with open(p, "w", encoding="utf-8") as f:
                f.write(new)
    for w in sorted(fell):
        print("fall together:", w, *sorted(fell[w])[:5])
    print(len(plain), "names respelled,", len(both), "respelled where they are the repository's own")


if __name__ == "__main__":
    main(sys.argv[1], sys.argv[2], "--apply" in sys.argv[3:])
