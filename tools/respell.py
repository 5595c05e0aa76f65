#!/usr/bin/env python3
"""Brings the repository's own definitions and lemmas to one spelling: functions, lemmas and fields in
snake case, types and records in upper camel case. Run once at the top, after the toolchain's own script.

A name is turned if one of our .antt files declares it, no library brings it and no goal bears it.
Comments, strings and Rust's own names are left alone.
"""
import os
import re
import sys

NAME = r"[^\W\d][\w']*(?:-[\w']+)+"
TOKEN = re.compile(r"(?<![\w'-])" + NAME + r"(?![\w'-])")
DECLARED = re.compile(r"\s*(?:(?:abbrev|unfoldable|pub|record|data|opaque|mutual) )*([^\W\d][\w'-]*) *(?:\((?!\()|\{|:(?!:))")
IMPORT = re.compile(r"(?m)^(?:ghost )?use ([\w.]+?)\.?\{([^}]*)\}")
GOAL = re.compile(r"goal\.([\w'-]+)")
COMMENT = re.compile(r"\s*(//|--)")


def files():
    for folder, folders, names in os.walk("crates"):
        folders[:] = sorted(f for f in folders if f != "out")
        for name in sorted(names):
            if name.endswith((".rt", ".antt")):
                yield os.path.join(folder, name)


def spelled(name):
    words = name.split("-")
    if name[0].isupper():
        return "".join(w[0].upper() + w[1:] for w in words)
    return "_".join(words)


def main():
    crates = "|".join(sorted(os.listdir("crates")))
    ours = re.compile(r"Rattle\.(" + crates + r")(\.|$)")
    declared, brought, goals = set(), set(), set()
    texts = {}
    for path in files():
        with open(path, encoding="utf-8") as f:
            texts[path] = f.read()
        for place, names in IMPORT.findall(texts[path]):
            if not ours.match(place):
                brought |= {n.strip().split(" as ")[0] for n in names.split(",")}
        goals |= set(GOAL.findall(texts[path]))
        if path.endswith(".antt"):
            for line in texts[path].split("\n"):
                m = DECLARED.match(line)
                if m and "-" in m.group(1):
                    declared.add(m.group(1))
    own = declared - brought - goals

    def turn(m):
        return spelled(m.group()) if m.group() in own else m.group()

    changed = 0
    for path, text in texts.items():
        lines = [l if COMMENT.match(l) else TOKEN.sub(turn, l) for l in text.split("\n")]
        if lines != text.split("\n"):
            changed += 1
            with open(path, "w", encoding="utf-8") as f:
                f.write("\n".join(lines))
    print(f"respell: {len(own)} names, {changed} files")


if __name__ == "__main__":
    sys.exit(main())
