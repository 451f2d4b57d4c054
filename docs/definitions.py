#!/usr/bin/env python3
"""The definitions that a reader must believe for the promise of an entry point.

Follows the names in crates/*/specs from those that the entry's contract uses down to the libraries of the kit,
and prints a table of the files in reading order (crates.txt, then each crate's Lib.antt) with
the lines that are met: signatures, clauses and fields, without comments, imports and blank lines.
docs/DEFINITIONS.md has what it prints. Run it at the repository's root: `python3 docs/definitions.py`.
"""
import os
import re

ENTRIES = [
    ("The solve, of positions and of either kind", "pcg/src/prepared.rt"),
    ("The solve of velocities", "pcg/src/velocity.rt"),
    ("The closing check", "closing_check/src/entries.rt"),
]
SIGNATURE = re.compile(r"^(\s*)(?:unfoldable |abbrev )?(?:pub )?([^\s:(){}]+) : ")
TYPE = re.compile(r"^(\s*)(?:pub )?(?:record|data) ([^\s:(){}]+)")
USE = re.compile(r"^(?:ghost |unfoldable |pub )*use Rattle\.(\w+)\.specs\.([\w.\-]+?)(?:\.\{([^}]*)\}| as (\S+));?$")
NAME = re.compile(r"[^\s(){}\[\],;«».λ]+")


class Module:
    """One file of specs/: its definitions' lines, and where its imported names come from."""

    def __init__(self, text):
        self.lines, self.imports = {}, {}
        owner, margin = None, 0
        for line in text.split("\n"):
            if not line.strip() or line.lstrip().startswith("--"):
                continue
            use = USE.match(line)
            if use:
                self.note(use)
                continue
            if re.match(r"^\s*module _", line):
                owner = None
                continue
            if line.startswith("use ") or re.match(r"^\s*unfolding ", line):
                continue
            indent = len(line) - len(line.lstrip())
            head = TYPE.match(line) or SIGNATURE.match(line)
            if head and (owner is None or indent <= margin):
                owner, margin = head.group(2), indent
            if owner:
                self.lines.setdefault(owner, []).append(line)

    def note(self, use):
        crate, module, names, alias = use.groups()
        if alias:
            self.imports[alias] = (crate, module, None)
        for name in (names or "").split(","):
            if name.strip():
                self.imports[name.strip()] = (crate, module, name.strip())


def crates():
    return [line.split(":")[0].split()[0] for line in open("crates.txt", encoding="utf-8") if ":" in line and not line.startswith("#")]


def modules():
    found = {}
    for crate in crates():
        listing = f"crates/{crate}/specs/Lib.antt"
        if os.path.exists(listing):
            for name in re.findall(r"^pub mod (\S+)", open(listing, encoding="utf-8").read(), re.M):
                found[crate, name] = Module(open(f"crates/{crate}/specs/{name}.antt", encoding="utf-8").read())
    return found


def used(path):
    """What the contract of the entry uses: of the file's last public function."""
    text = open(f"crates/{path}", encoding="utf-8").read()
    module = Module(text)
    public = set(NAME.findall(text[text.rindex("pub fn"):]))
    return [at for name, at in module.imports.items() if name in public]


def followed(found, waiting):
    """Every (crate, module, name) that these stand on."""
    met = set()
    while waiting:
        at = waiting.pop()
        here = found.get(at[:2])
        if at in met or here is None:
            continue
        if at[2] not in here.lines:
            if at[2] in here.imports:  # handed on by `pub use`
                waiting.append(here.imports[at[2]])
            continue
        met.add(at)
        for word in NAME.findall(re.sub(r"--.*", "", "\n".join(here.lines[at[2]]))):
            if word in here.imports:
                waiting.append(here.imports[word])
            elif word in here.lines:
                waiting.append((at[0], at[1], word))
    return met


def table(found, title, path):
    met = followed(found, used(path))
    rows = []
    for (crate, module), here in found.items():
        count = sum(len(here.lines[name]) for name in here.lines if (crate, module, name) in met)
        if count:
            rows.append((f"{crate}/specs/{module}.antt", count))
    print(f"## {title} ({path}): {sum(count for _, count in rows)} lines\n")
    print("| file | lines |\n|---|---|")
    for path, count in rows:
        print(f"| {path} | {count} |")
    print()


def main():
    found = modules()
    for title, path in ENTRIES:
        table(found, title, path)


main()
