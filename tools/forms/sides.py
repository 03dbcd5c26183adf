#!/usr/bin/env python3
"""What changed between two checkouts, old and new side by side, as Markdown.

usage: sides.py OLD NEW

OLD and NEW are folders with crates/. Of public functions the signature and the clauses are compared, of public types and traits the
declaration, of specs/ each definition and claim, of proofs/ each lemma that README or docs/ of OLD name, and each must-fail edit. What is found again with
other words is printed as a difference; what is not found again is listed by name. It compares words: whether other words say less is
for a reader."""
import difflib
import re
import sys
from pathlib import Path

ROWS = ("calls", "cases", "vectors")  # stored calls: their rows are data, counted and not printed


def crates(root):
    return sorted(p for p in (root / "crates").iterdir() if (p / "src").is_dir())


def tidy(lines):
    """The common indent goes, and so does what ends a head."""
    out = [l.rstrip() for l in lines]
    while out and not out[0]:
        out.pop(0)
    depth = min((len(l) - len(l.lstrip()) for l in out if l.strip()), default=0)
    return [l[depth:] for l in out]


def functions(text):
    """name -> (public, lines of the signature and the clauses), with the type before a method's name."""
    found = {}
    lines = text.split("\n")
    owner = ""
    trait = False
    i = 0
    while i < len(lines):
        line = lines[i]
        head = re.match(r"(?:pub )?(?:impl|trait)\b(.*)\{", line)
        if head:
            words = re.sub(r"<[^<>]*(?:<[^<>]*>[^<>]*)*>", "", head.group(1)).split()
            trait = "for" in words or "trait" in line.split("{")[0].split()[:2]
            owner = (words[words.index("for") + 1] if "for" in words else words[0]).rstrip(":") + "::"
        elif line.startswith("}"):
            owner = ""
            trait = False
        f = re.match(r"\s*(pub(?:\(crate\))? )?(?:ghost )?(?:const )?(?:unsafe )?(?:extern \"C\" )?fn (\w+)", line)
        if f:
            start = i
            while not re.search(r"(\{|;|\})\s*$", lines[i]) or (re.search(r"\}\s*$", lines[i]) and "{" in lines[i] and "ensures" in lines[i]) or re.match(r"\s*(ensures|requires)[^{]*\{\s*$", lines[i]):
                i += 1
                if re.match(r"\s*\{\s*$", lines[i]):
                    break
            part = lines[start:i + 1]
            part[-1] = re.sub(r"\s*\{.*$", "", part[-1]) if not re.search(r"ensures|requires", part[-1]) else part[-1]
            name = owner + f.group(2)
            public = f.group(1) == "pub " or trait
            found[name] = (public, tidy([l for l in part if l.strip()]))
        i += 1
    return found


def types(text):
    """name -> lines of a public struct, enum, trait, type alias or constant."""
    found = {}
    lines = text.split("\n")
    i = 0
    while i < len(lines):
        t = re.match(r"pub (?:struct|enum|trait|type|const|static) (\w+)", lines[i])
        if t:
            start = i
            while start and lines[start - 1].startswith("#["):
                start -= 1
            if not re.search(r"(;|\}|\{\})\s*$", lines[i]):
                while not lines[i].startswith(("}", ");")) :
                    i += 1
            found[t.group(1)] = tidy([l for l in lines[start:i + 1] if not l.strip().startswith("//")])
        i += 1
    return found


def declarations(text):
    """name -> lines of a definition, claim or lemma."""
    found = {}
    block = []

    def close():
        if block:
            first = block[0].strip()
            n = re.match(r"(?:(?:abbrev|unfoldable|pub|record|data|private) )*([^\s:({]+)", first)
            if n and not first.startswith(("use ", "module ", "open ", "pub mod", "pub use")):
                found[n.group(1)] = tidy(block)
        block.clear()

    for line in text.split("\n"):
        if not line.strip() or line.lstrip().startswith("--"):
            close()
        elif re.match(r"(abbrev|unfoldable|pub|record|data) ", line) and not block == []:
            close()
            block.append(line)
        else:
            block.append(line)
    close()
    return found


def gathered(root, kind):
    """(crate, name) -> (file, lines)."""
    out = {}
    for c in crates(root):
        folder, pattern = ("src", "*.rt") if kind in ("functions", "types") else (kind, "*.antt")
        for p in sorted((c / folder).rglob(pattern)):
            text = p.read_text(encoding="utf-8")
            where = str(p.relative_to(root))
            if kind == "functions":
                for name, (public, lines) in functions(text).items():
                    out[c.name, name] = (where, lines, public)
            else:
                for name, lines in (types(text) if kind == "types" else declarations(text)).items():
                    out[c.name, name] = (where, lines, True)
    return out


def bare(lines):
    return re.sub(r"\s+", " ", " ".join(lines))


def difference(old, new):
    size = max(len(old), len(new)) + 1
    return [l for l in difflib.unified_diff(old, new, lineterm="", n=size)][3:]


def compared(title, old, new, wanted=lambda key, entry: True):
    same = changed = 0
    shown = []
    gone = []
    for key, entry in sorted(old.items()):
        if not wanted(key, entry):
            continue
        there = new.get(key)
        if there is None:
            others = [k for k in new if k[1] == key[1]]
            there = new[others[0]] if len(others) == 1 else None
        if there is None:
            gone.append(key)
        elif bare(there[1]) == bare(entry[1]) and there[2] == entry[2]:
            same += 1
        elif key[0] in ROWS:
            changed += 1
        else:
            changed += 1
            shown.append((key, entry, there))
    fresh = sorted(k for k, e in new.items() if k not in old and k[0] not in ROWS and wanted(k, e) and not any(o[1] == k[1] and k[0] != o[0] for o in old))
    print(f"### {title}\n")
    print(f"{same} the same, {changed} changed" + (f" ({changed - len(shown)} of them rows of stored calls, not printed)" if changed > len(shown) else "") + f", {len(gone)} not found again, {len(fresh)} new.\n")
    for name, keys in (("Not found again", gone), ("New", fresh)):
        if keys:
            by = {}
            for c, n in keys:
                by.setdefault(c, []).append(f"`{n}`")
            print(f"{name}: " + "; ".join(f"{c}: " + ", ".join(ns) for c, ns in by.items()) + ".\n")
    for key, entry, there in shown:
        moved = "" if entry[0] == there[0] else f", before `{entry[0]}`"
        print(f"`{key[1]}` (`{there[0]}`{moved})\n\n```diff")
        print("\n".join(difference(entry[1], there[1])))
        print("```\n")


def statement(lines):
    """A lemma without its proof: up to the line that begins its equation."""
    head = re.match(r"(?:(?:abbrev|unfoldable|pub) )*(\S+)", lines[0])
    if not head:
        return lines
    name = head.group(1)
    out = lines[:1]
    for l in lines[1:]:
        if l.startswith((name + " ", "unfolding", name + "=")):
            break
        out.append(l)
    return out


def edits(root):
    return {
        (c.name, p.stem): (str(p.relative_to(root)), p.read_text(encoding="utf-8").rstrip().split("\n"), True)
        for c in crates(root)
        for p in sorted((c / "must-fail").glob("*.edit"))
    }


def main():
    if len(sys.argv) != 3:
        sys.exit(__doc__)
    old, new = Path(sys.argv[1]), Path(sys.argv[2])
    compared("Public functions", gathered(old, "functions"), gathered(new, "functions"), lambda k, e: e[2])
    compared("Public types, traits and constants", gathered(old, "types"), gathered(new, "types"))
    compared("Definitions and claims of specs/", gathered(old, "specs"), gathered(new, "specs"))
    named = set()
    for p in [old / "README.md", *sorted((old / "docs").glob("*.md"))]:
        if p.name != "PORT.md":
            named |= set(re.findall(r"`(?:\w+::)*([A-Za-z_][\w-]*)`", p.read_text(encoding="utf-8")))
    lemmas = [{k: (w, statement(l), p) for k, (w, l, p) in gathered(r, "proofs").items()} for r in (old, new)]
    compared("Lemmas of proofs/ that README or docs/ named", *lemmas, lambda k, e: k[1] in named)
    compared("Must-fail edits", edits(old), edits(new))


main()
