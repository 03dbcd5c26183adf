#!/usr/bin/env python3
"""Spells this repository's own names of definitions, fields, lemmas and variables in snake case: refusalOf as refusal_of, calls-agree as calls_agree.

usage: respell.py [FOLDER]      FOLDER is the root of a checkout; the one that this file stands in where none is given. A second run writes nothing.

What is turned: the words of specs/ and proofs/ that are declared there, wherever they stand in these, in clauses and `ghost use` lines of src/,
in must-fail edits, in comments and in README.md and docs/: there words in camel case anywhere, words with a dash in code spans. A word in camel case is always the repository's own, since neither
the toolchain nor Rust has one that begins with a small letter; a word with a dash is its own where it is declared.
What stays: types, modules and files; functions, fields and everything else of src/; names that a library declares, in the files that import them;
the labels that the toolchain makes of goals and of what is known at them (`loop-i`, `returns-2`, `n-is`); strings, vectors, stored answers.

Where two words would fall together in one file, the lemma gets the ending _lem, as lemmas do that would have a definition's name: ENDINGS and MET. It
prints how many words there were to turn, and how many files it changed.
"""

import os
import re
import sys

WORD = r"[^\s(){}.;,@\"«»\[\]\\λ]+"
CAMEL = re.compile(r"[a-z](?:[\w']*[a-z0-9'])?[A-Z][\w']*")
COMMENT = re.compile(r"(?<![^\s(){}.;,@\"«»])--[^\n]*")
STRING = re.compile(r'"(?:\\.|[^"\\\n])*"')
USE = re.compile(r"(?m)^(?:ghost )?use (\S+?)\.?\{([^}]*)\}")
PLACES = rf"(?:{WORD} +)*{WORD}"
ARGUMENT = r"(?: +(?:\([^()\n]*\)|\{[^{}\n]*\}))*"
DECLARED = [
    re.compile(rf"(?m)^[ \t]*(?:(?:abbrev|unfoldable|opaque|pub|private) +)*({PLACES}){ARGUMENT} +:(?=\s)"),
    re.compile(rf"\blet +({WORD}){ARGUMENT} +[:=](?=\s)"),
    re.compile(rf"[({{]({PLACES}) +: "),
    # what stands for an argument on the left of an equation, and another name for what a file imports of its own
    re.compile(rf"(?m)^[ \t]*{WORD} +({PLACES}) =(?=\s)"),
    re.compile(rf"(?m)^use Rattle\.[^\n]*? as ({WORD})(?=[,}}])"),
]
GOAL = re.compile(rf"(?m)^(?:abbrev )?(?:pub )?({WORD}) : goal\.")
# In answers and invariants these stand for what the toolchain says of a goal, and the word behind them is its label.
MADE = {"goal", "c", "w", "l", "g"}
# Rust's text, taken apart: comments, strings, ghost uses, clauses.
CLAUSE = re.compile(r"\b(?:requires|ensures)\*?\s*(?:\w+\s*)?\{|\bghost\s*(?:\w+\s*(?::\s*)?)?\{")
GHOST_USE = re.compile(r"\bghost\s+use\b[^;]*;")
SPAN = re.compile(r"`[^`\n]+`")
ENDINGS = {"direction-at", "is-nan", "nan-bits", "outcome-of", "refused-text", "same-link", "turned-away", "written-fields"}
# The same of a lemma, on the left, in the files alone that have the definition, on the right.
MET = {"in-turn": "in_turn", "minus_one": "minusOne"}

# Pages that name stored inputs, whose names stay, and spellings as they were.
STAY = {"DIFFERENCES.md", "PORT.md"}


def snake(word):
    if word in ENDINGS:
        return snake(word.replace("-", "_")) + "_lem"
    return re.sub(r"(?<=[a-z0-9])([A-Z])", lambda m: "_" + m[1].lower(), word).replace("-", "_")


def read(path):
    with open(path, encoding="utf-8") as file:
        return file.read()


def below(root, *parts):
    for folder, folders, names in os.walk(os.path.join(root, *parts)):
        folders[:] = sorted(f for f in folders if f != "out")
        for name in sorted(names):
            yield os.path.join(folder, name)


def code_of(text):
    return STRING.sub('""', COMMENT.sub("", text))


def libraries(text, crates):
    """The words that a file imports from a library, and those that it imports as labels of goals."""
    theirs, labels = set(), set()
    for path, words in USE.findall(text):
        steps = path.strip(".").split(".")
        if steps[0] != "Rattle" or steps[1] not in crates:
            theirs.update(re.findall(WORD, words))
        elif steps[-1] in ("Goals", "Given"):
            labels.update(re.findall(WORD, words))
    return theirs, labels


def own_words(texts, crates):
    declared, labels = set(), set()
    for text in texts:
        code = code_of(text)
        theirs, made = libraries(code, crates)
        labels |= made | set(GOAL.findall(code))
        for form in DECLARED:
            for words in form.findall(code):
                declared.update(w for w in words.split() if w not in theirs)
        declared.update(w for w in re.findall(WORD, code) if CAMEL.fullmatch(w))
    turned = {w for w in declared - labels if re.fullmatch(r"[A-Za-z0-9_'-]+", w) and ("-" in w[1:] or w[0].islower())}
    return {w for w in turned if snake(w) != w}


class Speller:
    def __init__(self, root):
        self.root = root
        with open(os.path.join(root, "crates.txt"), encoding="utf-8") as file:
            lines = [line for line in file if line.strip() and not line.startswith("#")]
        self.crates = {re.split(r"[\s:]", line)[0] for line in lines}
        files = [p for p in below(root, "crates") if p.endswith((".antt", ".rt", ".edit"))]
        self.antt = [p for p in files if p.endswith(".antt")]
        self.rest = [p for p in files if not p.endswith(".antt")]
        self.own = own_words([read(p) for p in self.antt], self.crates)

    def spelled(self, code, theirs=(), answers=False, met=()):
        def one(m):
            word, at = m[0], m.start()
            if word in met:
                return snake(word) + "_lem"
            if word not in self.own or word in theirs:
                return word
            if answers and at and code[at - 1] == ".":
                head = re.search(rf"({WORD})\.$", code[:at])
                if head and head[1] in MADE:
                    return word
            return snake(word)

        return re.sub(WORD, one, code)

    def prose(self, text):
        """Camel case anywhere, and words with a dash that are a code span's own."""
        text = re.sub(rf"(?<![\w/.-]){CAMEL.pattern}(?![\w/-])", lambda m: snake(m[0]) if m[0] in self.own else m[0], text)
        return SPAN.sub(lambda m: "`" + self.spelled(m[0][1:-1]) + "`", text)

    def of_antt(self, text, answers=False, theirs=None):
        if theirs is None:
            theirs = libraries(code_of(text), self.crates)[0]
        words = set(re.findall(WORD, text))
        met = {word for word, definition in MET.items() if definition in words}
        parts, at = [], 0
        for m in re.finditer(COMMENT.pattern + "|" + STRING.pattern, text):
            parts += [self.spelled(text[at : m.start()], theirs, answers, met), m[0] if m[0][0] == '"' else self.prose(m[0])]
            at = m.end()
        return "".join(parts) + self.spelled(text[at:], theirs, answers, met)

    def of_rust(self, text):
        theirs = libraries(text, self.crates)[0]
        parts, at = [], 0
        quiet = re.compile(r'//[^\n]*|"(?:\\.|[^"\\])*"|' + CLAUSE.pattern + "|" + GHOST_USE.pattern, re.S)
        while m := quiet.search(text, at):
            parts.append(text[at : m.start()])
            at = m.end()
            if m[0].startswith("//"):
                parts.append(self.prose(m[0]))
            elif m[0].startswith('"'):
                parts.append(m[0])
            else:
                if m[0].endswith("{"):
                    at = closing(text, m.end())
                parts.append(self.of_antt_in_rust(text[m.start() : at], theirs))
        return "".join(parts) + text[at:]

    def of_antt_in_rust(self, text, theirs):
        return re.sub(r"//[^\n]*|[^/]+|/", lambda m: self.prose(m[0]) if m[0].startswith("//") else self.spelled(m[0], theirs), text)

    def of_edit(self, text):
        kind, lines = "", []
        for line in text.split("\n"):
            head = re.match(r"(file|old|new): ?", line)
            if head and head[1] == "file":
                kind = line
            elif head and kind.endswith(".antt"):
                line = self.of_antt(line, theirs=())
            elif head:
                line = re.sub(CAMEL.pattern, lambda m: snake(m[0]) if m[0] in self.own else m[0], line)
            elif line.startswith("#"):
                line = self.prose(line)
            lines.append(line)
        return "\n".join(lines)

    def run(self):
        changed = 0
        pages = [os.path.join(self.root, "README.md"), *below(self.root, "docs")]
        pages = [p for p in pages if p.endswith(".md") and os.path.basename(p) not in STAY]
        for path in [*self.antt, *self.rest, *pages]:
            text = read(path)
            if path.endswith(".antt"):
                new = self.of_antt(text, os.path.basename(path) in ("Answers.antt", "Invariants.antt"))
            elif path.endswith(".rt"):
                new = self.of_rust(text)
            elif path.endswith(".edit"):
                new = self.of_edit(text)
            else:
                new = self.prose(text)
            if new != text:
                changed += 1
                with open(path, "w", encoding="utf-8") as file:
                    file.write(new)
        print(f"{len(self.own)} words, {changed} files changed")


def closing(text, at):
    depth = 1
    while depth:
        depth += {"{": 1, "}": -1}.get(text[at], 0)
        at += 1
    return at


if __name__ == "__main__":
    here = os.path.dirname(os.path.dirname(os.path.dirname(os.path.realpath(__file__))))
    Speller(sys.argv[1] if len(sys.argv) > 1 else here).run()
