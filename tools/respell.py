#!/usr/bin/env python3
"""Brings the repository's own definitions, lemmas and locals to today's spelling: words in snake case, where they had dashes or humps.

usage: tools/respell.py        at the top of the repository, once, after port.py and before any edit by hand

A name is the repository's own where it stands in a file of specs/ or in a file of lemmas right in proofs/, and is nowhere imported from the
kit. A name that begins with a capital is a type, or joins a type to a word, and stays, but for one of capitals alone. Names of the kit, of
Rust, of crates and of files stay. What turns: the code of .antt files, the clauses and ghost items of .rt files, the lines of must-fail
edits, and in comments and pages what stands between backquotes. It stops where two names would fall together in one file.
"""

import glob
import re
import sys

WORD = re.compile(r'[^\s(){}\[\].;,@"«»|`]+')
USE = re.compile(r"^[ \t]*(?:pub )?use ([^\s{;]+?)(?:\.?\{([^}]*)\})?(?: as (\S+))?[ \t]*$", re.M)
CODE_SPAN = re.compile(r"`[^`\n]+`")
DASHED = re.compile(r"(?<![\w'.-])[^\W\d][\w']*(?:-[\w']+)+(?![\w'-])|(?<![\w'-])[a-z]\w*[a-z0-9][A-Z]\w*(?![\w'-])")


def read(path):
    with open(path, encoding="utf-8") as f:
        return f.read()


def apart(text, mark):
    """The code and the comment of each line."""
    for line in text.split("\n"):
        m = re.search(mark, line)
        yield (line, "") if not m else (line[: m.start()], line[m.start() :])


def code_of(path):
    return "\n".join(code for code, _ in apart(read(path), r"(?:^|(?<=\s))--(?=\s|$)"))


def respelled(word):
    if re.fullmatch(r"[A-Z]+(?:-[A-Z]+)+", word):
        return word.replace("-", "_")
    if word[0].isupper():
        return word
    word = word.replace("getD", "get_or")
    word = re.sub(r"(?<=[a-z0-9])[A-Z]", lambda m: "_" + m[0].lower(), word)
    return re.sub(r"(?<=[^\W_])-(?=\w)", "_", word)


def own_names(crates):
    """Each own name that turns, with its new spelling; and the words of each file."""
    kit, own, words = set(), set(), {}
    for path in sorted(glob.glob("crates/*/specs/**/*.antt", recursive=True) + glob.glob("crates/*/proofs/**/*.antt", recursive=True)):
        code = code_of(path)
        words[path] = set(WORD.findall(code))
        for m in USE.finditer(code):
            steps = m[1].split(".")
            if steps[0] != "Rattle" or steps[1] not in crates:
                kit.update(it.split(" as ")[0].strip() for it in (m[2] or "").split(","))
        if not re.search(r"/proofs/.*/", path):
            own.update(words[path])
    return {w: respelled(w) for w in own - kit if respelled(w) != w}, words


def main():
    crates = {path.split("/")[1] for path in glob.glob("crates/*/src")}
    turned, words = own_names(crates)
    # Aliases of clauses, which stand in no .antt file.
    for path in glob.glob("crates/*/src/**/*.rt", recursive=True):
        for line in re.findall(r"^ghost use [^;]*;", read(path), re.M):
            for alias in re.findall(r" as ([a-z]\w*)", line):
                if respelled(alias) != alias:
                    turned[alias] = respelled(alias)
    by_new = {}
    for old, new in turned.items():
        if by_new.setdefault(new, old) != old:
            sys.exit(f"respell: {old} and {by_new[new]} would both be {new}")

    def turn(text):
        return WORD.sub(lambda m: turned.get(m[0], m[0]), text)

    def turn_dashed(text):
        return DASHED.sub(lambda m: turned.get(m[0], m[0]), text)

    def turn_spans(text):
        return CODE_SPAN.sub(lambda m: turn(m[0]), text)

    count = 0

    def write(path, text):
        nonlocal count
        if text != read(path):
            with open(path, "w", encoding="utf-8") as f:
                f.write(text)
            count += 1

    for path in words:
        write(path, "\n".join(turn(code) + turn_spans(comment) for code, comment in apart(read(path), r"(?:^|(?<=\s))--(?=\s|$)")))
    for path in glob.glob("crates/*/src/**/*.rt", recursive=True):
        write(path, "\n".join(turn_dashed(code) + turn_spans(comment) for code, comment in apart(read(path), r"(?:^|(?<=\s))//")))
    for path in glob.glob("crates/*/must-fail/*.edit"):
        write(path, "\n".join((turn if line.startswith(("old: ", "new: ")) else turn_spans)(line) for line in read(path).split("\n")))
    for path in ["README.md", *glob.glob("docs/**/*.md", recursive=True), *glob.glob("examples/**/*.md", recursive=True)]:
        write(path, turn_spans(read(path)))
    print(f"respell: {len(turned)} names, {count} files")


main()
