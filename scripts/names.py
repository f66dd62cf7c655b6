#!/usr/bin/env python3
"""Checks that what the documents name is there.

- A link leads to a file, and to a heading in it where it has one. Those to other hosts are let pass.
- A path between backquotes is a file or a folder: from the top, from crates/, or in some crate, with
  or without its suffix.
- A word between backquotes is one of the sources: a crate, an item, a field, an argument, a script's
  word. So is a crate named by its end alone, as `_wires`. Words of two letters are let pass, those
  of OTHERS and with one of ENDS, and all of DIFFERENCES.md, which names what another crate has.
- The kit's line in README.md is what `rt version` prints, where there is an `rt`.

Prints each that isn't there, and then ends with the status 1.
"""
import pathlib
import re
import shutil
import subprocess
import sys

TOP = pathlib.Path(__file__).resolve().parent.parent
SOURCES = ["crates/*/src/**/*.rt", "crates/*/specs/**/*.antt", "crates/*/proofs/**/*.antt"]
SOURCES += ["crates.txt", "scripts/*", "txn_program", "examples/**/*", "bindings/**/*", ".ci/run"]
WORD = r"[A-Za-z0-9_-]+"
OTHERS = set("fe2o3-amqp rt RT_JOBS plant ci check must-fail edit logic NAME LIST ulong".split())
OTHERS |= {"AMQPSymbol", "AMQPuLong", "perf"}
ENDS = ("_none", "_last", "_WORD")


def documents():
    folders = [TOP, TOP / "bindings", TOP / "examples", TOP / "examples/proton_broker"]
    return [*(folder / "README.md" for folder in folders), *sorted(TOP.glob("docs/*.md"))]


def source_words():
    """The words of all sources, and the names of crates, files, wrong bodies and examples."""
    words = set()
    for pattern in SOURCES:
        for file in filter(pathlib.Path.is_file, TOP.glob(pattern)):
            words.update(re.findall(WORD, file.read_text(errors="replace")))
            words.update(re.findall(r"\w+", file.read_text(errors="replace")))
    for file in [*TOP.glob("crates/**/*"), *TOP.glob("examples/*")]:
        words.add(file.name.split(".")[0])
    return words


def anchors(file):
    """The headings of a page, as links name them."""
    heads = re.findall(r"^#+ (.*)$", file.read_text(), re.M)
    return {re.sub(r"[^\w -]", "", head).strip().lower().replace(" ", "-") for head in heads}


def bad_links(page, text):
    for link in re.findall(r"\]\(([^)]*)\)", text):
        if "://" in link:
            continue
        name, _, anchor = link.partition("#")
        file = (page.parent / name).resolve() if name else page
        if not file.exists() or anchor and anchor not in anchors(file):
            yield link


def is_path(path):
    places = [path, f"crates/{path}", f"crates/*/{path}"]
    return any(next(TOP.glob(place + end), None) for place in places for end in ["", ".rt", ".antt"])


def is_word(word, words):
    if len(word) <= 2 or word in words or word in OTHERS or word.endswith(ENDS):
        return True
    if word.startswith("rattle-kit") or re.fullmatch(r"[0-9a-fA-F]+", word):
        return True
    return word.startswith("_") and any(crate.name.endswith(word) for crate in TOP.glob("crates/*"))


def bad_names(text, words):
    text = re.sub(r"^```.*?^```", "", text, flags=re.S | re.M)
    for span in re.findall(r"`([^`\n]+)`", text):
        if re.fullmatch(r"[\w.]+(/[\w.*]+)+/?", span):
            if not is_path(span.rstrip("/")):
                yield span
            continue
        for word in re.findall(WORD, span):
            if not is_word(word, words) and not is_word(word.strip("-"), words):
                yield f"{word} in `{span}`"


def bad_kit(text):
    if shutil.which("rt"):
        version = subprocess.run(["rt", "version"], capture_output=True, text=True).stdout.strip()
        if version not in text:
            yield f"no `{version}`"


def main():
    words, count = source_words(), 0
    for page in documents():
        text = page.read_text()
        bad = list(bad_links(page, text))
        if page.name != "DIFFERENCES.md":
            bad += bad_names(text, words)
        if page == TOP / "README.md":
            bad += bad_kit(text)
        for name in bad:
            print(f"{page.relative_to(TOP)}: {name}")
        count += len(bad)
    print(f"{len(documents())} documents, {count} names that aren't there")
    return 1 if count else 0


sys.exit(main())
