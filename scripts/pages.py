#!/usr/bin/env python3
"""Compares what documents and first pages show with what is checked or stored.

- Each block of code (marked `rust`, `c` or `python`) of README.md, of bindings/README.md, of
  docs/GUIDE.md and of the crates' first pages (the `//!` lines at the head of src/lib.rt) stands in one
  file of the crates of examples or of bindings/, to the letter but for its indentation and a `pub`. A
  line `..` stands for any lines of that file.
- Each command of the program is a stored example, and what is shown below it is the stored report.
  Every other block of README.md and docs/FORMATS.md is a stored input.

Other blocks of the guide and of first pages are drawings and sketches; it is told how many there are.
Prints each block that differs, and then ends with the status 1.
"""
import pathlib
import re
import sys

TOP = pathlib.Path(__file__).resolve().parent.parent
COMMAND = "$ ./txn_program "


def blocks(text):
    """The fenced blocks of a page, each with the number of its first line and with its mark."""
    found, block, start, mark = [], None, 0, ""
    for number, line in enumerate(text.split("\n"), 1):
        if line.startswith("```"):
            if block is None:
                block, start, mark = [], number + 1, line[3:]
            else:
                found.append((start, mark, block))
                block = None
        elif block is not None:
            block.append(line)
    return found


def first_page(crate):
    """The text of a crate's first page, with the same numbers of lines."""
    lines = []
    for line in (crate / "src/lib.rt").read_text().split("\n"):
        if not line.startswith("//!"):
            break
        lines.append(line[4:])
    return "\n".join(lines)


def code_line(line):
    """A line of code without its indentation and its `pub`."""
    return re.sub(r"^pub (?=fn|struct|enum|type)", "", line.strip())


def pieces(block):
    """The runs of lines of a block between the lines `..`."""
    runs = [[]]
    for line in map(code_line, block):
        if line == "..":
            runs.append([])
        else:
            runs[-1].append(line)
    return [run for run in runs if run]


def place(lines, run, start):
    """Where the run of lines ends among the lines from a place on; None where it isn't there."""
    for at in range(start, len(lines) - len(run) + 1):
        if lines[at : at + len(run)] == run:
            return at + len(run)
    return None


def stands_in(lines, block):
    """Whether the runs of a block stand among the lines, in order."""
    at = 0
    for run in pieces(block):
        at = place(lines, run, at)
        if at is None:
            return False
    return True


def example_files():
    """The lines of each file of the crates of examples, and of each example in another language."""
    files = sorted(TOP.glob("crates/amqp_examples*/src/**/*.rt"))
    for pattern in ("rust/examples/*.rs", "c/*.c", "python/*.py"):
        files += sorted(TOP.glob(f"bindings/{pattern}"))
    return [list(map(code_line, file.read_text().split("\n"))) for file in files]


def is_code_shown(block, files):
    return any(stands_in(lines, block) for lines in files)


def stored_examples():
    """The arguments, the input and the report of each stored example."""
    examples = []
    for words in sorted(TOP.glob("examples/*.words")):
        report = words.with_suffix(".report")
        examples.append(
            (
                words.read_text().split(),
                words.with_suffix(".steps").read_text(),
                report.read_text() if report.exists() else "",
            )
        )
    return examples


def runs_of(block):
    """The commands of a block, each with the lines below it."""
    runs = []
    for line in block:
        if line.startswith("$ "):
            runs.append((line, []))
        else:
            runs[-1][1].append(line)
    return runs


def is_run_stored(command, shown, examples):
    """Whether a command is a stored example, and what is shown below it its report."""
    if not command.startswith(COMMAND):
        return False
    words, _, source = command[len(COMMAND) :].partition(" < ")
    given = (TOP / source.strip()).read_text() if source else ""
    for arguments, steps, report in examples:
        if arguments == words.split() and steps == given:
            return not shown or "\n".join(shown) + "\n" == report
    return False


def is_example_shown(block, examples):
    if block[0].startswith("$ "):
        return all(is_run_stored(command, shown, examples) for command, shown in runs_of(block))
    return any("\n".join(block) + "\n" == steps for _, steps, _ in examples)


def pages():
    """Each page by its name: its text, and whether its blocks are examples of the program."""
    for name, is_of_program in [("README.md", True), ("docs/FORMATS.md", True)]:
        yield name, (TOP / name).read_text(), is_of_program
    for name in ["bindings/README.md", "docs/GUIDE.md"]:
        yield name, (TOP / name).read_text(), False
    for crate in sorted(TOP.glob("crates/*")):
        if (crate / "src/lib.rt").exists():
            yield f"{crate.name}/src/lib.rt", first_page(crate), False


def main():
    files, examples = example_files(), stored_examples()
    count, others, differing = 0, 0, 0
    for name, text, is_of_program in pages():
        for number, mark, block in blocks(text):
            if mark in ("rust", "c", "python"):
                is_right = is_code_shown(block, files)
            elif is_of_program or block[0].startswith(COMMAND):
                is_right = is_example_shown(block, examples)
            else:
                others += 1
                continue
            count += 1
            if not is_right:
                differing += 1
                print(f"{name}:{number} differs:", *block, sep="\n    ")
    print(f"{count} blocks, {differing} of them differ; {others} drawings and sketches")
    return 1 if differing else 0


sys.exit(main())
