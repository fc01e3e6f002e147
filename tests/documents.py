#!/usr/bin/env python3
"""Compares the documents with what they speak of, and ends with status 1 where one lags behind.

Usage: tests/documents.py [FOLDER]

FOLDER is the top of the repository, which is the working directory where it is not given. It looks whether

- the README says how many must-fail edits there are,
- `docs/ARCHITECTURE.md` has a row for each crate of `crates.txt`,
- `docs/TRANSCRIPTS.md` has a row for each transcript,
- `docs/DEFINITIONS.md` lists each definition of the repository that the contract of `igneous` is written in,
- each file that a document names in backticks, with a folder before it, is there.
"""
import glob
import os
import re
import sys

IGNEOUS = "crates/ig_cli/src/command.rt"
IN_FOLDER = re.compile(r"(docs|tests|sample|bench|crates|\.ci)/")
# What a build makes, and what stands for the name of some crate.
MADE = re.compile(r"crates/(\w+/out|NAME)\b")


def text_of(path):
    with open(path, encoding="utf-8") as file:
        return file.read()


def wrong_number_of_edits():
    there = len(glob.glob("crates/*/must-fail/*.edit"))
    said = re.findall(r"(\d+) must-fail edits", text_of("README.md"))
    if said != [str(there)]:
        yield f"README.md says {said} must-fail edits, and there are {there}"


def crates_without_row():
    rows = text_of("docs/ARCHITECTURE.md")
    for line in text_of("crates.txt").splitlines():
        name = re.match(r"(\w+)[^#]*:", line)
        if name and f"| `{name[1]}` |" not in rows:
            yield f"docs/ARCHITECTURE.md has no row for {name[1]}"


def transcripts_without_row():
    rows = text_of("docs/TRANSCRIPTS.md")
    for path in sorted(glob.glob("crates/ig_rows/data/*.txt")):
        name = os.path.basename(path)[: -len(".txt")]
        if f"| `{name}` |" not in rows:
            yield f"docs/TRANSCRIPTS.md has no row for {name}"


def definitions_cited():
    """The repository's own definitions that stand in the contract of `igneous`."""
    text = text_of(IGNEOUS)
    contract = text[text.index("pub fn igneous<") :].split("\n{\n")[0]
    words = set(re.findall(r"[\w-]+", contract))
    for module, names in re.findall(r"ghost use Rattle\.(ig_\w+\.specs\.[\w.]+)\.\{([^}]*)\};", text):
        for name in names.split(","):
            own, _, alias = name.strip().partition(" as ")
            if ".declared." not in module and (alias or own) in words:
                yield own


def definitions_without_row():
    listed = set(re.findall(r"`([^`]+)`", text_of("docs/DEFINITIONS.md")))
    for name in sorted(set(definitions_cited()) - listed):
        yield f"docs/DEFINITIONS.md does not list {name}, which the contract of igneous cites"


def files_that_are_absent():
    for document in ["README.md", "CONTRIBUTING.md", *sorted(glob.glob("docs/*.md")), *sorted(glob.glob("*/README.md"))]:
        for path in re.findall(r"`([\w.-]+(?:/[\w.-]+)+)`", text_of(document)):
            if IN_FOLDER.match(path) and not MADE.match(path) and not os.path.exists(path):
                yield f"{document} names {path}, which is not there"


def main():
    if len(sys.argv) > 1:
        os.chdir(sys.argv[1])
    looks = (wrong_number_of_edits, crates_without_row, transcripts_without_row, definitions_without_row, files_that_are_absent)
    found = [line for look in looks for line in look()]
    print("\n".join(found) if found else "the documents agree with what they speak of")
    sys.exit(1 if found else 0)


if __name__ == "__main__":
    main()
