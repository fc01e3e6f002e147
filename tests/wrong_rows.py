"""Plays each transcript with one byte of one expectation changed, and wants each to be refused.

    python3 tests/wrong_rows.py PROGRAM FOLDER

PROGRAM is the one that plays transcripts, FOLDER holds them. Each is copied alone into a temporary folder, and the last byte of its first
line that expects something (`=`, `>`, `!`, `~`, `holds`) is another one there. The program has to end with status 1 and name the line
at which that is compared.
"""

import pathlib
import subprocess
import sys
import tempfile

EXPECTS = ("= ", "> ", "! ", "~ ", "holds ")


def changed(text):
    """The text with one byte changed, and the number of the line at which it is compared: a call is, at its answer."""
    lines = text.split("\n")
    for place, line in enumerate(lines):
        if line.startswith(EXPECTS) and line[-1] not in " }":
            lines[place] = line[:-1] + ("0" if line[-1] != "0" else "1")
            compared = place
            while not lines[compared].startswith(("= ", "holds ")):
                compared += 1
            return "\n".join(lines), compared + 1
    sys.exit("a transcript expects nothing")


def is_refused(program, path, room):
    """Whether the program refuses the transcript once it is changed."""
    text, number = changed(path.read_text(encoding="utf-8"))
    copy = pathlib.Path(room) / path.name
    copy.write_text(text, encoding="utf-8")
    run = subprocess.run([program], cwd=room, capture_output=True, text=True, timeout=120)
    copy.unlink()
    if run.returncode == 1 and f"{path.name} line {number}:" in run.stdout:
        return True
    print(f"{path.name}: changed at line {number}, and not refused: status {run.returncode}\n{run.stdout}{run.stderr}")
    return False


def main():
    program, folder = pathlib.Path(sys.argv[1]).resolve(), pathlib.Path(sys.argv[2])
    paths = sorted(folder.glob("*.txt"))
    with tempfile.TemporaryDirectory() as room:
        refused = [is_refused(program, path, room) for path in paths]
    if not paths or not all(refused):
        sys.exit(1)
    print(f"{len(refused)} changed transcripts were refused")


main()
