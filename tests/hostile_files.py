#!/usr/bin/env python3
"""The program over files that are none: each is to be refused by one line, with the status of its kind, and never waited for.

Usage: tests/hostile_files.py PROGRAM

Each case makes a layer of four chunks in a new folder, and puts something else in the place of a file: a FIFO, a link to an endless
device, a link that dangles or runs in a circle, a directory, a socket, names that are no text, a folder that may not be entered, a full
file system, a disk that is found full when a file is given to it. Then it runs commands, and compares each one's standard output, standard
error and status with those that are expected. What a command left is looked at too. Where this runs as root, the program runs as nobody,
since root may do all; a case that can't be set up here is named, with the word `skipped`. Ends with status 1 where any case differs.
"""
import errno
import os
import shutil
import socket
import subprocess
import sys
import tempfile

SECONDS = 30  # for one command
CHUNKS = 4
BAD = "seg/8_8_8/1-2_0-1_0-1"
COPY = ["image", "xfer", "seg", "copy", "--shape", "1,1,1"]
MAKE = [*COPY, "--queue", "fq://q"]
EXECUTE = ["execute", "fq://q"]
FAULT = "igneous: store fault\n"
MADE = f"made 0000 xfer tasks {CHUNKS}\n"
ALL_DONE = "".join(f"done 0000 00000{n}\n" for n in range(CHUNKS)) + f"finished {CHUNKS}\n"
LONGER = 20_000_000  # bytes: more than 8 for each of the 2^21 voxels of the largest chunk
NOBODY = 65534
IS_ROOT = os.geteuid() == 0


class Skipped(Exception):
    """This case can't be set up here."""


def write_layer():
    """A layer of four voxels in a row, with a chunk for each."""
    os.makedirs("seg/8_8_8")
    with open("seg/info", "w") as info:
        info.write(
            '{"data_type":"uint32","num_channels":1,"scales":[{"chunk_sizes":[[1,1,1]],"encoding":"raw","key":"8_8_8",'
            '"resolution":[8,8,8],"size":[%d,1,1]}],"type":"segmentation"}' % CHUNKS
        )
    for x in range(CHUNKS):
        with open(f"seg/8_8_8/{x}-{x + 1}_0-1_0-1", "wb") as chunk:
            chunk.write(x.to_bytes(4, "little"))


def own(folder):
    """Gives all below the folder to nobody, who the program is run as."""
    if not IS_ROOT:
        return
    for place, folders, names in os.walk(folder):
        for name in [".", *folders, *names]:
            os.chown(os.path.join(place, name), NOBODY, NOBODY, follow_symlinks=False)


def run(program, words, above=()):
    """Runs the program, and gives its output, its errors and its status, or a word in their place where it goes on too long."""
    own(".")
    how = {"user": NOBODY, "group": NOBODY, "extra_groups": []} if IS_ROOT else {}
    try:
        done = subprocess.run([*above, program, *words], capture_output=True, timeout=SECONDS, stdin=subprocess.DEVNULL, **how)
    except subprocess.TimeoutExpired:
        return "it waits", "", None
    return done.stdout.decode(), done.stderr.decode(), done.returncode


def differs(name, words, wanted, got):
    """Says where a command did something else, and gives how often."""
    if got == wanted:
        return 0
    print(f"{name}: {' '.join(words)}\n    wanted {wanted!r}\n    but got {got!r}", flush=True)
    return 1


# ---- what stands in the place of a file


def put_fifo(path):
    os.mkfifo(path)


def put_device(path):
    os.symlink("/dev/zero", path)


def put_socket(path):
    made = socket.socket(socket.AF_UNIX)
    made.bind(path)
    made.close()


def put_folder(path):
    os.mkdir(path)


def put_dangling(path):
    os.symlink("nowhere", path)


def put_looping(path):
    os.symlink(os.path.basename(path), path)


def put_through_file(path):
    os.symlink("/dev/null/below", path)


def put_long(path):
    os.symlink("x" * 300, path)


def put_pipe(path):
    os.symlink("/proc/self/fd/0", path)


def put_kernel(path):
    """A file of the kernel that says it has no bytes. It has some; of others like it a reader waits for them."""
    if not os.path.isfile("/proc/version"):
        raise Skipped("there is no /proc")
    os.symlink("/proc/version", path)


def put_other_length(path):
    """A file of the kernel that says it has 4096 bytes and has fewer."""
    if not os.path.isfile("/sys/kernel/mm/transparent_hugepage/enabled"):
        raise Skipped("there is no such file of the kernel")
    os.symlink("/sys/kernel/mm/transparent_hugepage/enabled", path)


def put_endless(path):
    """A file of a million million bytes, which takes no room."""
    with open(path, "wb") as file:
        try:
            file.truncate(10**12)
        except OSError:
            raise Skipped("the file system has no files of this length")


def put_longer(path):
    """More bytes than any chunk can have."""
    with open(path, "wb") as file:
        file.truncate(LONGER)


def put_closed(path):
    with open(path, "wb") as file:
        file.write(b"\0\0\0\0")
    os.chmod(path, 0)


def put_behind(path):
    """A link to a file in a folder that may not be entered."""
    os.mkdir("closed")
    with open("closed/file", "wb") as file:
        file.write(b"\0\0\0\0")
    os.symlink(os.path.abspath("closed/file"), path)
    os.chmod("closed", 0)


IN_PLACE = {
    "a FIFO": put_fifo,
    "a link to an endless device": put_device,
    "a link to standard input": put_pipe,
    "a socket": put_socket,
    "a folder": put_folder,
    "a link that runs in a circle": put_looping,
    "a link through a file": put_through_file,
    "a link to too long a name": put_long,
    "a file that may not be read": put_closed,
    "a link to where nobody may look": put_behind,
    "a file that has fewer bytes than it says": put_other_length,
}
REFUSED = {
    "a link that dangles": (put_dangling, "", f"igneous: missing {BAD}\n", 5),
    "a file of the kernel": (put_kernel, "", f"igneous: malformed {BAD} wrong length 0 want 4\n", 5),
    "a chunk that is too long": (put_longer, "", f"igneous: malformed {BAD} wrong length {LONGER} want 4\n", 5),
    "a file that no memory holds": (put_endless, "", "igneous: out of memory\n", 7),
}


def swap(path, put):
    os.remove(path)
    put(path)


def chunk_case(program, name, put, wanted):
    """A local copy of a layer with a chunk that is none."""
    swap(BAD, put)
    return differs(name, COPY, wanted, run(program, COPY))


def info_case(program, name, put):
    swap("seg/info", put)
    return differs(name, COPY, ("", FAULT, 6), run(program, COPY))


def worker_case(program, name, put):
    """A worker that leases the task of such a chunk. It was the second; the first one was done."""
    wrong = differs(name, MAKE, (MADE, "", 0), run(program, MAKE))
    swap(BAD, put)
    return wrong + differs(name, EXECUTE, ("done 0000 000000\n", FAULT, 6), run(program, EXECUTE))


def record_case(program, name, put):
    """A worker on a queue whose record is none."""
    wrong = differs(name, MAKE, (MADE, "", 0), run(program, MAKE))
    swap("q/stages/0000.json", put)
    return wrong + differs(name, EXECUTE, ("", FAULT, 6), run(program, EXECUTE))


# ---- names in the folders of a queue


def beside(put, name):
    """Puts it beside the names of a queue, under a name that would be lawful."""

    def put_all():
        for folder in ("q/stages", "q/seals", "q/queue", "q/dead", "q/done"):
            os.makedirs(folder, exist_ok=True)
            put(os.path.join(os.fsencode(folder), name) if isinstance(name, bytes) else f"{folder}/{name}")

    return put_all


def put_file(path):
    with open(path, "wb"):
        pass


def put_behind_once(path):
    if not os.path.exists("closed"):
        os.mkdir("closed")
        put_file("closed/file")
        own("closed")
        os.chmod("closed", 0)
    os.symlink(os.path.abspath("closed/file"), path)


BESIDE = {
    "a name that is no text": (put_file, b"0000-00000\xff.json"),
    "a name with a blank": (put_file, "0000 000000.json"),
    "a link that dangles": (put_dangling, "0000-000009.json"),
    "a link that runs in a circle": (put_looping, "0000-000009.json"),
    "a link through a file": (put_through_file, "0000-000009.json"),
    "a link to too long a name": (put_long, "0000-000009.json"),
    "a link to where nobody may look": (put_behind_once, "0000-000009.json"),
    "a FIFO": (put_fifo, "0000-000009.json"),
    "a link to an endless device": (put_device, "0000-000009.json"),
    "a socket": (put_socket, "s"),
    "a folder": (put_folder, "0000-000009.json"),
}


def name_case(program, name, put_all):
    """A worker passes over what is no file."""
    wrong = differs(name, MAKE, (MADE, "", 0), run(program, MAKE))
    put_all()
    wrong += differs(name, EXECUTE, (ALL_DONE, "", 0), run(program, EXECUTE))
    return wrong + same_copy(name)


def same_copy(name):
    """Whether the copy holds the chunks of the layer."""
    wrong = 0
    for x in range(CHUNKS):
        path = f"copy/8_8_8/{x}-{x + 1}_0-1_0-1"
        if not os.path.isfile(path) or open(path, "rb").read() != x.to_bytes(4, "little"):
            print(f"{name}: {path} is missing or another")
            wrong += 1
    return wrong


# ---- folders


def folder_case(program, name, spoil, wanted):
    """A worker on a queue of which a folder was spoilt."""
    wrong = differs(name, MAKE, (MADE, "", 0), run(program, MAKE))
    own(".")
    undo = spoil()
    wrong += differs(name, EXECUTE, wanted, run(program, EXECUTE))
    undo()
    return wrong


def closing(folder, mode):
    def spoil():
        os.chmod(folder, mode)
        return lambda: os.chmod(folder, 0o755)

    return spoil


def file_for_folder(folder):
    def spoil():
        shutil.rmtree(folder)
        put_file(folder)
        return lambda: None

    return spoil


FOLDERS = {
    "a folder that may not be listed": (closing("q/queue", 0o300), ("", FAULT, 6)),
    "a folder whose names may not be looked at": (closing("q/queue", 0o600), ("", FAULT, 6)),
    "a folder of records whose names may not be looked at": (closing("q/stages", 0o600), ("", FAULT, 6)),
    "a folder that may not be written": (closing("q/queue", 0o500), ("", FAULT, 6)),
    "a file for a folder": (file_for_folder("q/queue"), ("", FAULT, 6)),
}


def target_case(program, name, spoil):
    """A local copy whose target can't be made."""
    own(".")
    undo = spoil()
    wrong = differs(name, COPY, ("", FAULT, 6), run(program, COPY))
    undo()
    return wrong + left_over(name)


def left_over(name):
    """Whether a temporary file was left."""
    left = os.listdir(".ig-tmp") if os.path.isdir(".ig-tmp") else []
    if left:
        print(f"{name}: left {left}")
    return len(left)


def no_room():
    """Makes `.ig-tmp` a file."""
    put_file(".ig-tmp")
    return lambda: None


def folder_for_info():
    os.makedirs("copy/8_8_8")
    os.makedirs("copy/info")
    return lambda: None


TARGETS = {
    "a folder that may not be written": closing(".", 0o555),
    "a file for the folder of temporary files": no_room,
    "a folder for the new info": folder_for_info,
}


# ---- disks


def mount(size):
    """A small file system in memory at `small`."""
    os.mkdir("small")
    words = ["mount", "-t", "tmpfs", "-o", f"size={size}", "tmpfs", "small"]
    try:
        done = subprocess.run(words, capture_output=True, timeout=SECONDS)
    except (OSError, subprocess.TimeoutExpired):
        raise Skipped("nothing can be mounted")
    if done.returncode != 0:
        raise Skipped("nothing can be mounted")


def fill():
    """Takes all room that is left."""
    file = os.open("filling", os.O_WRONLY | os.O_CREAT)
    try:
        while True:
            os.write(file, b"\0" * 4096)
    except OSError as error:
        if error.errno != errno.ENOSPC:
            raise
    finally:
        os.close(file)


def full_case(program, name):
    """A copy on a file system that becomes full while a chunk is written."""
    mount("64k")
    try:
        os.chdir("small")
        write_layer()
        fill()
        wrong = differs(name, COPY, ("", FAULT, 6), run(program, COPY))
        return wrong + left_over(name)
    finally:
        os.chdir("..")
        subprocess.run(["umount", "small"], timeout=SECONDS)


def traced(*how):
    """Words that run a program under `strace`, which notes what is given to the disk."""
    return ["strace", "-qq", "-o", "trace", "-e", "trace=fdatasync", *how]


def synchronised():
    """How many files the last traced run gave to the disk."""
    with open("trace") as lines:
        return sum(line.startswith("fdatasync(") for line in lines)


def clean():
    """Takes away what a command made."""
    for made in ("copy", "q"):
        shutil.rmtree(made, ignore_errors=True)


def disk_case(program, name):
    """A disk that is found full when a file is given to it, as `strace` plays it: that file must not be called done. The new info of a
    local copy is such a file, and of a making the record, the info and the seal."""
    if shutil.which("strace") is None:
        raise Skipped("strace is missing")
    wrong = 0
    for words, count in ((COPY, 1), (MAKE, 3)):
        if run(program, words, traced())[2] != 0:
            raise Skipped("strace may not trace")
        if synchronised() != count:
            print(f"{name}: {' '.join(words)}: {synchronised()} files were given to the disk, not {count}")
            wrong += 1
        clean()
        for place in range(1, count + 1):
            got = run(program, words, traced("-e", f"inject=fdatasync:error=EDQUOT:when={place}"))
            wrong += differs(f"{name}, file {place}", words, ("", FAULT, 6), got) + left_over(name)
            clean()
    return wrong


# ---- all


def all_cases():
    """Each case: its name, and a function of the program that gives how much was wrong."""
    cases = []
    for name, put in IN_PLACE.items():
        cases.append((f"for a chunk, {name}", lambda p, n, put=put: chunk_case(p, n, put, ("", FAULT, 6))))
        cases.append((f"for an info, {name}", lambda p, n, put=put: info_case(p, n, put)))
        cases.append((f"for a worker's chunk, {name}", lambda p, n, put=put: worker_case(p, n, put)))
        cases.append((f"for a stage's record, {name}", lambda p, n, put=put: record_case(p, n, put)))
    for name, (put, *wanted) in REFUSED.items():
        cases.append((f"for a chunk, {name}", lambda p, n, put=put, w=tuple(wanted): chunk_case(p, n, put, w)))
    for name, (put, own_name) in BESIDE.items():
        cases.append((f"in a queue's folders, {name}", lambda p, n, put=put, o=own_name: name_case(p, n, beside(put, o))))
    for name, (spoil, wanted) in FOLDERS.items():
        cases.append((f"in a queue, {name}", lambda p, n, s=spoil, w=wanted: folder_case(p, n, s, w)))
    for name, spoil in TARGETS.items():
        cases.append((f"where a copy is made, {name}", lambda p, n, s=spoil: target_case(p, n, s)))
    cases.append(("a full file system", full_case))
    cases.append(("a disk that is found full later", disk_case))
    return cases


def run_case(program, above, number, name, case):
    """Runs one case in a folder of its own. Gives how much was wrong, and whether it was skipped."""
    folder = f"{above}/{number}"
    os.mkdir(folder)
    os.chdir(folder)
    write_layer()
    try:
        return case(program, name), False
    except Skipped as why:
        print(f"skipped: {name}: {why}", flush=True)
        return 0, True


def open_up(folder):
    """So that what was closed can be removed."""
    for place, folders, _ in os.walk(folder):
        for name in folders:
            if not os.path.islink(os.path.join(place, name)):
                os.chmod(os.path.join(place, name), 0o755)


def main():
    if len(sys.argv) != 2:
        sys.exit("usage: tests/hostile_files.py PROGRAM")
    above = tempfile.mkdtemp(prefix="hostile-files-")
    os.chmod(above, 0o755)
    program = f"{above}/igneous"
    shutil.copy(sys.argv[1], program)
    os.chmod(program, 0o755)
    cases, wrong, skipped = all_cases(), 0, 0
    try:
        for number, (name, case) in enumerate(cases):
            found, left_out = run_case(program, above, number, name, case)
            wrong += found
            skipped += left_out
    finally:
        os.chdir("/")
        open_up(above)
        shutil.rmtree(above, ignore_errors=True)
    print(f"hostile files: {len(cases)} cases, {skipped} skipped, {wrong} wrong")
    sys.exit(1 if wrong else 0)


if __name__ == "__main__":
    main()
