#!/usr/bin/env python3
"""Eight worker processes over one queue of 640 tasks of two stages, a copy and a mip, killed or stalled at random moments, and started
again till all tasks are done.

Usage: tests/killed_workers.py PROGRAM [KILLS [SEED ..]]

For each seed, 1 and 2 where none is given, the new layer and the new scale must then hold the same files as those that a single process
made. Leases are of one second, and a stalled worker goes on after more than that, so that its task is done again meanwhile. Prints how many workers were
killed and how many stalled, and how many tasks were late, or were told of more than once.

Each worker has to end as its fate allows: one that was killed by that signal, or with a status that it had just ended with; any other
one with status 0 or 3, since tasks are at most waited for. It ends with status 1 where a worker ended otherwise, as by a signal that was
not sent, where the layers differ, where the queue does not come to its end in time, and where over all seeds no worker was killed,
none stalled or no task was late, so that nothing was tried.
"""
import os
import random
import shutil
import signal
import subprocess
import sys
import tempfile
import time

WORKERS = 8
SIDE = 8  # chunks on each axis
TASKS = SIDE**3 + SIDE**3 // 4  # of the copy one for each chunk, of the mip one for each chunk of the new scale
CHUNK = 32  # voxels on each axis of a chunk
CELL = 24  # voxels on each axis of a cell of one label
STALLS = 16
STALL_SECONDS = 1.5
MOST_SECONDS = 100
SEEDS = (1, 2)
FINISHED, WAITING = 0, 3
KILLED = -signal.SIGKILL


def write_layer(folder, rng):
    """A segmentation of cells of one label each, in raw chunks of 32-bit labels."""
    size = SIDE * CHUNK
    os.makedirs(f"{folder}/8_8_8")
    with open(f"{folder}/info", "w") as info:
        info.write(
            '{"data_type":"uint32","num_channels":1,"scales":[{"chunk_sizes":[[%d,%d,%d]],"encoding":"raw","key":"8_8_8",'
            '"resolution":[8,8,8],"size":[%d,%d,%d]}],"type":"segmentation"}' % ((CHUNK,) * 3 + (size,) * 3)
        )
    cells = -(-size // CELL)
    labels = [rng.randrange(1, 2**32).to_bytes(4, "little") for _ in range(cells**3)]
    for z in range(0, size, CHUNK):
        for y in range(0, size, CHUNK):
            for x in range(0, size, CHUNK):
                name = f"{x}-{x + CHUNK}_{y}-{y + CHUNK}_{z}-{z + CHUNK}"
                with open(f"{folder}/8_8_8/{name}", "wb") as file:
                    file.write(chunk_of(labels, cells, x, y, z))


def chunk_of(labels, cells, x, y, z):
    rows = []
    for dz in range(CHUNK):
        for dy in range(CHUNK):
            first = ((z + dz) // CELL * cells + (y + dy) // CELL) * cells
            rows += [labels[first + (x + dx) // CELL] for dx in range(CHUNK)]
    return b"".join(rows)


def files_of(folder):
    found = {}
    for place, _, names in os.walk(folder):
        for name in names:
            path = os.path.join(place, name)
            with open(path, "rb") as file:
                found[os.path.relpath(path, folder)] = file.read()
    return found


def run(program, *words):
    done = subprocess.run([program, *words], capture_output=True, text=True)
    if done.returncode != 0:
        sys.exit(f"{' '.join(words)}: status {done.returncode}: {done.stderr}")
    return done.stdout.strip()


def start(program, out):
    words = [program, "execute", "fq://q", "--lease-sec", "1", "--tries", "100"]
    return subprocess.Popen(words, stdout=out, stderr=subprocess.STDOUT)


def kill(worker):
    worker.kill()
    worker.wait()


class Workers:
    """The workers that were started, and what became of them."""

    def __init__(self, program, out):
        self.program, self.out = program, out
        self.running = [start(program, out) for _ in range(WORKERS)]
        self.stalled = []  # until when, and which
        self.killed = 0
        self.finished = False
        self.wrong = []  # statuses that no fate allows

    def ended(self, worker, allowed=(FINISHED, WAITING)):
        """Takes the status of a worker that has ended."""
        status = worker.returncode
        self.finished = self.finished or status == FINISHED
        if status not in allowed:
            self.wrong.append(status)

    def kill_one(self, place):
        kill(self.running[place])
        self.killed += 1
        self.ended(self.running[place], (KILLED, FINISHED, WAITING))
        self.running[place] = start(self.program, self.out)

    def stall_one(self, place):
        self.running[place].send_signal(signal.SIGSTOP)
        self.stalled.append((time.time() + STALL_SECONDS, self.running[place]))
        self.running[place] = start(self.program, self.out)

    def look(self):
        """Wakes those that have stalled for long, and starts others for those that have ended."""
        for until, worker in self.stalled:
            if time.time() > until:
                worker.send_signal(signal.SIGCONT)
        for place, worker in enumerate(self.running):
            if worker.poll() is not None:
                self.ended(worker)
                self.running[place] = start(self.program, self.out)

    def wait(self):
        """Wakes all that stall, and waits for every worker."""
        for _, worker in self.stalled:
            worker.send_signal(signal.SIGCONT)
        for worker in [*self.running, *(worker for _, worker in self.stalled)]:
            worker.wait(timeout=MOST_SECONDS)
            self.ended(worker)

    def stop(self):
        for worker in [*self.running, *(worker for _, worker in self.stalled)]:
            kill(worker)


def work(program, kills, rng, out):
    """Runs workers till one of them has found all tasks done, and gives what became of them."""
    workers, begun = Workers(program, out), time.time()
    try:
        while not workers.finished:
            if time.time() - begun > MOST_SECONDS:
                sys.exit("the queue has not come to its end")
            time.sleep(rng.uniform(0, 0.002))
            place = rng.randrange(WORKERS)
            if workers.running[place].poll() is None:
                if len(workers.stalled) < STALLS and rng.random() < 0.2:
                    workers.stall_one(place)
                elif workers.killed < kills:
                    workers.kill_one(place)
            workers.look()
        workers.wait()
        return workers
    finally:
        workers.stop()


def lend_layer(folder):
    """A layer with the chunks of the first one, to which a scale can be added."""
    os.makedirs(folder)
    shutil.copy("seg/info", folder)
    os.symlink("../seg/8_8_8", f"{folder}/8_8_8")


def make_stages(program):
    """Makes both works by one process, and puts the same into a queue."""
    queue = ["--queue", "fq://q"]
    copied = ["--shape", f"{CHUNK},{CHUNK},{CHUNK}", "--encoding", "compressed_segmentation"]
    print(run(program, "image", "xfer", "seg", "local", *copied))
    print(run(program, "image", "xfer", "seg", "copy", *copied, *queue))
    for folder in ("halved-local", "halved"):
        lend_layer(folder)
    print(run(program, "image", "downsample", "halved-local"))
    print(run(program, "image", "downsample", "halved", *queue))


def run_seed(program, kills, seed):
    """Makes a layer and a queue of its copy and its mip in this folder, and runs workers on it. Gives what became of them, how many tasks
    were late, and whether copy and mip are whole."""
    rng = random.Random(seed)
    write_layer("seg", rng)
    make_stages(program)
    with open("lines", "wb") as out:
        workers = work(program, kills, rng, out)
    with open("lines") as file:
        said = [line.split() for line in file]
    tasks = [tuple(line[1:3]) for line in said if line and line[0] in ("done", "late", "missing", "dead")]
    late = sum(1 for line in said if line and line[0] == "late")
    again = len(tasks) - len(set(tasks))
    same = files_of("local") == files_of("copy") and files_of("halved-local") == files_of("halved")
    done = len(os.listdir("q/done"))
    print(
        f"seed {seed}: killed {workers.killed} stalled {len(workers.stalled)} late {late} told again {again} done names {done} equal {same}"
        f" wrong statuses {workers.wrong}",
        flush=True,
    )
    return workers, late, same and done == TASKS


def main():
    program = os.path.abspath(sys.argv[1])
    kills = int(sys.argv[2]) if len(sys.argv) > 2 else 200
    seeds = [int(word) for word in sys.argv[3:]] or SEEDS
    killed, stalled, late, well = 0, 0, 0, True
    for seed in seeds:
        folder = tempfile.mkdtemp(prefix="killed-workers-")
        try:
            os.chdir(folder)
            workers, late_here, whole = run_seed(program, kills, seed)
        finally:
            os.chdir("/")
            shutil.rmtree(folder, ignore_errors=True)
        killed, stalled, late = killed + workers.killed, stalled + len(workers.stalled), late + late_here
        well = well and whole and not workers.wrong
    if min(killed, stalled, late) == 0:
        print(f"nothing was tried: killed {killed}, stalled {stalled}, late {late}")
        well = False
    sys.exit(0 if well else 1)


if __name__ == "__main__":
    main()
