#!/usr/bin/env python3
"""Measures the program beside a plain one that does the same work, and what a queue adds to a task.

Usage: bench/yardstick.py [PROGRAM] [--runs N] [--queue-only] [--tasks N,N,..] [--queue-runs N]

PROGRAM is crates/igneous/out/igneous without the word. The plain program, plain.rs, is compiled by `rustc`. Both copy, rechunk, recode
and halve one generated layer, N times each (7), in turns; both have to leave the same files, byte for byte. Then layers of tiny tasks are
copied at once and by way of a queue, which one worker works off, and then another one which four at once do. The best of the runs is
printed. With --queue-only the first part is left out; --tasks names the numbers of tasks (100,1000,10000,100000), and --queue-runs how
often each is run (3). All files lie in a temporary folder, which is removed.
"""
import argparse
import filecmp
import os
import shutil
import subprocess
import sys
import tempfile
import time
from dataclasses import dataclass

HERE = os.path.dirname(os.path.abspath(__file__))
DEFAULT_PROGRAM = os.path.join(HERE, "..", "crates", "igneous", "out", "igneous")
RAW = "raw"
COMPRESSED = "compressed_segmentation"
SIZE = "512,512,64"
CHUNK = "64,64,64"
RUNS = 7
QUEUE_TASKS = "100,1000,10000,100000"
QUEUE_RUNS = 3
WORKERS = 4
FINISHED, WAITING = 0, 3
# With ten times the tasks, the queue's cost a task may be so many times as great before it is said to grow.
STEADY = 1.25


@dataclass
class Work:
    name: str
    source: str  # the folder of the source, which has the name of its encoding
    chunk: str
    shape: str
    encoding: str


WORKS = [
    Work("copy raw", RAW, CHUNK, "128,128,128", RAW),
    Work("copy compressed", COMPRESSED, CHUNK, "128,128,128", COMPRESSED),
    Work("rechunk raw", RAW, "128,128,64", "256,256,64", RAW),
    Work("recode raw to compressed", RAW, CHUNK, "128,128,128", COMPRESSED),
    Work("recode compressed to raw", COMPRESSED, CHUNK, "128,128,128", RAW),
]


# The encodings of the layers that are halved, and the shape of the tasks, which is that of the product where none is given.
HALVED = [RAW, COMPRESSED]
HALVED_SHAPE = "128,128,64"
HALVED_KEY = "16_16_8"


@dataclass
class Cost:
    wall: float  # seconds
    busy: float  # seconds of user and system together
    memory: float  # peak, in megabytes


def run(words):
    """Runs a process to its end, and gives what it cost."""
    begun = time.perf_counter()
    process = subprocess.Popen(words, stdout=subprocess.DEVNULL)
    _, status, usage = os.wait4(process.pid, 0)
    wall = time.perf_counter() - begun
    process.returncode = os.waitstatus_to_exitcode(status)
    if process.returncode != 0:
        sys.exit(f"{' '.join(words)}: status {process.returncode}")
    return Cost(wall, usage.ru_utime + usage.ru_stime, usage.ru_maxrss / 1024)


def best(costs):
    """The least of each kind of cost, and the greatest memory."""
    return Cost(min(cost.wall for cost in costs), min(cost.busy for cost in costs), max(cost.memory for cost in costs))


def files_of(folder):
    found = []
    for place, _, names in os.walk(folder):
        found += [os.path.relpath(os.path.join(place, name), folder) for name in names]
    return sorted(found)


def check_same(one, other):
    """Ends with an error where two folders don't hold the same files."""
    names = files_of(one)
    if names != files_of(other):
        sys.exit(f"{one} and {other} hold files of different names")
    for name in names:
        if not filecmp.cmp(f"{one}/{name}", f"{other}/{name}", shallow=False):
            sys.exit(f"{one}/{name} and {other}/{name} differ")


def empty(folder):
    """Empties the files of a folder. None is removed before the end: some file systems are slow to make files just after others were
    removed."""
    for name in files_of(folder):
        os.truncate(f"{folder}/{name}", 0)


def product_words(program, source, dest, chunk, shape, encoding):
    options = ["--chunk-size", chunk, "--shape", shape, "--encoding", encoding]
    return [program, "image", "xfer", source, dest, *options]


def measure_work(program, plain, work, runs):
    """The best costs of the product and of the plain program, which take turns."""
    product_costs, plain_costs = [], []
    how = (work.chunk, work.shape, work.encoding)
    for number in range(runs):
        by_product, by_plain = (f"{work.name} {number} {by}".replace(" ", "-") for by in ("product", "plain"))
        product_costs.append(run(product_words(program, work.source, by_product, *how)))
        plain_costs.append(run([plain, "copy", work.source, by_plain, *how]))
        check_same(by_product, by_plain)
        empty(by_product)
        empty(by_plain)
    return best(product_costs), best(plain_costs)


def lend_layer(source, folder):
    """A layer with the source's chunks, and an info of its own, to which scales can be added."""
    os.makedirs(folder)
    shutil.copy(f"{source}/info", folder)
    os.symlink(os.path.abspath(f"{source}/8_8_8"), f"{folder}/8_8_8")


def measure_halving(program, plain, encoding, runs):
    """The best costs of a mip by the product and by the plain program, which take turns."""
    product_costs, plain_costs = [], []
    for number in range(runs):
        by_product, by_plain = (f"halved-{encoding}-{number}-{by}" for by in ("product", "plain"))
        lend_layer(encoding, by_product)
        product_costs.append(run([program, "image", "downsample", by_product]))
        plain_costs.append(run([plain, "downsample", encoding, by_plain, HALVED_SHAPE]))
        check_same(f"{by_product}/{HALVED_KEY}", f"{by_plain}/{HALVED_KEY}")
        empty(f"{by_product}/{HALVED_KEY}")
        empty(by_plain)
    return best(product_costs), best(plain_costs)


def print_table(titles, rows):
    """Prints rows of texts, the first column to the left and the others to the right."""
    widths = [max(len(row[place]) for row in [titles, *rows]) for place in range(len(titles))]
    for row in [titles, ["-" * width for width in widths], *rows]:
        texts = [text.rjust(width) for text, width in zip(row, widths)]
        texts[0] = row[0].ljust(widths[0])
        print("| " + " | ".join(texts) + " |", flush=True)


def work_row(name, product, plain):
    texts = [name]
    for mine, other in ((product.wall, plain.wall), (product.busy, plain.busy)):
        texts += [f"{mine:.3f}", f"{other:.3f}", f"{mine / other:.2f}"]
    return texts + [f"{product.memory:.0f}", f"{plain.memory:.0f}"]


def measure_works(program, plain, runs):
    rows = []
    for encoding in (RAW, COMPRESSED):
        run([plain, "generate", encoding, SIZE, CHUNK, encoding])
    for work in WORKS:
        product_cost, plain_cost = measure_work(program, plain, work, runs)
        rows.append(work_row(work.name, product_cost, plain_cost))
    for encoding in HALVED:
        product_cost, plain_cost = measure_halving(program, plain, encoding, runs)
        rows.append(work_row(f"mip of {'raw' if encoding == RAW else 'compressed'}", product_cost, plain_cost))
    print(f"A layer of {SIZE} labels of 64 bits in chunks of {CHUNK}; best of {runs} runs each; the files are the same.\n")
    wall = ["product s", "plain s", "ratio"]
    busy = ["product u+s", "plain u+s", "ratio"]
    print_table(["work", *wall, *busy, "product MB", "plain MB"], rows)


@dataclass
class QueueCosts:
    tasks: int
    make: Cost
    execute: Cost
    local: Cost
    together: Cost  # of all workers: from the first one's start to the last one's end, and their times added

    def added(self, kind):
        """What the queue adds to a task's cost of this kind, in microseconds."""
        return (getattr(self.execute, kind) - getattr(self.local, kind)) / self.tasks * 1e6


def run_together(words):
    """Runs so many workers at once, till one has found all tasks done and each has ended."""
    begun = time.perf_counter()
    workers = [subprocess.Popen(words, stdout=subprocess.DEVNULL) for _ in range(WORKERS)]
    busy, memory = 0.0, 0.0
    for worker in workers:
        _, status, usage = os.wait4(worker.pid, 0)
        worker.returncode = os.waitstatus_to_exitcode(status)
        busy, memory = busy + usage.ru_utime + usage.ru_stime, max(memory, usage.ru_maxrss / 1024)
        if worker.returncode not in (FINISHED, WAITING):
            sys.exit(f"{' '.join(words)}: status {worker.returncode}")
    wall = time.perf_counter() - begun
    if all(worker.returncode != FINISHED for worker in workers):
        run(words)
    return Cost(wall, busy, memory)


def run_queue(program, tasks, number):
    """What the making of a stage of so many tiny tasks costs, a worker on it, the same copy without a queue, and workers together."""
    source = f"tiny-{tasks}"
    queued, shared, local = (f"{source}-{what}-{number}" for what in ("queued", "shared", "local"))
    queue, other = f"fq://{source}-queue-{number}", f"fq://{source}-other-{number}"
    make = run([*product_words(program, source, queued, "1,1,1", "1,1,1", RAW), "--queue", queue])
    execute = run([program, "execute", queue])
    at_once = run(product_words(program, source, local, "1,1,1", "1,1,1", RAW))
    check_same(queued, local)
    run([*product_words(program, source, shared, "1,1,1", "1,1,1", RAW), "--queue", other])
    together = run_together([program, "execute", other])
    check_same(shared, local)
    return make, execute, at_once, together


def queue_row(costs):
    texts = [str(costs.tasks)]
    for kind in ("wall", "busy"):
        for cost in (costs.make, costs.execute, costs.local):
            texts.append(f"{getattr(cost, kind) / costs.tasks * 1e6:.0f}")
        texts.append(f"{costs.added(kind):.0f}")
        texts.append(f"{getattr(costs.together, kind) / costs.tasks * 1e6:.0f}")
    return texts


def growth_line(measured):
    """Whether a queued task's cost grows with the number of tasks, by one worker and by several, as the last two numbers show it."""
    says = []
    for who, cost_of in (("one worker", lambda costs: costs.execute.busy), (f"{WORKERS} workers", lambda costs: costs.together.busy)):
        each = [cost_of(costs) / costs.tasks * 1e6 for costs in measured]
        verdict = "grows" if each[-1] > STEADY * each[-2] else "does not grow"
        says.append(f"by {who} it {verdict}: {', '.join(f'{cost:.0f}' for cost in each)}")
    counts = ", ".join(str(costs.tasks) for costs in measured)
    return f"User and system time of a queued task, in microseconds, with {counts} tasks: {'; '.join(says)}."


def measure_queues(program, plain, counts, runs):
    """Prints the best costs, a row for each number of tasks, which take turns."""
    for tasks in counts:
        run([plain, "generate", f"tiny-{tasks}", f"{tasks},1,1", "1,1,1", RAW])
    turns = [[run_queue(program, tasks, number) for tasks in counts] for number in range(runs)]
    measured = [QueueCosts(tasks, *map(best, zip(*own))) for tasks, own in zip(counts, zip(*turns))]
    print(f"\nTasks of one voxel each; best of {runs} runs each; microseconds a task.\n")
    names = ["make", "execute", "local", "added", f"by {WORKERS}"]
    print_table(["tasks", *names, *(f"{name} u+s" for name in names)], [queue_row(costs) for costs in measured])
    if len(measured) > 1:
        print("\n" + growth_line(measured))


def compile_plain(folder):
    plain = os.path.join(folder, "plain")
    words = ["rustc", "--edition", "2024", "-O", "-o", plain, os.path.join(HERE, "plain.rs")]
    if subprocess.run(words).returncode != 0:
        sys.exit("plain.rs was not compiled")
    return plain


def words_given():
    parser = argparse.ArgumentParser(description="Measures the program beside a plain one that does the same work.")
    parser.add_argument("program", nargs="?", default=DEFAULT_PROGRAM)
    parser.add_argument("--runs", type=int, default=RUNS)
    parser.add_argument("--queue-only", action="store_true")
    parser.add_argument("--tasks", default=QUEUE_TASKS)
    parser.add_argument("--queue-runs", type=int, default=QUEUE_RUNS)
    return parser.parse_args()


def main():
    given = words_given()
    program = os.path.abspath(given.program)
    if not os.access(program, os.X_OK):
        sys.exit(f"{given.program} is no program")
    folder = tempfile.mkdtemp(prefix="yardstick-")
    try:
        plain = compile_plain(folder)
        os.chdir(folder)
        if not given.queue_only:
            measure_works(program, plain, given.runs)
        measure_queues(program, plain, [int(word) for word in given.tasks.split(",")], given.queue_runs)
    finally:
        os.chdir("/")
        shutil.rmtree(folder)


if __name__ == "__main__":
    main()
