#!/bin/sh
# A first look: copies the sample layer into smaller chunks, once by one process and once by two workers on a queue, and compares
# the two copies. Builds the program first where it isn't there yet.
#
# Usage: ./try.sh [PROGRAM]
#
# PROGRAM is a built program to use in place of crates/igneous/out/igneous. All that is made lies in try-output/, which is emptied first.
# The status is 0 exactly where every command went well and the copies agree.
set -u

fail() {
    printf 'try.sh: %s\n' "$1" >&2
    exit 1
}

heading() {
    printf '\n# %s\n' "$1"
}

show() {
    printf '$ %s\n' "$*"
}

# Shows a command, and runs it.
run() {
    show "$@"
    "$@" || fail "this command ended with status $?: $*"
}

# Builds the program and has it look at a queue that isn't there, so that it has nothing to do.
build() {
    command -v rt >/dev/null || fail "rt is not on the PATH: the program isn't built yet, and needs the toolchain"
    heading "Building is proving: on a fresh machine this takes some minutes"
    show "cd crates/igneous && rt run -- execute fq://out/none"
    (cd crates/igneous && rt run -- execute fq://out/none) || fail "the program could not be built"
    [ -x "$program" ] || fail "rt run has left no program at $program"
}

# Copies the sample; all words after it are given.
copy() {
    run "$program" image xfer sample/blobs "$@" --chunk-size 16,16,16 --encoding raw
}

# Runs one worker, and keeps what it prints.
work() {
    "$program" execute fq://try-output/queue >"try-output/worker-$1.txt" 2>&1
}

two_workers() {
    show "$program execute fq://try-output/queue >try-output/worker-1.txt 2>&1 &"
    work 1 &
    one=$!
    show "$program execute fq://try-output/queue >try-output/worker-2.txt 2>&1 &"
    work 2 &
    two=$!
    show wait
    wait "$one"
    first=$?
    wait "$two"
    second=$?
    printf '%-20s%s\n' "worker 1:" "worker 2:"
    paste -d '|' try-output/worker-1.txt try-output/worker-2.txt | awk -F '|' '{ printf "%-20s%s\n", $1, $2 }'
    printf '%-20s%s\n' "status $first" "status $second"
    case "$first $second" in
    "0 0" | "0 3" | "3 0") ;;
    *) fail "the workers ended with status $first and status $second" ;;
    esac
}

files_in() {
    find "$1" -type f | wc -l | tr -d ' '
}

bytes_in() {
    find "$1" -type f -exec cat {} + | wc -c | tr -d ' '
}

tell() {
    printf '%-20s%5s files %9s bytes\n' "$1" "$(files_in "$1")" "$(bytes_in "$1")"
}

program=crates/igneous/out/igneous
if [ $# -gt 1 ]; then
    fail "usage: ./try.sh [PROGRAM]"
elif [ $# -eq 1 ]; then
    case $1 in
    /*) program=$1 ;;
    *) program=$PWD/$1 ;;
    esac
    [ -x "$program" ] || fail "there is no program at $1"
fi
CDPATH='' cd -- "$(dirname -- "$0")" || fail "the folder of this script can't be entered"
[ -x "$program" ] || build
rm -rf try-output || fail "try-output can't be emptied"
mkdir try-output || fail "try-output can't be made"

heading "One process copies the layer, task by task"
copy try-output/local

heading "Or the same tasks are put into a queue"
copy try-output/copy --queue fq://try-output/queue

heading "and two workers share them"
two_workers
[ "$(files_in try-output/queue/done)" -eq 24 ] || fail "not all 24 tasks are done"

heading "Do both copies hold the same files, byte for byte?"
run diff -r try-output/local try-output/copy
[ "$(files_in try-output/copy)" -eq 127 ] || fail "the copies are not of 126 chunks and an info"
echo "They agree."
tell sample/blobs
tell try-output/local
tell try-output/copy

cat <<'END'

# Your own layer: paths are taken under the folder that the program is started in
igneous=$PWD/crates/igneous/out/igneous                 # at the top of this repository
cd /data                                                # the folder that holds the layer `seg`, a folder with an `info`
"$igneous" image xfer seg copy --chunk-size 128,128,32  # in one process
"$igneous" image xfer seg again --chunk-size 128,128,32 --queue fq://queue
for i in 1 2 3 4; do "$igneous" execute fq://queue >worker-$i.txt & done; wait
END
