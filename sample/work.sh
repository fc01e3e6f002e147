#!/bin/sh
# Runs one worker after the other on a queue, until all is done or a person is needed: what a scheduler starts, once for each processor.
#
# Usage: sample/work.sh PROGRAM fq://QUEUE [OPTIONS of execute]
#
# While others hold what is left (status 3), and where a worker has tried its last name (8), the next one is started after a while: 60
# seconds, or as many as WAIT_SECONDS says. After a fault of the store or the output, or where memory ran out (6, 7, 9), the same at most
# twice. Any other status of the worker is that of the script: 0 all is done, 4 there are dead letters, 2 and 5 a person has to look.
set -u
program=$1
queue=$2
shift 2
failed=0
while :; do
    "$program" execute "$queue" "$@"
    status=$?
    case $status in
    3 | 8) ;;
    6 | 7 | 9)
        failed=$((failed + 1))
        [ "$failed" -lt 3 ] || exit "$status"
        ;;
    *) exit "$status" ;;
    esac
    sleep "${WAIT_SECONDS:-60}"
done
