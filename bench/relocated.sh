#!/bin/bash
# Times relocated address reads by the number of records of the table, given in the order of their places and not.
#
#   relocated.sh [READS]
#
# READS  how many addresses the longer of two runs reads (20000000 if not given); the shorter reads none
#
# A line for each table: the records, their order, the milliseconds in which they are made and sorted, and the
# nanoseconds a read. Each run is made three times, and its best time counts.
set -euo pipefail
here=$(cd "$(dirname "${BASH_SOURCE[0]}")" && pwd)
reads=${1:-20000000}
program=$here/../crates/relocated_reads

(cd "$program" && rt run -- 1 sorted 1) >&2

# best RECORDS ORDER READS, in microseconds
best() {
    local least='' start took
    for _ in 1 2 3; do
        start=${EPOCHREALTIME/[.,]/}
        "$program/out/relocated_reads" "$@" >/dev/null
        took=$((${EPOCHREALTIME/[.,]/} - start))
        [ -n "$least" ] && [ "$least" -le "$took" ] || least=$took
    done
    echo "$least"
}

for records in 10 1000 100000; do
    for order in sorted shuffled; do
        table=$(best $records $order 0)
        whole=$(best $records $order "$reads")
        awk -v n=$records -v o=$order -v t="$table" -v w="$whole" -v r="$reads" \
            'BEGIN { printf "%7d %-8s %7.1f ms %7.1f ns\n", n, o, t / 1000, (w - t) * 1000 / r }'
    done
done
