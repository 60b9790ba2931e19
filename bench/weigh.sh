#!/usr/bin/env bash
# Builds `workloads` and times the weighing of five histories, each in runs of its own: the least of the times, and the
# most memory that the program had, the lists among it.
# bench/weigh.sh [TIMES [CALLS]]: so many runs of each, 5 if not said, with so many calls of each of 16 processes, 65,535 if
# not said.
set -euo pipefail
times=${1:-5}
calls=${2:-65535}
cd "$(dirname "$0")/../crates/workloads"
rt run >/dev/null 2>&1
for history in 0 1 2 3 4; do
  for _ in $(seq "$times"); do
    /usr/bin/time -f 'peak %M' out/workloads weigh "$calls" "$history" 2>&1 >/dev/null
  done | awk '
    $1 == "peak" { if ($2 > peak) peak = $2; next }
    NF > 2 && (!seen || $2 < least) { least = $2; calls = $1; name = $0; sub(/^[0-9]+ [0-9]+ /, "", name); seen++ }
    END {
      if (!seen) { print "workloads told no times" > "/dev/stderr"; exit 1 }
      printf "%s: %d calls, %.3f s, memory %.0f MiB\n", name, calls, least / 1e9, peak / 1024
    }'
done
