#!/usr/bin/env bash
# Builds `workloads` and times the making of the largest board, and word steps of ports, alone and on threads of their own;
# the last line is the most memory that the program had, nearly all of it for the largest board.
# bench/board.sh [CALLS [TIMES]]: so many calls of a port alone, 300 if not said, and so many times a hundred turns of each
# port on a thread, 20,000 if not said.
set -euo pipefail
calls=${1:-300}
times=${2:-20000}
cd "$(dirname "$0")/../crates/workloads"
rt run >/dev/null 2>&1
/usr/bin/time -f 'peak %M' out/workloads board "$calls" "$times" 2>&1 >/dev/null | awk '
  /largest board$/ { printf "largest board, %d ports: %.1f ms\n", $1, $2 / 1e6; seen++ }
  match($0, /(alone|together) of .*/) { printf "%s: %.1f ns on average over %d word steps\n", substr($0, RSTART), $2 / $1, $1; seen++ }
  $1 == "peak" { printf "memory: %.1f MiB\n", $2 / 1024; seen++ }
  END { if (seen != 8) { print "workloads told no times" > "/dev/stderr"; exit 1 } }'
