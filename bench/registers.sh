#!/usr/bin/env bash
# Builds `workloads` and times the steps of a register of 1728 bits with 16 readers.
# bench/registers.sh [TIMES]: so many whole writes (55,296 steps each) and whole reads (3,456 steps each), 1,000 if not said.
set -euo pipefail
times=${1:-1000}
cd "$(dirname "$0")/../crates/workloads"
rt run -- registers "$times" 2>&1 | awk '
  /^[0-9]+ [0-9]+ (write|read) steps$/ { printf "%s_step: %.1f ns on average over %d steps\n", $3, $2 / $1, $1; seen++ }
  END { if (seen != 2) { print "workloads told no times" > "/dev/stderr"; exit 1 } }'
