#!/usr/bin/env bash
# Times adds on a full image. Needs `rt run` in crates/workloads to have been run.
set -euo pipefail
cd "$(dirname "$0")/.."
for run in 1 2 3; do
  crates/workloads/out/workloads image "${1:-1000000}" 2>&1 >/dev/null |
    awk '{ printf "%d rounds of 8 adds: %.1f ns on average over the adds\n", $1, $2 / $1 / 8 }'
done
