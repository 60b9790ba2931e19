#!/usr/bin/env bash
# Times `race` on files of 4,000 calls in all, of 2, 4, 8 and 16 processes, each of which adds 1 to one counter and reads it by
# turns: the least wall time of so many races of each file, 10 if not said, and the processor time of that race.
# bench/race.sh [TIMES]. Needs `rt run` to have been run in crates/bakerystore.
times=${1:-10}
. "$(dirname "$0")/program.sh"
for processes in 2 4 8 16; do
  for _ in $(seq "$times"); do
    /usr/bin/time -f '%e %U %S' "$program" race "$folder/race-$processes" 2>&1 >/dev/null
  done | sort -n | awk -v processes="$processes" '
    NR == 1 { printf "race-%-2d %d calls %7.0f ms wall %7.0f ms of processors\n", processes, 4000, $1 * 1e3, ($2 + $3) * 1e3 }'
done
