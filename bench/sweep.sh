#!/usr/bin/env bash
# Measures `sweep` for one, two, four and eight processes. The mean time of a run is that of the fastest of TIMES sweeps of
# `swept-N`, 3 if not said. The mean instructions of a run are those of a sweep of `front-N`, beyond those of a `replay`: a front
# has few runs, because `valgrind` counts them. They are cut early, so other calls go on, and a run takes longer than in `swept-N`.
# bench/sweep.sh [TIMES].
times=${1:-3}
. "$(dirname "$0")/program.sh"

# one sweep of a file: its processor time in milliseconds
run() {
  perf stat -x , -e task-clock "$program" sweep "$1" 2>&1 >/dev/null | awk -F , '/task-clock/ { print $1 }'
}

# one run of a command on a file: how many instructions it takes
instructions() {
  valgrind --tool=callgrind --callgrind-out-file=/dev/null "$program" "$1" "$2" 2>&1 >/dev/null | awk '/Collected/ { print $4 }'
}

# how many runs a sweep of a file has
runs() {
  "$program" sweep "$1" | awk '/^sweep/ { print $3 }'
}

for processes in 1 2 4 8; do
  swept=$folder/swept-$processes front=$folder/front-$processes
  least=$(for _ in $(seq "$times"); do run "$swept"; done | sort -n | head -1)
  echo "$(runs "$swept") $least $(runs "$front") $(instructions sweep "$front") $(instructions replay "$front")" | awk -v processes="$processes" '{
    printf "swept-%d: %5d runs, %6.1f us a run; front-%d: %d runs, %8.0f instructions a run\n", processes, $1, $2 * 1e3 / $1, processes, $3, ($4 - $5) / $3
  }'
done
