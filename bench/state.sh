#!/usr/bin/env bash
# Times `state` at the end of runs of some ten million events, and in turn with it `replay` and `calls` of these, each so many
# times, 3 if not said: the least of the processor times. And the most memory that `state` takes, of a run of 1,000 events and of
# all, and that `calls` takes.
# bench/state.sh [TIMES].
times=${1:-3}
. "$(dirname "$0")/program.sh"

# one run of the program: its processor time in milliseconds
run() {
  perf stat -x , -e task-clock "$program" "$@" 2>&1 >/dev/null | awk -F , '/task-clock/ { print $1 }'
}

memory() { # of a run of the program, in KiB
  /usr/bin/time -f %M "$program" "$@" 2>&1 >/dev/null
}

for scenario in lone-2 turns-2 crowd-2 crowd-16 failing-4; do
  events=$("$program" replay "$folder/$scenario" | awk '/^end events/ { print $3 }')
  for _ in $(seq "$times"); do
    echo "$(run replay "$folder/$scenario") $(run state --at end "$folder/$scenario") $(run calls "$folder/$scenario")"
  done | awk -v scenario="$scenario" -v events="$events" '
    NR == 1 || $1 < replay { replay = $1 }
    NR == 1 || $2 < state { state = $2 }
    NR == 1 || $3 < calls { calls = $3 }
    END {
      each = 1e6 / events
      printf "%-10s %9d events: replay %5.1f ns an event, state %5.1f, calls %5.1f\n", scenario, events, replay * each, state * each, calls * each
    }'
  printf '%-10s state %6d KiB after 1000 events, %6d KiB after all; calls %6d KiB\n' "$scenario" \
    "$(memory state --at 1000 "$folder/$scenario")" "$(memory state --at end "$folder/$scenario")" "$(memory calls "$folder/$scenario")"
done
