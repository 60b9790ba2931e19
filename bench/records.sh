#!/usr/bin/env bash
# Times `record`, `judge` and the two through a pipe, and `draw` of the scenario and of its record, on records of some ten million
# entries, each six times: the least of the processor times, and of the wall times of the pipe. And the most memory that `judge` takes,
# on the record of one call and on one of these.
. "$(dirname "$0")/program.sh"

least() { # WHAT ENTRIES, and milliseconds on standard input, one a line
  sort -n | awk -v what="$1" -v entries="$2" 'NR == 1 { printf "%-20s %9d entries %6.1f ns an entry\n", what, entries, $1 * 1e6 / entries }'
}

processor_time() { # of a run of the program, whose output goes nowhere
  perf stat -x , -e task-clock "$program" "$@" 2>&1 >/dev/null | awk -F , '/task-clock/ { print $1 }'
}

piped() {
  local begun ended
  begun=$(date +%s%N)
  "$program" record "$1" | "$program" judge - >&2
  ended=$(date +%s%N)
  awk -v ns=$((ended - begun)) 'BEGIN { print ns / 1e6 }'
}

memory() { # in KiB
  /usr/bin/time -f %M "$program" judge "$1" 2>&1 >/dev/null
}

for run in lone-2 recorded-2 crowd-16; do
  "$program" record "$folder/$run" > "$folder/record"
  entries=$("$program" judge "$folder/record" | awk '{ print $2 }')
  for _ in {1..6}; do processor_time record "$folder/$run"; done | least "record $run" "$entries"
  for _ in {1..6}; do processor_time judge "$folder/record"; done | least "judge $run" "$entries"
  for _ in {1..6}; do processor_time draw "$folder/$run"; done | least "draw $run" "$entries"
  for _ in {1..6}; do processor_time draw "$folder/record"; done | least "draw its record" "$entries"
  for _ in {1..6}; do piped "$folder/$run" 2>/dev/null; done | least "both $run" "$entries"
  printf 'judge %-14s %9d KiB\n' "$run" "$(memory "$folder/record")"
done
printf 'bakery 2\nprocesses 16\ntickets 32\nstamps 32\nopen a c:0\ncall 0 add a 1\nstep 0 1\n' | "$program" record - > "$folder/record"
printf 'judge %-14s %9d KiB\n' "one step" "$(memory "$folder/record")"
