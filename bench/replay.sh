#!/usr/bin/env bash
# Times `replay` on scenarios of up to 260 million events, each twelve times: the least of the times and their lower quartile.
. "$(dirname "$0")/program.sh"
for run in lone-2 lone-16 turns-2 turns-8 turns-16 waiting overlapped crowd-2 crowd-8 crowd-16 failing-4 failing-8 failing-16; do
  events=$("$program" replay "$folder/$run" | awk '/^end events/ { print $3 }')
  for _ in {1..12}; do
    perf stat -x , -e task-clock "$program" "${command:-replay}" "$folder/$run" 2>&1 >/dev/null
  done | sort -n | awk -F , -v run="$run" -v events="$events" '
    NR == 1 { least = $1 }
    NR == 4 { printf "%-10s %9d events %6.1f to %.1f ns an event\n", run, events, least * 1e6 / events, $1 * 1e6 / events }'
done
