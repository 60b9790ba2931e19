#!/usr/bin/env bash
# Times `judge` and `judge --why` of traces of 15 million entries, each six times: the least of the processor times. And the most
# memory that `judge` takes, of traces of 1,000 entries and of all. bench/traces.sh [ENTRIES].
entries=${1:-15000000}
. "$(dirname "$0")/program.sh"
mkdir "$folder/short" "$folder/long"
python3 bench/traces.py "$folder/short" 1000
python3 bench/traces.py "$folder/long" "$entries"

least() { # of the processor times of six runs of the program, in nanoseconds an entry
  for _ in {1..6}; do
    perf stat -x , -e task-clock "$program" "$@" 2>&1 >/dev/null | awk -F , '/task-clock/ { print $1 }'
  done | sort -n | awk -v entries="$entries" 'NR == 1 { printf "%5.1f", $1 * 1e6 / entries }'
}

memory() { # of a run of the program, in KiB
  /usr/bin/time -f %M "$program" judge "$1" 2>&1 >/dev/null
}

for trace in "$folder"/long/*; do
  name=${trace##*/}
  printf '%-14s judge %s ns an entry, judge --why %s; %d KiB, of 1,000 entries %d\n' "$name" "$(least judge "$trace")" \
    "$(least judge --why "$trace")" "$(memory "$trace")" "$(memory "$folder/short/$name")"
done
