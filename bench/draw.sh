#!/usr/bin/env bash
# Times `draw` and `draw-svg` beside `replay` on runs of some thousand lines, each twelve times: the least of the processor
# times. And the most memory that `draw` takes, on each and on a run of one call.
. "$(dirname "$0")/program.sh"

least() { # of twelve runs of the program, in milliseconds
  for _ in {1..12}; do
    perf stat -x , -e task-clock "$program" "$@" 2>&1 >/dev/null
  done | sort -n | awk -F , 'NR == 1 { printf "%.1f", $1 }'
}

memory() { # in KiB
  /usr/bin/time -f %M "$program" draw "$1" 2>&1 >/dev/null
}

for run in drawn-2 drawn-16; do
  lines=$("$program" replay "$folder/$run" | wc -l)
  printf '%-8s %6d lines: replay %s ms, draw %s ms, draw-svg %s ms; draw takes %d KiB\n' \
    "$run" "$lines" "$(least replay "$folder/$run")" "$(least draw "$folder/$run")" "$(least draw-svg "$folder/$run")" "$(memory "$folder/$run")"
done
printf 'one call: draw takes %d KiB\n' "$(memory examples/worked/one-process-write/scenario)"
