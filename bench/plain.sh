#!/usr/bin/env bash
# Times `plain` on two files.
. "$(dirname "$0")/program.sh"
printf 'bakery 1\n' > "$folder/empty"
for file in empty calls largest; do
  printf '%-8s ' "$file"
  perf stat -r 20 "$program" plain "$folder/$file" 2>&1 >/dev/null | grep -o '[0-9.]* msec task-clock' 
done
