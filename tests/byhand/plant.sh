#!/usr/bin/env bash
# Tries mutants (wrong bodies) under each contract, crate by crate, lowest first. Prints the mutants that are still proved, the
# functions that accept any body, and the functions that could not be tried. By hand: it takes an hour or more. Arguments name crates;
# without arguments the script tries all of them. docs/TESTING.md lists what it found, and why each mutant was left.
set -u
cd "$(dirname "$0")/../.."
minutes=${MINUTES:-40}
crates=("$@")
if [ ${#crates[@]} = 0 ]; then
  mapfile -t crates < <(sed -n 's/^\([a-z_0-9]*\):.*/\1/p' crates.txt)
fi
for name in "${crates[@]}"; do
  echo "== $name"
  (cd "crates/$name" && rt plant --max 4000 --minutes "$minutes" --jobs "${JOBS:-4}" 2>&1) |
    grep -E '\b(proves|no-ensures|untested)\b'
done
