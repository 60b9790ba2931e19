# Sourced by what times the proved program, `program`, on scenarios, in `folder`, which is gone at the end. Needs `rt run`
# to have been run in crates/bakerystore, and `perf`.
set -eu
cd "$(dirname "$0")/.."
program=$PWD/crates/bakerystore/out/bakerystore
folder=$(mktemp -d)
trap 'rm -rf "$folder"' EXIT
python3 bench/scenarios.py "$folder"
