#!/usr/bin/env bash
# Times `audit` on the scenarios of bench/replay.sh, in the same way.
command=audit
. "$(dirname "$0")/replay.sh"
