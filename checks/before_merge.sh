#!/bin/sh
# Runs what a merge wants beside `rt ci`, and prints a line for each: what it is, and `ok` or what it said.
#
# Needs    nothing built, but for the last eight: (cd crates/marlowe && rt run -- --version) for seven of them, of which the last needs
#          valgrind; and for what checks at hand spare (cd crates/rows_chain && rt run -- data/hub.txt data/common.txt) and `cc`.
# Usage    checks/before_merge.sh             all of them; the last eight are left out where what they need isn't there
# Expect   `ok` on each line and status 0; a minute without the programs.
# Else     below a line what that check said, and status 1.
cd "$(dirname "$0")/.." || exit 2
failed=0

try() {
  if said=$("$@" 2>&1); then
    echo "$* ok"
  else
    echo "$* failed"
    echo "$said"
    failed=1
  fi
}

try tools/believe.py --check
try checks/pages.py
try checks/schemas.py
try checks/named.py
try checks/refusals_cover.py
try checks/rows_cover.py
try checks/gallery.py
try checks/conformance.py
try checks/keeps_up.py 2000
try bench/plots.py
if [ -x crates/marlowe/out/marlowe ]; then
  try examples/check.sh
  try checks/commands.py
  try checks/next.py 300
  try checks/traces.py 300
  try checks/slips.py
  try checks/plays.py --race 3 1 crates/marlowe/out/marlowe
  if command -v valgrind > /dev/null; then
    try bench/step_costs.py
  else
    echo "bench/step_costs.py: left out, since there is no valgrind"
  fi
else
  echo "examples/check.sh, checks/commands.py, next.py, traces.py, slips.py, plays.py, bench/step_costs.py: left out, since the program isn't built"
fi
if [ -x crates/rows_chain/out/rows_chain ] && command -v cc > /dev/null; then
  try checks/refused_memory.py spared
else
  echo "checks/refused_memory.py spared: left out, since rows_chain isn't built, or there is no cc"
fi
exit $failed
