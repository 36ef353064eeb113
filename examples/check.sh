#!/bin/sh
# Runs the built program on each example and compares what it prints with what is written there, and sees the
# statuses of command lines that are at fault.
# Build it first: (cd crates/marlowe && rt run -- --version)
cd "$(dirname "$0")/.." || exit 2
program=crates/marlowe/out/marlowe
failed=0
for example in crates/rows_commands/data/examples/*/; do
  example=${example%/}
  name=${example##*/}
  out=$("$program" run "$example/contract.json" "$example/state.json" "$example/transaction.json" 2>&1)
  status=$?
  if [ -f "$example/output.json" ]; then want=$(cat "$example/output.json"); wanted=0
  else want=$(cat "$example/refusal.txt"); wanted=1; fi
  table=$("$program" table "$example/contract.json" 2>&1)
  if [ "$table" != "$(cat "$example/table.txt")" ]; then echo "$name: another table"; failed=1; fi
  if [ "$out" = "$want" ] && [ "$status" = "$wanted" ]; then echo "$name: as written"
  else echo "$name: status $status, $out"; failed=1; fi
done
for example in examples/plays/*/; do
  example=${example%/}
  name=${example##*/}
  out=$("$program" play "$example/scenario.json" --one 2>&1)
  status=$?
  if [ "$out" = "$(cat "$example/output.txt")" ] && [ "$status" = 0 ]; then echo "$name: as written"
  else echo "$name: status $status, $out"; failed=1; fi
  # at once, the threads end as they do one after another
  out=$("$program" play "$example/scenario.json" 2>&1)
  if [ "$(echo "$out" | grep '^thread ')" = "$(grep '^thread ' "$example/output.txt")" ]; then echo "$name, at once: as written"
  else echo "$name, at once: $out"; failed=1; fi
done
# an analysis without alarms, one with an alarm, and one of a text that is no contract
for wanted in "escrow_1_the_buyer_deposits 0" "partial_pay 3" "not_json 1"; do
  name=${wanted% *}
  example=crates/rows_commands/data/examples/$name
  "$program" analyse "$example/contract.json" "$example/state.json" >/dev/null 2>&1
  status=$?
  if [ "$status" = "${wanted#* }" ]; then echo "$name, analysed: as written"
  else echo "$name, analysed: status $status"; failed=1; fi
done
# a long answer comes whole: a table of 9,004 lines, which are more than 65,536 bytes
long=$(mktemp)
awk 'BEGIN {
  printf "{\"when\":["
  for (i = 1; i <= 3000; i++) printf "%s{\"case\":{\"notify_if\":{\"value\":%d,\"gt\":0}},\"then\":\"close\"}", (i > 1 ? "," : ""), i
  printf "],\"timeout\":100,\"timeout_continuation\":\"close\"}"
}' > "$long"
out=$("$program" table "$long" 2>&1)
status=$?
lines=$(echo "$out" | wc -l)
if [ "$lines" = 9004 ] && [ "$(echo "$out" | tail -1)" = "root k1" ] && [ "$status" = 0 ]; then echo "a long table: as written"
else echo "a long table: status $status, $lines lines"; failed=1; fi
rm "$long"
# no file, and a word that is no text in UTF-8
out=$("$program" run no_such_file no_such_file no_such_file 2>&1)
status=$?
if [ "$out" = "unreadable no_such_file" ] && [ "$status" = 2 ]; then echo "a missing file: as written"
else echo "a missing file: status $status, $out"; failed=1; fi
for words in "run $(printf '\377') a b" "--help $(printf '\377')"; do
  # shellcheck disable=SC2086 # each word is one of the command line
  out=$("$program" $words 2>&1)
  status=$?
  if [ "$out" = "error: a word of the command line is no text in UTF-8" ] && [ "$status" = 2 ]; then echo "a word that is no text: as written"
  else echo "a word that is no text: status $status, $out"; failed=1; fi
done
exit $failed
