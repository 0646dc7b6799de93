#!/usr/bin/env bash
# Two layouts of an object differ as files, and show one text before their first instruction, after each, and once they have stopped; so do
# 1,000 layouts of a function in pieces.
. "$(dirname "$0")/square.bash"
cmp -s "$work/image-3" "$work/image-4" && fail "two seeds give the same image"

steps=0
stopped=0
while [ "$stopped" -lt 2 ]; do
  for seed in 3 4; do
    ./read_main show "$work/image-$seed" --steps "$steps" >"$work/text-$seed" || fail "nothing is shown for seed $seed after $steps"
  done
  cmp "$work/text-3" "$work/text-4" || fail "two layouts show different texts after $steps"
  grep -q '^outcome going$' "$work/text-3" || stopped=$((stopped + 1))
  steps=$((steps + 1))
  [ "$steps" -lt 100 ] || fail "no stop within 100 instructions"
done
grep -q '^outcome ended 227$' "$work/text-3" || fail "another end: $(grep '^outcome' "$work/text-3")"
echo "two layouts show one text at $steps places"
if command -v python3 >/dev/null; then
  python3 checks/pieces.py crates/read_main/out/read_main || fail "layouts of pieces differ"
else
  echo "left out: python3 is wanted for layouts of pieces"
fi
