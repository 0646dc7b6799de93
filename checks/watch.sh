#!/usr/bin/env bash
# Two layouts of an object give one report on reads over slots, code, stack and places without a segment. Reads of code are refused, and those of the stack answered.
. "$(dirname "$0")/square.bash"

# 25 places, each read before the first instruction and after 5, 10, .. 45: the slots, the widest range of code, constants, data, the stack and its two ends
places="10000000 10000005 10000010 1000005f 40000000 46474000 47c58000 4a000000 50000000 50010000"
places="$places 20000000 30000000 30000010 9ffff000 bfffff00 bfffff48 bfffff50 bfffff58 bfffff60 bfffffd0 bffffff0 bffffff8 bfffffff c0000000 ffffffffffffffff"
for steps in 0 5 10 15 20 25 30 35 40 45; do
  for place in $places; do
    echo "$steps read $place 8"
  done
done >"$work/reads"

for seed in 3 4; do
  ./read_main watch "$work/image-$seed" --script "$work/reads" >"$work/report-$seed" || fail "no report for seed $seed"
done
cmp "$work/report-3" "$work/report-4" || fail "two layouts give different reports"
grep -E '^[0-9]+ 00000000(1|4|5)' "$work/report-3" | grep -qv ' refused$' && fail "code was read"
grep -q '^25 00000000bfffff48 2a00000000000000$' "$work/report-3" || fail "the stack has another word: $(grep '^25 00000000bfffff48' "$work/report-3")"
grep -q '^25 00000000bffffff8 3500001000000000$' "$work/report-3" || fail "the way back is no slot's: $(grep '^25 00000000bffffff8' "$work/report-3")"
grep -q '^0 00000000bffffff8 0000000000000000$' "$work/report-3" || fail "the stack was not read"
printf '1 read 0 0\n' >"$work/bad"
said=$(./read_main watch "$work/image-3" --script "$work/bad" 2>&1 >"$work/nothing")
[ "$?:$said" = "7:script 1" ] || fail "a bad script is answered by $said"
echo "two layouts answer $(wc -l <"$work/reads") reads alike"
