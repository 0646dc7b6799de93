#!/usr/bin/env bash
# Generated modules are valid and in canonical text, and their images print and end as their meaning does.
set -u
cd "$(dirname "$0")/.." || exit 1
failed=0
work=$(mktemp -d)
trap 'rm -rf "$work"' EXIT

fail() {
  echo "$1"
  failed=1
}

for number in 1 2 7 1000 4000; do
  module=$work/$number.ll
  ./read_main gen --number $number >"$module" || fail "$number: no module"
  [ "$(./read_main check "$module" 2>&1)" = valid ] || fail "$number: not valid"
  ./read_main print "$module" | cmp -s - "$module" || fail "$number: another canonical text"
  meant=$(./read_main eval "$module" --steps 10000000 2>&1)
  for seed in 3 4; do
    ./read_main build "$module" --slot-seed $seed --reg-seed $seed --layout-seed $seed >"$work/image" || fail "$number: not built"
    [ "$(./read_main run "$work/image" --steps 10000000 2>&1)" = "$meant" ] || fail "$number, seed $seed: the image prints or ends otherwise"
  done
done
letters=BEHKNADGJMPCFILO
letters=$letters$letters$letters$letters$letters$letters"BEHK"
[ "$(./read_main eval "$work/1.ll" --steps 10000000 2>/dev/null)" = "$letters" ] || fail "1: other letters"
for number in 0 4001; do
  ./read_main gen --number $number >"$work/none" 2>/dev/null
  [ $? = 2 ] || fail "$number is taken"
done
echo "generated modules of up to 4,000 functions"
exit "$failed"
