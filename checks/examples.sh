#!/usr/bin/env bash
# Each module of examples/ prints what the tables there say and ends with their status: by its meaning, and in three layouts on the machine and
# as processes of Linux. The two objects there end in each layout.
set -u
cd "$(dirname "$0")/.." || exit 1
failed=0
count=0
work=$(mktemp -d)
trap 'rm -rf "$work"' EXIT

fail() {
  echo "$1"
  failed=1
}

# What was done, what it said or its status, and what was wanted of that; what it printed is in $work/printed, what was wanted in $work/wanted.
same() {
  [ "$2" = "$3" ] || fail "$1: '$2' in place of '$3'"
  cmp -s "$work/printed" "$work/wanted" || fail "$1 prints '$(cat "$work/printed")' in place of '$(cat "$work/wanted")'"
}

native=no
[ "$(uname -sm)" = "Linux x86_64" ] && native=yes
[ $native = yes ] || echo "left out: images as processes of Linux on x86-64"

# The layouts of the object $1, called $2, end with $3.
layouts() {
  local seed image said
  for seed in 3 4 18446744073709551615; do
    image=$work/image
    ./read_main lay "$1" --layout-seed $seed >"$image" || fail "$2 has no image for seed $seed"
    said=$(./read_main run "$image" --steps 100000 2>&1 >"$work/printed" <"$work/input")
    same "$2, seed $seed, on the machine" "$said" "ended $3"
    if [ $native = yes ]; then
      chmod +x "$image"
      "$image" >"$work/printed" <"$work/input"
      same "$2, seed $seed, as a process" $? "$3"
    fi
    count=$((count + 1))
  done
}

# A row for each module: its name, its status, its input and what it prints, with - where there is none.
awk -F' *[|] *' '/^[|] `[a-z_]*[.]ll` [|]/ {
  gsub(/`/, ""); sub(/[.]ll$/, "", $2)
  print $2, $(NF - 1), (NF == 7 && $4 != "" ? $4 : "-"), (NF == 7 && $5 != "" ? $5 : "-")
}' examples/README.md >"$work/listed"
[ "$(wc -l <"$work/listed")" = "$(ls examples/*.ll | wc -l)" ] || fail "the tables and the files differ"
while read -r name status input printed; do
  printf '%b' "${input#-}" >"$work/input"
  printf '%b' "${printed#-}" >"$work/wanted"
  said=$(./read_main eval "examples/$name.ll" --steps 100000 2>&1 >"$work/printed" <"$work/input")
  same "$name by its meaning" "$said" "ended $status"
  ./read_main compile "examples/$name.ll" --slot-seed 1 --reg-seed 2 >"$work/object" || fail "$name is not compiled"
  layouts "$work/object" "$name" "$status"
done <"$work/listed"
: >"$work/input"
: >"$work/wanted"
for object in plain guarded; do
  layouts "examples/$object.obj" "$object" 7
done
echo "$count images of $(wc -l <"$work/listed") modules and two objects"
exit "$failed"
