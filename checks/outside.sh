#!/usr/bin/env bash
# Statuses that need a real outside: files that are missing, endless or no files, outputs that are full, closed or not read, an input that can't be read.
set -u
cd "$(dirname "$0")/.." || exit 1
failed=0
line=$(mktemp)
trap 'rm -f "$line"' EXIT

# What came, what was wanted: status and line.
same() {
  local said
  said=$(cat "$line")
  if [ "$2 $said" != "$3" ]; then
    echo "$1: '$2 $said' in place of '$3'"
    failed=1
  fi
}

compile() {
  ./read_main compile "$1" --slot-seed 1 --reg-seed 2 2>"$line"
}

compile missing.ll >/dev/null
same "a missing file" $? "3 file"
compile examples >/dev/null
same "a folder" $? "3 file"
compile /dev/zero >/dev/null
same "an endless file" $? "8 long"
compile /dev/null >/dev/null
same "an empty file" $? "4 no main"
compile <(cat examples/seven.ll) >/dev/null
same "a pipe as a file" $? "0 "
./read_main compile $'\xff' --slot-seed 1 --reg-seed 2 >/dev/null 2>"$line"
same "a word that isn't text" $? "2 words"
compile examples/seven.ll >/dev/full
same "a full output" $? "9 out"
compile examples/seven.ll >&-
same "a closed output" $? "9 out"
{ sleep 0.2; compile examples/seven.ll; echo $? >"$line.status"; } | true
same "an output that is not read" "$(cat "$line.status")" "9 out"
rm -f "$line.status"

# An image whose code takes a byte of the input to 0xBFFFFFF0.
image=$(mktemp)
{
  printf '\x7fELF\x02\x01\x01\0\0\0\0\0\0\0\0\0\x02\0\x3e\0\x01\0\0\0\0\0\0\x10\0\0\0\0\x40\0\0\0\0\0\0\0\0\0\0\0\0\0\0\0\0\0\0\0\x40\0\x38\0\x01\0\0\0\0\0\0\0'
  printf '\x01\0\0\0\x01\0\0\0\0\x10\0\0\0\0\0\0\0\0\0\x10\0\0\0\0\0\0\0\x10\0\0\0\0\x16\0\0\0\0\0\0\0\x16\0\0\0\0\0\0\0\0\x10\0\0\0\0\0\0'
  head -c 3976 /dev/zero
  printf '\xbe\xf0\xff\xff\xbf\xba\x01\0\0\0\xbf\0\0\0\0\xb8\0\0\0\0\x0f\x05'
} >"$image"
script=$(mktemp)
trap 'rm -f "$line" "$image" "$image.out" "$script"' EXIT
echo '9 read bffffff0 1' >"$script"
for words in "run $image --steps 9" "show $image --steps 9" "watch $image --script $script"; do
  # The words have no spaces in them.
  ./read_main $words >"$image.out" 2>"$line" </
  same "an input that can't be read, ${words%% *}" $? "10 input"
  [ ! -s "$image.out" ] || { echo "${words%% *} writes something"; failed=1; }
done
./read_main watch "$image" --script missing >"$image.out" 2>"$line" </dev/null
same "a missing script" $? "3 file"
./read_main watch "$line" --script missing >"$image.out" 2>"$script" </dev/null
[ "$(cat "$script")" = "image 1" ] || { echo "the script is looked at before the image"; failed=1; }
printf A | ./read_main show "$image" --steps 5 >"$image.out" 2>"$line"
same "a byte of the input" $? "0 "
grep -q '^00000000bffffff0 41000000000000000000000000000000$' "$image.out" || { echo "the byte is not shown"; failed=1; }
exit "$failed"
