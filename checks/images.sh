#!/usr/bin/env bash
# Images of compiled modules run as ordinary processes with the module's status, on the machine too, and show their rights to readelf.
# Files of images that break a rule are refused by the rule that a second reader names.
# A part whose tool or system is missing is left out and says so.
set -u
cd "$(dirname "$0")/.." || exit 1
failed=0
work=$(mktemp -d)
trap 'rm -rf "$work"' EXIT

fail() {
  echo "$1"
  failed=1
}

./read_main compile examples/square.ll --slot-seed 1 --reg-seed 2 >"$work/square.obj" || fail "square.ll is not compiled"
for seed in 0 1 18446744073709551615; do
  image=$work/image-$seed
  ./read_main lay "$work/square.obj" --layout-seed "$seed" >"$image" || fail "no image for seed $seed"
  said=$(./read_main run "$image" --steps 1000 2>&1) || fail "the machine fails for seed $seed"
  [ "$said" = "ended 227" ] || fail "the machine says '$said' for seed $seed"
  if [ "$(uname -sm)" = "Linux x86_64" ]; then
    chmod +x "$image"
    "$image"
    [ $? = 227 ] || fail "the process of seed $seed ends otherwise"
  else
    echo "left out: images as processes of Linux on x86-64"
  fi
  if command -v readelf >/dev/null; then
    # Both segments may be run, and neither may be read or written.
    [ "$(readelf -lW "$image" | grep -c '^  LOAD.*  E 0x1000$')" = 2 ] || fail "readelf shows other segments for seed $seed"
  else
    echo "left out: readelf"
  fi
done
cmp -s "$work/image-0" "$work/image-1" && fail "two seeds give the same image"
if command -v python3 >/dev/null; then
  python3 checks/loads.py crates/read_main/out/read_main 1 || fail "the readers of images differ"
else
  echo "left out: python3"
fi
exit "$failed"
