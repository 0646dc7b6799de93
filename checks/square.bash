# For checks to source: makes the images of examples/square.ll for the layout seeds 3 and 4, as $work/image-3 and $work/image-4.
set -u
cd "$(dirname "${BASH_SOURCE[0]}")/.." || exit 1
work=$(mktemp -d)
trap 'rm -rf "$work"' EXIT

fail() {
  echo "$1"
  exit 1
}

./read_main compile examples/square.ll --slot-seed 1 --reg-seed 2 >"$work/square.obj" || fail "square.ll is not compiled"
for seed in 3 4; do
  ./read_main lay "$work/square.obj" --layout-seed "$seed" >"$work/image-$seed" || fail "no image for seed $seed"
done
