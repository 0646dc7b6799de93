#!/usr/bin/env bash
# The picture of two layouts in docs/ is what its script draws from the images of examples/square.ll.
. "$(dirname "$0")/square.bash"
if ! command -v python3 >/dev/null; then
  echo "left out: python3"
  exit 0
fi
python3 docs/layouts.py "$work/square.obj" "$work/image-3" "$work/image-4" >"$work/layouts.svg" || fail "nothing is drawn"
cmp "$work/layouts.svg" docs/layouts.svg || fail "docs/layouts.svg isn't what docs/layouts.py draws"
echo "docs/layouts.svg is what the images show"
