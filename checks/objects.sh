#!/usr/bin/env bash
# Some 1,800 object files, well formed and not, against a second verifier: `lay` answers each as that one does. An object that goes by every
# kind of slot does the same in each layout. Left out where there is no python3.
set -u
cd "$(dirname "$0")/.." || exit 1
if ! command -v python3 >/dev/null; then
  echo "left out: python3 is wanted"
  exit 0
fi
# Builds the program where it isn't built yet.
./read_main run examples/seven.ll --steps 0 >/dev/null 2>&1
failed=0
python3 checks/objects.py crates/read_main/out/read_main 1 200 || failed=1
python3 checks/slots.py crates/read_main/out/read_main || failed=1
exit "$failed"
