#!/usr/bin/env bash
# 2,500 random instructions, 36 that stop, and 200 random modules on this processor and on the machine: no difference. Left out where there is no such processor or no python3.
set -u
cd "$(dirname "$0")/.." || exit 1
if [ "$(uname -sm)" != "Linux x86_64" ] || ! command -v python3 >/dev/null; then
  echo "left out: Linux on x86-64 and python3 are wanted"
  exit 0
fi
# Builds the program where it isn't built yet.
./read_main run examples/seven.ll --steps 0 >/dev/null 2>&1
failed=0
python3 checks/processor.py crates/read_main/out/read_main 1 25 100 || failed=1
python3 checks/modules.py crates/read_main/out/read_main 1 200 || failed=1
exit "$failed"
