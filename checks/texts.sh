#!/usr/bin/env bash
# Bad texts of modules: the program says of each what a second reader, written in Python from docs/module-text.md, says.
set -u
cd "$(dirname "$0")/.." || exit 1
if ! command -v python3 >/dev/null; then
  echo "left out: python3"
  exit 0
fi
./read_main compile examples/seven.ll --slot-seed 1 --reg-seed 2 >/dev/null || { echo "seven.ll is not compiled"; exit 1; }
exec python3 checks/texts.py crates/read_main/out/read_main 1
