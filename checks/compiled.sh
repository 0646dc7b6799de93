#!/usr/bin/env bash
# Compiled modules: images do what clang's programs do, and what each operation means, and leak no address of code.
. "$(dirname "$0")/built.bash"
failed=0
python3 checks/compiled.py || failed=1
python3 checks/operations.py || failed=1
python3 checks/leaks.py || failed=1
exit "$failed"
