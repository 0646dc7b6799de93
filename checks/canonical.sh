#!/usr/bin/env bash
# Module texts: every form read and printed, words without effect dropped, and what clang makes of C programs.
. "$(dirname "$0")/built.bash"
python3 checks/canonical.py
