#!/usr/bin/env bash
# The meaning of modules, and of their images: C programs taken by it, and built, do what they do when they are compiled by clang.
. "$(dirname "$0")/built.bash"
python3 checks/meaning.py
