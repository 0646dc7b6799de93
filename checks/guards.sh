#!/usr/bin/env bash
# An observer overwrites the word that a return takes from the stack: an object without guards goes where he says, its guarded form stops.
. "$(dirname "$0")/built.bash"
exec python3 checks/guards.py crates/read_main/out/read_main
