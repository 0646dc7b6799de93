#!/usr/bin/env bash
# What `check` says of modules: one for each rule of types, each limit at its greatest count and past it, and large ones.
. "$(dirname "$0")/built.bash"
python3 checks/rules.py
