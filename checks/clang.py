"""The C programs of programs/ as modules of LLVM IR text, as clang makes them."""

import os
import shutil
import subprocess

HERE = os.path.dirname(os.path.abspath(__file__))
FOLDER = os.path.join(HERE, "programs")
INPUT = b"the quick brown fox\njumps over the lazy dog\n"


def run(words, data=b""):
    done = subprocess.run(words, input=data, stdout=subprocess.PIPE, stderr=subprocess.PIPE, check=False)
    return done.returncode, done.stdout, done.stderr


def are_here(*tools):
    """Whether the tools are here; says so where they aren't."""
    missing = [tool for tool in tools if shutil.which(tool) is None]
    if missing:
        print("left out: programs that clang compiles, since these tools aren't here:", *missing)
    return not missing


def programs():
    """The name and the path of each program."""
    return [(name, os.path.join(FOLDER, name)) for name in sorted(os.listdir(FOLDER)) if name.endswith(".c")]


def module_of(source, target):
    """Writes the module of a C program; what clang says where it fails."""
    code, _, said = run(["clang", "-w", "-O0", "-mllvm", "-opaque-pointers", "-S", "-emit-llvm", source, "-o", target])
    return said if code else b""
