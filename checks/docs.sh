#!/usr/bin/env bash
# What the documents name is there.
cd "$(dirname "$0")/.." && exec python3 checks/docs.py
