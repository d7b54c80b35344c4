#!/usr/bin/env bash
# Proves every crate and runs every test: `rt ci`, whose last line is "N passed, 0 failed".
# From nothing it takes the time of all proofs; what it passed on this machine is kept for the next run.
set -u
cd "$(dirname "$0")" || exit 1
if ! command -v rt >/dev/null 2>&1; then
    echo "test.sh: the command rt of the Rattle kit isn't on the PATH (README.md, \"Requirements\")" >&2
    exit 1
fi
exec rt ci
