#!/usr/bin/env bash
# The gate. The proofs come first, so that what is linked isn't proved twice; their count is its last line again.
set -euo pipefail
cd "$(dirname "$0")/.."
said=$(mktemp)
trap 'rm -f "$said"' EXIT
rt ci | tee "$said"
# `rt ci` passes where a must-fail edit is bad: it no longer fits its file, and shows nothing.
if ! grep -q '^rt: ok' "$said" || grep -Eq '^rt: ok.*, [0-9]+ bad' "$said"; then
    echo "gate: no line 'rt: ok', or bad must-fail edits on it" >&2
    exit 1
fi
make --no-print-directory users
tail -n 1 "$said"
