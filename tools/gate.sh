#!/usr/bin/env bash
# The gate: rt ci over the whole repository. It fails where that fails, and where an edit that must fail could not be tried.
set -euo pipefail
cd "$(dirname "$0")/.."
said=$(mktemp)
trap 'rm -f "$said"' EXIT
rt ci 2>&1 | tee "$said"
if grep -qE '^rt: ok.*, [1-9][0-9]* bad|: BAD EDIT' "$said"; then
    echo 'an edit that must fail could not be tried' >&2
    exit 1
fi
