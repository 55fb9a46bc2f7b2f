#!/bin/bash
# The gate of the proof kit, rt ci, over all crates. It fails also where an edit of crates/*/must-fail can't be tried, a bad one, which rt ci
# tells and lets pass. Its last line is that of rt ci, 'N passed, M failed'.
set -e -o pipefail
cd "$(dirname "$0")/.."
mkdir -p target
rt ci | tee target/gate.log
if grep -qE '^rt: ok.* [0-9]+ bad' target/gate.log; then
    echo "failed: of the edits that must be refused, some are bad, as told above"
    exit 1
fi
