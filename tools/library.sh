#!/bin/sh
# Proves and compiles the library, and names each crate as it is proved; target/library.log has all that was said.
# The kit's archive is for x86-64-v2 where no processor is named; ours runs on every x86-64.
set -eu
cd "$(dirname "$0")/.."
mkdir -p target/staticlib
echo "library: proving each crate that has changed, then compiling; some minutes where all is new"
status=target/library.status
{
    (cd crates/hawsermole && rt lib --cpu x86-64) 2>&1 && echo 0 >"$status" || echo 1 >"$status"
} | tee target/library.log |
    awk '/^rt: chose --jobs / { crate = $NF } /^logic=proved / { print "library: " crate " proved"; fflush() }'
[ "$(cat "$status")" -eq 0 ] || {
    cat target/library.log
    exit 1
}
made=crates/hawsermole/out/libhawsermole.a
archive=target/staticlib/libhawsermole.a
cmp -s "$made" "$archive" || cp "$made" "$archive"
