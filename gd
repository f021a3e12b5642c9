#!/bin/sh
# Runs the proved program `gd` in the caller's folder. Where it is not there, or a crate has a newer source, it is
# built first (tools/build.py). Where that fails, the status is 125, which is none of the program's own.
self=$(readlink -f -- "$0") || exit 125
top=$(dirname -- "$self")
program=$top/crates/gd_command/out/gd_command

newer_source() {
    find "$top/crates.txt" "$top"/crates/*/src "$top"/crates/*/specs "$top"/crates/*/proofs -newer "$program" |
        head -n 1
}

if [ ! -x "$program" ] || [ -n "$(newer_source)" ]; then
    python3 "$top/tools/build.py" || exit 125
fi
exec "$program" "$@"
