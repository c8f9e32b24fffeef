#!/bin/sh
# Builds the comparison for the machine of tools/native.
#
#   oracle/build.sh RUST ARCHIVE OUT    from the folder RUST of the four Rust files and the port's ARCHIVE (or a C file in its place); its parts stay in OUT.parts
#   oracle/build.sh --help              this text
#
# Exit status 2: bad usage, or a command is missing.
set -eu
case ${1:-} in -h | --help) awk 'NR > 1 { if (!/^#/) exit; sub(/^# ?/, ""); print }' "$0"; exit 0 ;; esac
[ $# -eq 3 ] || { echo "oracle/build.sh: it takes RUST ARCHIVE OUT (try oracle/build.sh --help)" >&2; exit 2; }
here=$(cd "$(dirname "$0")" && pwd)
root=$(dirname "$here")
rust=$(cd "$1" && pwd)
archive=$2
out=$3
work=$out.parts
mkdir -p "$work"

SPINDLE_RUST=$rust "$root/tools/rust-obj" "$work/oracle" "${SPINDLE_HARNESS:-$here/src}/lib.rs" oracle_panicked
"$root/tools/native" cc "$out" -I"$root/include" "$here/port.c" "$work/oracle.c" "$work/oracle.o" "$archive" -lm
