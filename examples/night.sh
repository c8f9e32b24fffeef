#!/bin/sh
# A host's night, end to end: examples/night.c solves a plan and keeps its searches in files of at most 65,536 bytes, the program replay runs them again;
# then one byte of one recorded step is changed, and replay says where.
#
#   sh examples/night.sh          all of that, over target/native/libspindle.a and target/native/replay (built first where they are missing)
#   sh examples/night.sh --help   this text
#
# Prints each command and what it says. Exit status 0: every command ran; 1: one failed; 2: bad usage.
set -eu
cd "$(dirname "$0")/.."
case ${1:-} in
'') ;;
-h | --help) awk 'NR > 1 { if (!/^#/) exit; sub(/^# ?/, ""); print }' examples/night.sh; exit 0 ;;
*) echo "night: no such option: $1 (try sh examples/night.sh --help)" >&2; exit 2 ;;
esac

sh build.sh --archive
[ -e target/native/replay ] || sh build.sh --programs
top=$PWD
work=$(mktemp -d)
trap 'rm -rf "$work"' EXIT
tools/native cc "$work/night" -Iinclude examples/night.c target/native/libspindle.a

# run PROGRAM WORDS..: shows the command, and runs it in the work folder
run() {
    program=$1
    shift
    echo "\$ $(basename "$program") $*"
    (cd "$work" && "$top/tools/native" run "$program" "$@")
}
run "$work/night" night.trace
for file in night.trace night.trace.2 night.trace.3 night.trace.4; do run "$top/target/native/replay" "$file"; done
run "$work/night" night.trace.2 7
run "$top/target/native/replay" night.trace.2
