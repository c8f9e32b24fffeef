#!/bin/sh
# Compares the port with the Rust, call by call, every answer as bits.
#
#   oracle/compare.sh [WORDS..]             builds the archive where it is not fresh (sh build.sh --archive) and the comparison, and runs it
#   oracle/compare.sh --standin [WORDS..]   the same on oracle/standin.c, a second port in C: a trial of the comparison itself
#   oracle/compare.sh --help                this text
#
# WORDS  --calls N        how many calls (a million; --calls 100000 is a short run)
#        --seed S         other calls (1)
#        --entry NAME     one entry alone, as update_scaling
#        --vectors FILE   write the fixed list that crates/run_oracle replays, and compare nothing
#        --counts FILE    write the counts that it prints at its end to FILE, too, with the version, the machine and these words
#        --margins N      count over N points at the wall and N searches what document 02's Order 5 changes, and compare nothing
#
# Exit status 0: every answer the same, or the list is written; 1: a difference, which is shown; 2: bad words, or it could not be built.
set -eu
cd "$(dirname "$0")/.."
for word in "$@"; do
    case $word in -h | --help) awk 'NR > 1 { if (!/^#/) exit; sub(/^# ?/, ""); print }' oracle/compare.sh; exit 0 ;; esac
done
awaited=name counts='' shown=
for word in "$@"; do
    shift
    case $awaited:$word in
    name:--counts) awaited=counts && continue ;;
    counts:*) awaited=name counts=$word && continue ;;
    name:--standin) ;;
    name:--calls | name:--seed | name:--entry | name:--vectors | name:--margins) awaited=value ;;
    value:*) awaited=name ;;
    *) echo "compare: no such word: $word (try oracle/compare.sh --help)" >&2; exit 2 ;;
    esac
    set -- "$@" "$word"
    shown="$shown $word"
done
[ $awaited = name ] || { echo "compare: the last word takes a value (try oracle/compare.sh --help)" >&2; exit 2; }
mkdir -p target/oracle
port=target/native/libspindle.a
program=target/oracle/compare
if [ "${1:-}" = --standin ]; then
    shift
    port=oracle/standin.c
    program=target/oracle/compare-standin
else
    sh build.sh --archive || exit 2
fi
oracle/repaired target/oracle/rust && oracle/build.sh target/oracle/rust "$port" "$program" || exit 2
[ -n "$counts" ] || exec tools/native run "$program" "$@"
status=0
tools/native run "$program" "$@" >target/oracle/counts.txt || status=$?
cat target/oracle/counts.txt
[ $status = 0 ] || exit $status
{
    echo "The counts of the comparison with the Rust. docs/COMPARISON.md says how it is made, and what each table shows."
    echo "Written by oracle/compare.sh$shown --counts FILE, version $(sed -n 's/^#define SPINDLE_VERSION "\(.*\)"$/\1/p' include/spindle.h), on $(uname -m), over $port."
    echo "A kind of - is a cone of no kind. The columns 0 to 7 are the numbers given, in the order in which they are judged."
    echo
    sed '/^[0-9]* calls, [0-9]* s$/d' target/oracle/counts.txt
} >"$counts"
