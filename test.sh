#!/bin/sh
# Passes all tests of the repository. The last line is rt ci's own: 'N passed, 0 failed'.
#
#   sh test.sh            everything: first rt ci, which takes what it passed before on this machine from what is kept
#   sh test.sh --quick    only the checks of files: layout, lint, listed crates, the static library's source, the longest chain of crates, proof answers that
#                         say nothing, lemmas of agreement, edits' form, shim, numbers, names, versions, paths
#   sh test.sh --outside  only what runs over the library as it is built for this machine: the C examples, the fixed list, the kernels, a gradient, exact points,
#                         the traces, the programs over them with faults and in a wrong version, the comparison with the Rust, the Rust crate, the Python module, projects outside of the repository
#   sh test.sh --help     this text
#
# Exit status 0 only if everything passed; 2: bad usage, or a command is missing.
set -eu
cd "$(dirname "$0")"

say() { echo "test: $*"; }
die() { echo "test: $*" >&2; exit 1; }

[ $# -le 1 ] || { echo "test: one option at most (try sh test.sh --help)" >&2; exit 2; }
case ${1:-} in
'' | --quick | --outside) ;;
-h | --help) awk 'NR > 1 { if (!/^#/) exit; sub(/^# ?/, ""); print }' test.sh; exit 0 ;;
*) echo "test: no such option: $1 (try sh test.sh --help)" >&2; exit 2 ;;
esac

# Rust's installer puts its commands here, which not every shell has on its PATH.
[ ! -d "${HOME:-}/.cargo/bin" ] || PATH=$PATH:$HOME/.cargo/bin
tools='rt python3'
[ "${1:-}" = --quick ] || tools="$tools cc rustc cargo"
for tool in $tools; do
    command -v "$tool" >/dev/null 2>&1 || { echo "test: the command $tool is not on the PATH (the Rattle kit brings rt; Rust and the others stand beside it)" >&2; exit 2; }
done

# What needs the library, in target/native.
outside() {
    say "the library for this machine, and examples/plan.c over it"
    mkdir -p target/log
    sh build.sh >target/log/plan.txt 2>&1 || { tail -n 20 target/log/plan.txt >&2; die "sh build.sh failed"; }
    sed '/^build: /d' target/log/plan.txt | diff - examples/plan.stdout || die "examples/plan.c wrote something else than examples/plan.stdout"

    say "examples/night.sh: a plan's searches kept in a file and replayed, and one byte of a recorded step changed"
    sh examples/night.sh >target/log/night.txt 2>&1 || { tail -n 20 target/log/night.txt >&2; die "sh examples/night.sh failed"; }
    sed '/^build: /d' target/log/night.txt | diff - examples/night.stdout || die "examples/night.sh wrote something else than examples/night.stdout"

    say "examples/drain.c: a caller that passes its settings outright"
    tools/native cc target/examples/drain -Iinclude examples/drain.c target/native/libspindle.a
    tools/native run target/examples/drain | diff - examples/drain.stdout || die "examples/drain.c wrote something else than examples/drain.stdout"

    say "examples/fairshare.c: two plans solved, every point that they use tested"
    tools/native cc target/examples/fairshare -Iinclude examples/fairshare.c target/native/libspindle.a
    tools/native run target/examples/fairshare >target/log/fairshare.txt || { tail -n 20 target/log/fairshare.txt >&2; die "examples/fairshare.c failed"; }
    diff target/log/fairshare.txt examples/fairshare.stdout || die "examples/fairshare.c wrote something else than examples/fairshare.stdout"

    say "include/spindle.h as C99 and as C++"
    cc -std=c99 -pedantic -Wall -Wextra -Werror -fsyntax-only -x c include/spindle.h || die "include/spindle.h is not clean C99"
    if command -v c++ >/dev/null 2>&1; then c++ -std=c++11 -pedantic -Wall -Wextra -Werror -fsyntax-only -x c++ include/spindle.h || die "include/spindle.h is not clean C++"; fi
    cc -ffreestanding -nostdinc -isystem "$(cc -print-file-name=include)" -std=c99 -fsyntax-only -x c include/spindle.h \
        || die "include/spindle.h needs more than a freestanding compiler's headers"

    say "what the header refuses: another machine, 32 bits, the other order of bytes, packed structs"
    for words in -U__x86_64__\ -U__aarch64__ -D__ILP32__ -U__BYTE_ORDER__\ -D__BYTE_ORDER__=__ORDER_BIG_ENDIAN__ -D_WIN32 -D__APPLE__; do
        # shellcheck disable=SC2086
        if cc $words -fsyntax-only -x c include/spindle.h 2>target/log/refused.txt; then die "include/spindle.h takes $words"; fi
        grep -q '#error "spindle.h: the library is built for' target/log/refused.txt || die "include/spindle.h does not say why it refuses $words"
    done
    if cc -std=c11 -fpack-struct -fsyntax-only -x c include/spindle.h 2>target/log/refused.txt; then die "include/spindle.h takes packed structs"; fi
    grep -q 'begins at byte 8' target/log/refused.txt || die "include/spindle.h does not say why it refuses packed structs"

    say "the fixed list over each form of the library (tests/list/run)"
    tests/list/run

    say "the kernels from outside (a short run of tests/kernels/run)"
    tests/kernels/run --short

    say "the generalized primal gradient against the dual one (a short run of tests/gradient/run)"
    tests/gradient/run --short

    say "the answers of all three cones against the exact points (a short run of tests/certain/run)"
    tests/certain/run --short
    tests/certain/run --wrong

    say "the header's inline functions over a cone (a short run of tests/cone/run)"
    tests/cone/run --short

    say "one step for both sides of a plan against a plain loop (a short run of tests/plan_step/run)"
    tests/plan_step/run --short

    say "the command spindle: what it prints, and its statuses (tests/command/run)"
    tests/command/run

    say "traces written and read, against two other readings of their layout (tests/traces/run)"
    tests/traces/run

    say "the programs over traces where something fails: no space, a kill, a read, a folder that may not be written (tests/programs/run)"
    tests/programs/run

    say "wrong versions of the programs over traces must be seen there (a short run of tests/programs/wrong)"
    tests/programs/wrong --short

    say "the port against the Rust, call by call (a short run of oracle/compare.sh)"
    oracle/compare.sh --calls 300000

    say "the comparison itself: one change of the Rust must be seen, one wrong port refused (oracle/mutants.py)"
    oracle/mutants.py --only 'H[(0, 1)] = -l / r / r' --calls 20000
    oracle/mutants.py --ports --only 'last failed trial' --calls 20000

    say "the Rust crate bindings/rust"
    tools/rust-tests

    say "the Python module bindings/python"
    tests/python/run

    say "installed, packaged and removed; projects outside of the repository in C, C++ and Rust (tests/outside/run)"
    tests/outside/run
}

if [ "${1:-}" = --outside ]; then
    outside
    say "what runs over the archive passed"
    exit 0
fi

# What reads files alone.
quick() {
    say "layout of .rt and .antt files"
    find crates -path '*/out' -prune -o \( -name '*.rt' -o -name '*.antt' \) -exec "$(dirname "$(rt doc)")/bin/rattle" fmt --check {} + \
        || die "some files are not in the layout: run rt fmt in the crate's folder"

    say "shell, Python, Rust and C files (tools/lint)"
    tools/lint || die "tools/lint found something"

    say "every crate is listed in crates.txt"
    for folder in crates/*/; do
        name=$(basename "$folder")
        grep -Eq "^$name( [a-z0-9= ]+)?:" crates.txt || die "crates/$name is in no line of crates.txt"
    done

    floors=$(python3 -c '
floors = {}
for line in open("crates.txt", encoding="utf-8"):
    head, colon, below = line.split("#")[0].partition(":")
    if colon:
        floors[head.split()[0]] = 1 + max([floors.get(crate, 0) for crate in below.split()], default=0)
print(max(floors.values()))')
    say "the longest chain of crates in crates.txt has $floors floors"
    [ "$floors" -le 12 ] || die "a chain of crates in crates.txt has $floors floors, and 12 are the most (docs/DECISIONS.md)"

    say "the static library has the functions of crates/spindle, with their clauses (tools/face)"
    tools/face --check || die "crates/spindle_c is not what tools/face writes from crates/spindle"

    say "answers that say nothing stand in the list of their proof"
    tools/test-inline-needs >/dev/null || die "tools/test-inline-needs failed"
    silent=$(tools/inline-needs --check crates) || die "run tools/inline-needs crates:
$silent"

    say "every public function has its lemma of agreement"
    tools/test-agreement >/dev/null || die "tools/test-agreement failed"
    tools/agreement || die "a public function has no lemma that any two outcomes of its contract agree"

    say "every edit is a swap, is of a definition, or has a twin; none is of a proof"
    tools/test-edits >/dev/null || die "tools/test-edits failed"
    listed=$(tools/edits --list) || die "an edit is not in its form:
$(printf '%s\n' "$listed" | grep WRONG)"
    printf '%s\n' "$listed" | tail -n 1

    say "the C between the proved module and a caller (tools/shim)"
    tools/test-shim >/dev/null || die "tools/test-shim failed"
    tools/shim --check || die "a call over a record's parts takes them otherwise than include/spindle.h has them"

    say "docs/PROMISES.md and the header's comments name the numbers of the proved table; every call that can refuse is among what the contracts allow"
    tools/numbers --check || die "a table of numbers, or the calls that the theorems speak of, differ from the library's"

    say "every edit and every name of the code that the papers cite is there"
    tools/named || die "a paper names what is not there"

    say "header, Rust crate and CHANGELOG.md name one version"
    version=$(sed -n 's/^#define SPINDLE_VERSION "\(.*\)"$/\1/p' include/spindle.h)
    [ -n "$version" ] || die "include/spindle.h has no SPINDLE_VERSION"
    for file in bindings/rust/Cargo.toml bindings/rust/Cargo.lock; do
        grep -q "^version = \"$version\"\$" $file || die "$file has another version than include/spindle.h, $version"
    done
    number=$(echo "$version" | awk -F. '{ print $1 * 10000 + $2 * 100 + $3 }')
    grep -q "^#define SPINDLE_VERSION_NUMBER $number\$" include/spindle.h || die "SPINDLE_VERSION_NUMBER in include/spindle.h is not $number"
    grep -q "ensures { result ≡ $number }" crates/spindle/src/lib.rt || die "spindle_version in crates/spindle is not $number"
    grep -q "^version = \"$version\"\$" bindings/python/pyproject.toml || die "bindings/python/pyproject.toml has another version than include/spindle.h, $version"
    grep -q "^__version__ = \"$version\"\$" bindings/python/spindle/__init__.py || die "bindings/python/spindle has another version than include/spindle.h, $version"
    for page in man/*; do grep -q "^\.TH .* \"Obolspindle $version\"" "$page" || die "$page has another version than include/spindle.h, $version"; done
    grep -q "^## $version" CHANGELOG.md || die "CHANGELOG.md has no heading for version $version of include/spindle.h"

    say "no file names a path of a machine"
    roots='opt|tmp|root|home|mnt|srv|work|Users'
    if git rev-parse --git-dir >/dev/null 2>&1; then
        found=$(git grep --untracked -nIE "(^|[^A-Za-z0-9._/-])/($roots)/[A-Za-z]" -- . ':!docs/src' ':!test.sh' || true)
    else
        found=$(grep -rnIE "(^|[^A-Za-z0-9._/-])/($roots)/[A-Za-z]" --exclude-dir=target --exclude=test.sh . | grep -v '^\./docs/src/' || true)
    fi
    [ -z "$found" ] || die "paths of a machine:
$found"
    say "quick checks passed"
}

if [ "${1:-}" = --quick ]; then
    quick
    exit 0
fi

[ "$(rt version)" = "$(cat KIT-ID)" ] || say "note: the kit here is '$(rt version)'; the file KIT-ID names the one that this repository was proved with, '$(cat KIT-ID)'"

# Each part that runs beside this shell is a session of its own, so that this one, which waits for them, ends them when it is told to end.
logs=$(mktemp -d)
# rt runs proved programs as nobody, who has to reach them below this folder
chmod 711 "$logs"
started=
end() {
    for group in $started; do kill -- "-$group" 2>/dev/null || true; done
    for group in $started; do wait "$group" 2>/dev/null || true; done
    rm -rf "$logs"
}
trap end EXIT
trap 'exit 1' HUP INT PIPE TERM

say "proofs, must-fail edits, tests and programs (rt ci)"
# The last line is held back until all else has ended.
# shellcheck disable=SC2016
setsid sh -c '
    { rt ci 2>&1; echo $? >"$1/status"; } | tee "$1/ci.txt" | {
        IFS= read -r held && while IFS= read -r line; do
            printf "%s\n" "$held"
            held=$line
        done
    }' sh "$logs" &
started=$!
wait "$started" || true
started=
[ "$(cat "$logs/status" 2>/dev/null)" = 0 ] || { tail -n 1 "$logs/ci.txt"; die "rt ci failed"; }
# An edit that rt ci could not apply or read fails nothing there.
ok=$(grep '^rt: ok' "$logs/ci.txt") || die "rt ci has no line 'rt: ok'"
case $ok in *', '[1-9]*' bad'*) die "rt ci tells of must-fail edits that are bad: $ok" ;; esac
tools/edits --logs "$logs/ci.txt" || die "an edit that rt ci tried was not refused at a fact"

quick

say "the edits that rt ci does not try (tools/edits --rest) run beside what runs over the archive, and are shown after it"
TMPDIR=$logs setsid tools/edits --rest >"$logs/edits.txt" 2>&1 &
started=$!
passed=0 tried=0
# what rt ci has just proved stands in crates/*/out, and is not proved once more where all of it is there
SPINDLE_PROVED=1 setsid sh test.sh --outside &
outside=$!
started="$started $outside"
wait "$outside" || passed=1
wait "${started% *}" || tried=1
started=
cat "$logs/edits.txt"
[ $passed = 0 ] || die "a run over the archive failed"
[ $tried = 0 ] || die "tools/edits failed"
tail -n 1 "$logs/ci.txt"
