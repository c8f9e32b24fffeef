#!/bin/sh
# Proves the library, builds it and the programs over traces for this machine (x86-64 or Arm) in target/native, and runs examples/plan.c over it.
#
#   sh build.sh                     all of that
#   sh build.sh --archive           the library alone, libspindle.a and libspindle.so.1; where it is fresh, nothing
#   sh build.sh --programs          the programs over traces alone: replay, rescue, thin, sheet and show
#   sh build.sh --fresh             builds nothing: status 0 if the library is there and fresh, 1 if it is not
#   sh build.sh --install PREFIX    header, libraries, files for pkg-config and CMake, programs, man pages, papers and examples, below the folder PREFIX
#   sh build.sh --uninstall PREFIX  removes what was installed there
#   sh build.sh --package           the same files as target/package/spindle-VERSION-MACHINE.tar.gz, with its sha256 beside it
#   sh build.sh --help              this text
#
# --install looks at two variables: LIBDIR, the folder of the libraries below PREFIX (lib), and DESTDIR, a folder that stands before PREFIX while the
# files are put there. --uninstall looks at DESTDIR; the list of what was installed tells it the rest. By that list --install also removes what another
# version put there and this one has not. PREFIX holds no blank, since the words that pkg-config prints could not be told apart then.
# The library is fresh if it is the one last built here, by this kit, from the library's files as they are now (by their sums, not their dates).
# Exit status 0: done; 1: something was not proved or not built; 2: bad usage, or a command is missing.
set -eu
from=$PWD
cd "$(dirname "$0")"

# The programs that are installed beside the library: crates with a main.
programs='replay rescue thin sheet'

die() { echo "build: $*" >&2; exit 1; }
usage() { echo "build: $* (try sh build.sh --help)" >&2; exit 2; }

job=${1:-all}
case $job in
all | --archive | --programs | --fresh | --package) [ $# -le 1 ] || usage "$job takes no further word: $2" ;;
--install | --uninstall) [ $# -eq 2 ] && [ -n "$2" ] || usage "$job takes one folder" ;;
-h | --help) awk 'NR > 1 { if (!/^#/) exit; sub(/^# ?/, ""); print }' build.sh; exit 0 ;;
*) usage "no such option: $job" ;;
esac
case ${LIBDIR:-lib} in /* | . | ./* | */. | */./* | */ | .. | ../* | */.. | */../*) usage "LIBDIR is a folder below PREFIX, as lib64: ${LIBDIR:-}" ;; esac

[ "$job" = --uninstall ] || command -v rt >/dev/null 2>&1 || { echo "build: the Rattle kit's command rt is not on the PATH; install the kit first" >&2; exit 2; }

version=$(sed -n 's/^#define SPINDLE_VERSION "\(.*\)"$/\1/p' include/spindle.h)
machine=$(uname -m)
archive=target/staticlib/libspindle.a
module=target/staticlib/spindle.bc
native=target/native
record=$native/made-of
log=target/log/build.txt

# What a proved crate is made of: the kit, and the lines and files of the crates that it reaches.
proved_of() {
    {
        rt version
        tools/below "$1"
        for name in $(tools/below "$1" | sed 's/:.*//'); do
            find "crates/$name/src" "crates/$name/specs" "crates/$name/proofs" -type f -exec sha256sum {} + 2>/dev/null | LC_ALL=C sort
        done
    } | sha256sum
}

# What this machine's library is made of beside that: the header, from which the face is written, the tools that compile it, and for which machine.
native_of() {
    {
        cat include/spindle.h tools/native tools/shim
        echo "$machine ${SPINDLE_MACHINE:-} ${SPINDLE_SHIM:-}"
    } | sha256sum
}

sums() { cat "$@" 2>/dev/null | sha256sum; }
proved() { [ -f $archive ] && [ -f $module ] && [ -f target/staticlib/made-of ] && [ "$(cat target/staticlib/made-of)" = "$(proved_of spindle_c; sums $archive $module)" ]; }
fresh() { proved && [ -f $record ] && [ "$(cat $record)" = "$(native_of; sums $archive $module; sums $native/libspindle.a $native/libspindle.so.1)" ]; }

build_archive() {
    ! fresh || return 0
    if ! proved; then
        [ "$(rt version)" = "$(cat KIT-ID)" ] || echo "build: note: the kit here is '$(rt version)'; the file KIT-ID names the one that this library was proved with, '$(cat KIT-ID)'"
        echo "build: proving the library and building it: some minutes the first time, a line for each crate; the whole output goes to $log"
        rm -f target/staticlib/made-of target/log/build.status
        of=$(proved_of spindle_c)
        { tools/native keep spindle_c target/staticlib 2>&1 && echo 0 >target/log/build.status || echo 1 >target/log/build.status; } | tee "$log" | {
            # the shell's own read shows a line at once, where an awk may wait for a block of them
            while IFS= read -r line; do
                case $line in
                '== summary') ;;
                '== '*) echo "build: ${line#== }" ;;
                esac
            done
        }
        [ "$(cat target/log/build.status 2>/dev/null)" = 0 ] || { tail -n 20 "$log" >&2; die "the library was not proved, or not built"; }
        mv -f target/staticlib/libspindle_c.a $archive
        mv -f target/staticlib/spindle_c.bc $module
        { echo "$of"; sums $archive $module; } >target/staticlib/made-of
    fi
    rm -f $record
    tools/native library $native || die "the library was not built for $machine"
    { native_of; sums $archive $module; sums $native/libspindle.a $native/libspindle.so.1; } >$record
    echo "build: $native/libspindle.a and $native/libspindle.so.1, for $machine"
}

build_programs() {
    mkdir -p target/module
    for program in $programs; do
        made="target/module/$program target/module/$program.bc"
        of=$(proved_of "$program")
        # shellcheck disable=SC2086
        [ "$(cat "target/module/$program.of" 2>/dev/null)" = "$(echo "$of"; sums $made)" ] || {
            tools/native keep "$program" target/module >"target/log/$program.txt" 2>&1 \
                || { tail -n 20 "target/log/$program.txt" >&2; die "the program $program was not built"; }
            { echo "$of"; sums $made; } >"target/module/$program.of"
        }
        tools/native program "$program" $native || die "the program $program was not built for $machine"
        echo "build: $native/$program"
    done
    # show is C over the library, and no crate
    build_archive
    tools/native cc $native/show -Iinclude programs/show.c $native/libspindle.a || die "the program show was not built"
    echo "build: $native/show"
}

# put PATH FILE [MODE]: the file as PATH below the prefix, and a line for it in the list of what was installed
put() {
    place=$DESTDIR$prefix/$1
    mkdir -p "$(dirname "$place")"
    rm -f "$place"
    cp "$2" "$place"
    chmod "${3:-644}" "$place"
    echo "$1" >>"$list"
    echo "build: $place"
}

# lead PATH TARGET: a link as PATH below the prefix, and its line in the list
lead() {
    mkdir -p "$(dirname "$DESTDIR$prefix/$1")"
    ln -sf "$2" "$DESTDIR$prefix/$1"
    echo "$1" >>"$list"
}

# remove_files: the paths that are read, below $DESTDIR$prefix
remove_files() {
    while IFS= read -r path; do
        rm -f "$DESTDIR$prefix/$path"
        echo "build: removed $DESTDIR$prefix/$path"
        # its folders, as far up as they are empty
        folder=$(dirname "$path")
        while [ "$folder" != . ] && rmdir "$DESTDIR$prefix/$folder" 2>/dev/null; do folder=$(dirname "$folder"); done
    done
}

# install_files: everything, below $DESTDIR$prefix
install_files() {
    list=target/install/files
    rm -rf target/install
    mkdir -p target/install
    : >$list
    # the way back from the folder of spindle.pc and from that of spindle-config.cmake to PREFIX, so that the folder may be moved
    up=$(echo "$libdir/pkgconfig" | sed 's,[^/][^/]*,..,g')
    cat >target/install/spindle.pc <<EOF
prefix=\${pcfiledir}/$up
libdir=\${prefix}/$libdir
Name: spindle
Description: Step searches and scalings for the exponential, power and generalized power cone, proved
Version: $version
Cflags: -I\${prefix}/include
Libs: -L\${libdir} -lspindle
EOF
    cat >target/install/spindle-config.cmake <<EOF
# spindle::spindle is the archive, spindle::shared the shared library.
get_filename_component(_spindle_prefix "\${CMAKE_CURRENT_LIST_DIR}/$up/.." ABSOLUTE)
foreach(_spindle_form IN ITEMS spindle shared)
    if(NOT TARGET spindle::\${_spindle_form})
        if(_spindle_form STREQUAL shared)
            add_library(spindle::shared SHARED IMPORTED)
            set_target_properties(spindle::shared PROPERTIES IMPORTED_SONAME libspindle.so.1 IMPORTED_LOCATION "\${_spindle_prefix}/$libdir/libspindle.so.1")
        else()
            add_library(spindle::spindle STATIC IMPORTED)
            set_target_properties(spindle::spindle PROPERTIES IMPORTED_LOCATION "\${_spindle_prefix}/$libdir/libspindle.a")
        endif()
        set_target_properties(spindle::\${_spindle_form} PROPERTIES INTERFACE_INCLUDE_DIRECTORIES "\${_spindle_prefix}/include")
    endif()
endforeach()
unset(_spindle_form)
unset(_spindle_prefix)
EOF
    cat >target/install/spindle-config-version.cmake <<EOF
# A caller that asks for 1.0 takes every later 1.x.
set(PACKAGE_VERSION $version)
string(REGEX MATCH "^[0-9]+" _spindle_first "\${PACKAGE_FIND_VERSION}")
if(PACKAGE_FIND_VERSION VERSION_GREATER PACKAGE_VERSION OR NOT _spindle_first STREQUAL "${version%%.*}")
    set(PACKAGE_VERSION_COMPATIBLE FALSE)
else()
    set(PACKAGE_VERSION_COMPATIBLE TRUE)
endif()
if(PACKAGE_FIND_VERSION VERSION_EQUAL PACKAGE_VERSION)
    set(PACKAGE_VERSION_EXACT TRUE)
endif()
unset(_spindle_first)
EOF
    put include/spindle.h include/spindle.h
    put "$libdir/libspindle.a" $native/libspindle.a
    put "$libdir/libspindle.so.1" $native/libspindle.so.1 755
    lead "$libdir/libspindle.so" libspindle.so.1
    put "$libdir/pkgconfig/spindle.pc" target/install/spindle.pc
    for file in spindle-config.cmake spindle-config-version.cmake; do put "$libdir/cmake/spindle/$file" target/install/$file; done
    put bin/spindle tools/spindle 755
    for program in $programs show; do put "libexec/spindle/$program" "$native/$program" 755; done
    for page in man/*.[1-9]; do put "share/man/man${page##*.}/${page#man/}" "$page"; done
    # the papers stand to each other as they do here, so that their links hold
    for paper in README.md LICENSE NOTICE CHANGELOG.md docs/*.md docs/*.txt docs/orders/*.md examples/*.c examples/*.rs examples/*.sh examples/*.stdout; do
        put "share/doc/spindle/$paper" "$paper"
    done
    lead share/doc/spindle/include/spindle.h ../../../../include/spindle.h
    put share/doc/spindle/files $list
}

mkdir -p target/log
# as the shell that called us means it; what is installed is for all to read, whatever the caller's umask is
case ${DESTDIR:-} in '' | /*) DESTDIR=${DESTDIR:-} ;; *) DESTDIR=$from/$DESTDIR ;; esac
umask 022
libdir=${LIBDIR:-lib}
case $job in
--install | --uninstall) case $2 in /*) prefix=${2%/} ;; *) prefix=$from/${2%/} ;; esac ;;
esac
# --uninstall takes such a folder, which an earlier version may have filled
case $job:${prefix:-} in --install:*[[:space:]]*) usage "PREFIX must not hold a blank: '$prefix'" ;; esac
case $job in
--fresh)
    fresh
    ;;
--archive)
    build_archive
    ;;
--programs)
    build_programs
    ;;
all)
    build_archive
    build_programs
    mkdir -p target/examples
    tools/native cc target/examples/plan -Iinclude examples/plan.c $native/libspindle.a
    tools/native run target/examples/plan
    ;;
--install)
    build_archive
    build_programs
    cat "$DESTDIR$prefix/share/doc/spindle/files" >target/log/earlier.txt 2>/dev/null || true
    install_files
    LC_ALL=C grep -vxFf $list target/log/earlier.txt | remove_files
    ;;
--uninstall)
    list=$DESTDIR$prefix/share/doc/spindle/files
    [ -f "$list" ] || die "nothing was installed below $DESTDIR$prefix: there is no $list"
    cp "$list" target/log/uninstall.txt
    echo share/doc/spindle/files >>target/log/uninstall.txt
    remove_files <target/log/uninstall.txt
    ;;
--package)
    build_archive
    build_programs
    name=spindle-$version-$machine
    rm -rf target/package
    mkdir -p target/package
    DESTDIR=$PWD/target/package
    prefix=/$name
    install_files >/dev/null
    # the same files give the same bytes
    (
        cd target/package
        find "$name" ! -type d | LC_ALL=C sort >files
        tar --create --format=ustar --owner=0 --group=0 --numeric-owner --mtime='@0' --files-from=files --file="$name.tar"
        gzip -n "$name.tar"
        sha256sum "$name.tar.gz" >"$name.tar.gz.sha256"
        rm -rf "${name:?}" files
    ) || die "the package was not made"
    echo "build: target/package/$name.tar.gz"
    cat "target/package/$name.tar.gz.sha256"
    ;;
esac
