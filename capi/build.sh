#!/bin/sh
# build.sh [--unproved | --asan | --tsan]: makes capi/build/libnekchhaul.a and libnekchhaul.so.2, of the proved static library
# nekchhaul_c, the kit's heap, and the C functions of nekchhaul.h. Needs `rt` of the Rattle kit, a C compiler and binutils.
#
# `rt lib` proves what isn't proved yet, which from nothing takes hours. After `rt ci` in a fresh checkout, whose proved
# libraries `rt lib` would make anew, the library is built over those, which proves nekchhaul_c alone. `--unproved` proves
# nothing and takes a minute or two, for trying; `nekchhaul_version` tells the two apart. It needs Python 3. `--asan` and `--tsan`
# are unproved builds that the address or the thread sanitizer sees into, as capi/build/asan/libnekchhaul.a and
# capi/build/tsan/libnekchhaul.a. NEKCHHAUL_ARCHIVE=FILE takes an archive made before in place of a build, and says so.
# NEKCHHAUL_BUILD=FOLDER is where it is made in place of capi/build, as where the sources can't be written.
set -eu
here=$(cd "$(dirname "$0")" && pwd)
crates=$here/../crates
to=${NEKCHHAUL_BUILD:-$here/build}
flags=
room=$(mktemp -d)
trap 'rm -rf "$room"' EXIT
began=$(date +%s)
say() { echo "build.sh: $(($(date +%s) - began)) s: $*"; }
fail() {
    echo "build.sh: $*" >&2
    exit 1
}

# Keeps a command's output, shows the lines that tell how far it is, and fails with all of it.
follow() {
    { "$@" 2>&1 || echo "status $?"; } | while IFS= read -r line; do
        echo "$line" >>"$room/log"
        case $line in rt:* | "  "the\ *) say "${line#rt: }" ;; esac
    done
    if tail -n 1 "$room/log" 2>/dev/null | grep -q '^status '; then
        cat "$room/log" >&2
        fail "nothing was built"
    fi
}

# Builds the library over the libraries that `rt ci` has just proved.
over_proved() {
    set -- --extern "std=$kit/rlibs/std.rlib"
    for name in $(sed -n 's/^nekchhaul_c staticlib: //p' "$crates/../crates.txt"); do
        if [ -d "$crates/$name" ]; then rlib=../$name/out/rlib/$name.rlib; else rlib=$kit/rlibs/$name.rlib; fi
        set -- "$@" --extern "$name=$rlib"
    done
    for rlib in ../*/out/rlib; do set -- "$@" -L "dependency=$rlib"; done
    mkdir -p out
    "$kit/bin/rattle" build --crate-name nekchhaul_c src/lib.rt --crate-type staticlib --links nekchhaul_c= "$@" -L "dependency=$kit/rlibs" \
        --antt-project "$kit/rattle/logic/antt-project.json" --logic-built "$kit/logic_built" --toolchain "$kit/toolchain" --backend llvm \
        --jobs "$(nproc)" -o out/libnekchhaul_c.a
}

has() { command -v "$1" >/dev/null; }
case $to in /*) ;; *) to=$PWD/$to ;; esac
case ${NEKCHHAUL_ARCHIVE:+given}${1:-} in
given*) say "makes a library in $to of an archive that is there" ;;
--*) say "makes a library in $to, ${1#--}: two to three minutes" ;;
*) say "makes a library in $to; what isn't proved yet is proved first, which from nothing takes hours" ;;
esac
cc=${CC:-}
for name in gcc clang cc; do
    [ "$cc" ] || ! has $name || cc=$name
done
[ "$cc" ] || fail "no C compiler is there: apt-get install gcc"
for name in ar ld nm objcopy; do
    has $name || fail "no $name is there: apt-get install binutils"
done
mkdir -p "$to" && [ -w "$to" ] || fail "$to can't be written: set NEKCHHAUL_BUILD to a folder for what is built"
given=${NEKCHHAUL_ARCHIVE:-}
case $given in "" | /*) ;; *) given=$PWD/$given ;; esac
mkdir -p "$room/objects"
cd "$room/objects"
if [ "$given" ]; then
    echo "build.sh: takes $given, of which nothing is known" >&2
    ar x "$given"
    rm -f functions.o
else
    has rt || fail "no rt of the Rattle kit is there"
    case ${1:-} in --*) has python3 || fail "no python3 is there, which $1 needs: apt-get install python3" ;; esac
    kit=${RATTLE_KIT:-$(dirname "$(rt doc)")}
    case ${1:-} in
    --unproved) follow "$here/../tools/unproved" object nekchhaul_c.o ;;
    --asan) flags=-fsanitize=address to=$to/asan && follow "$here/../tools/unproved" object nekchhaul_c.o address ;;
    --tsan) flags=-fsanitize=thread to=$to/tsan && follow "$here/../tools/unproved" object nekchhaul_c.o thread ;;
    "")
        cd "$crates/nekchhaul_c"
        if [ -d ../tx_checked/out/rlib/tx_checked.rlib ] && ! ls ../*/out/rlib/stamp >"$room/stamps" 2>/dev/null; then
            say "proves nekchhaul_c, over the libraries of rt ci"
            follow over_proved
        else
            say "proves what isn't proved yet"
            follow rt lib
        fi
        cd "$room/objects"
        ar x "$crates/nekchhaul_c/out/libnekchhaul_c.a"
        ;;
    *) fail "takes --unproved, --asan or --tsan" ;;
    esac
    ar x "$kit/c/liblibc_c.a" heap.pic.o
fi

# One object with the names of the header alone.
mkdir -p "$to"
rm -f "$to"/libnekchhaul.*
ld -r -o "$room/calls.o" ./*.o
# (waking.c has these names, and calls what had them)
for name in enter $(sed -n 's/^WAKING(\([a-z_]*\),.*/\1/p' "$here/waking.c"); do objcopy --redefine-sym nekchhaul_$name=nekchhaul_silent_$name "$room/calls.o"; done
# shellcheck disable=SC2086
"$cc" -std=c11 -O2 -fPIC $flags -c "$here/waking.c" -o "$room/waking.o"
ld -r -o "$room/nekchhaul.o" "$room/calls.o" "$room/waking.o"
objcopy -w --keep-global-symbol='nekchhaul_*' "$room/nekchhaul.o"
objcopy -w --localize-symbol='nekchhaul_silent_*' "$room/nekchhaul.o"
# (older runtimes of the thread sanitizer have these by the C library's names alone)
for name in memcpy memmove memset; do objcopy --redefine-sym __tsan_$name=$name "$room/nekchhaul.o"; done
# shellcheck disable=SC2086
"$cc" -std=c11 -O2 -fPIC $flags -c "$here/functions.c" -o "$room/functions.o"
ar rcs "$to/libnekchhaul.a" "$room/nekchhaul.o" "$room/functions.o"
say "$to/libnekchhaul.a is made, for processors of x86-64-v2 (2009 and later)"
if [ ! "$flags" ]; then
    "$cc" -shared -Wl,-soname,libnekchhaul.so.2 -Wl,--version-script="$here/nekchhaul.map" -Wl,-Bsymbolic -Wl,-z,defs "$room/nekchhaul.o" \
        "$room/functions.o" -o "$to/libnekchhaul.so.2"
    ln -s libnekchhaul.so.2 "$to/libnekchhaul.so"
    say "$to/libnekchhaul.so.2 is made"
fi
