#!/bin/sh
# test.sh [--quiet] [--unproved | --asan | --tsan]: builds the library (build.sh says how), and tries all that is C, C++, Rust and
# Python here with each compiler that is there. Where all goes well it says at most which tools are not there, and with --quiet
# nothing; else the last line says what went wrong, and the status is 1. Needs what build.sh does; docs/C.md says what a fresh
# Debian or Ubuntu installs for that, and for every test. With --asan or --tsan the examples in C and C++ run over a library that
# the sanitizer sees into, and nothing else.
set -eu
here=$(cd "$(dirname "$0")" && pwd)
build=${NEKCHHAUL_BUILD:-$here/build}
case $build in /*) ;; *) build=$PWD/$build ;; esac
quiet=
[ "${1:-}" != --quiet ] || quiet=1
[ ! "$quiet" ] || shift
room=$(mktemp -d)
trap 'rm -rf "$room"' EXIT
has() { command -v "$1" >/dev/null 2>&1; }
lacks=
# tries TOOL: whether it is there; of one that isn't the end tells
tries() {
    has "$1" || {
        lacks="$lacks $1"
        return 1
    }
}
fail() {
    cat "$room/log" >&2
    echo "capi/test.sh: $*" >&2
    exit 1
}
# try WHAT COMMAND..: runs the command, and fails where it does
try() {
    what=$1
    shift
    "$@" >"$room/log" 2>&1 || fail "$what"
}

flags=
case ${1:-} in
--asan) flags="-g -fsanitize=address,undefined" build=$build/asan ;;
--tsan) flags="-g -fsanitize=thread" build=$build/tsan ;;
esac
"$here/build.sh" "$@" >"$room/log" || fail "build.sh"
archive=$build/libnekchhaul.a

# The header's names are those of the archive, its numbers those of the crate, and each number has its name.
compare() {
    try "$3" diff "$room/$1" "$room/$2"
}
header=$here/include/nekchhaul.h
{
    sed -nE 's/^(NEKCHHAUL_CALL )?(uint32_t|void) (nekchhaul_[a-z_]*)\(.*\);.*/\3/p' "$header"
    sed -n 's/^NEKCHHAUL_INLINE .*\b\(nekchhaul_[a-z_]*\)(.*/\1/p' "$header"
} | sort >"$room/declared"
nm -g "$archive" | sed -n 's/.* T \(.*\)$/\1/p' | sort >"$room/exported"
compare declared exported "the header declares other names than the archive has"
sed -n '/typedef enum nekchhaul_status/,/} nekchhaul_status;/s/^ *NEKCHHAUL_\([A-Z_]*\) = \([0-9]*\).*/\1 \2/p' "$header" >"$room/all"
grep -vE '^(ONE_CALLER|NONE_FREE|STOP) ' "$room/all" | sort >"$room/numbers"
sed -n 's/^\(pub(crate) \)*const \([A-Z_]*\): u32 = \([0-9]*\);/\2 \3/p' "$here/../crates/nekchhaul_c/src/status.rt" | grep -v '^STOP ' | sort >"$room/crate"
compare numbers crate "the header has other numbers than crates/nekchhaul_c/src/status.rt"
sed 's/ .*//' "$room/all" | grep -vx STOP | sort >"$room/statuses"
sed -n 's/^ *NEKCHHAUL_NAME(\([A-Z_]*\))$/\1/p' "$header" | sort >"$room/named"
compare statuses named "a status has no name in nekchhaul_status_name"
# Each wrapper has each call of the header, but those that are within another that it has: one try of a call that must be alone, or
# tries without end, in that of so many tries; a cancel in nekchhaul_abandon; of nekchhaul_wait, nekchhaul_wake and nekchhaul_pause the parts.
within='nekchhaul_(begin_under|cancel|move|learn_of_another|switch|fence|give_back|close|install|take_range|return_range|end|announce|ring|bell|sleep)'
for wrapper in include/nekchhaul.hpp rust/src python/nekchhaul.py; do
    for name in $(grep -vxE "$within" "$room/declared"); do
        try "$wrapper has no call ${name#nekchhaul_}" grep -rqwE "(nekchhaul_)?${name#nekchhaul_}" "$here/$wrapper"
    done
done
sed -n '/^```c$/,/^```$/{/^```/d;p;}' "$here/../docs/C.md" >"$room/shown"
sed 1d "$here/examples/whole.c" >"$room/whole"
compare shown whole "docs/C.md has another program than examples/whole.c"

# compiled COMPILER SOURCE FLAG..: by that compiler, without a warning
compiled() {
    compiler=$1 source=$2
    shift 2
    # shellcheck disable=SC2086
    try "$compiler doesn't compile $source" "$compiler" "$@" -O2 -Wall -Wextra -Werror -pedantic $flags -I"$here/include" "$here/examples/$source" "$archive" \
        -lpthread -o "$room/$source-$compiler"
}
# ran PROGRAM WORD..: where it doesn't fail
ran() {
    program=$1
    shift
    try "$program $*" "$room/$program" "$@"
}
# told PROGRAM COMMAND..: where what it tells of each event is what capi/events.data says, in each language
grep -v '^#' "$here/events.data" | sort >"$room/events"
told() {
    what=$1
    shift
    "$@" >"$room/lines" 2>"$room/log" || fail "$what"
    sort -u "$room/lines" >"$room/told"
    compare events told "$what tells other events than capi/events.data"
}
share=1
[ ! "$flags" ] || share=20
cc=
for compiler in gcc clang; do
    tries $compiler || continue
    [ "$cc" ] || cc=$compiler
    for example in misuse causes whole nested alone committing memory stops cost bank events collector allocator turns waiting peek pool; do
        compiled "$compiler" $example.c -std=c11
    done
    for example in misuse causes whole nested allocator; do
        ran "$example.c-$compiler"
    done
    told events.c "$room/events.c-$compiler"
    # an answer may be given up by (void) alone
    for given in "" "(void)"; do
        printf '#include "nekchhaul.h"\nvoid cancel(nekchhaul_caller *c) { %snekchhaul_cancel(c); }\n' "$given" >"$room/given.c"
        $compiler -std=c11 -Wall -Wextra -Werror -pedantic -I"$here/include" -c "$room/given.c" -o "$room/given.o" 2>"$room/log" || [ ! "$given" ] || fail "(void)"
        [ "$given" ] || [ -s "$room/log" ] || fail "$compiler lets an answer go"
    done
    [ "$compiler" = "$cc" ] || share=20 # (what another compiler makes anew is the header)
    ran "stops.c-$compiler" $share
    ran "pool.c-$compiler" $((200 / share))
    ran "peek.c-$compiler" $((20000 / share))
    ran "collector.c-$compiler" $share
    if [ "$compiler" = "$cc" ]; then # these try the library, and not the header
        ran "alone.c-$compiler"
        ran "committing.c-$compiler"
        [ "$flags" ] || ran "turns.c-$compiler" 2000
        [ "$flags" ] && ran "waiting.c-$compiler" 500 || ran "waiting.c-$compiler"
        [ "$flags" ] || ran "memory.c-$compiler" # (a sanitizer takes memory of its own)
    fi
    ran "cost.c-$compiler" bank OrecLazy 2 2000
    for algorithm in CGL TML OrecLazy OrecEager RingSW Serial; do
        for threads in 3 15; do
            for how in plain switching; do
                ran "bank.c-$compiler" $algorithm $how $threads $share
            done
        done
    done
done
cxx=
for compiler in g++ clang++; do
    tries $compiler || continue
    cxx=$compiler
    for example in bank calls counters parts; do
        compiled "$compiler" $example.cpp -std=c++17
        ran "$example.cpp-$compiler"
    done
    compiled "$compiler" events.cpp -std=c++17
    told events.cpp "$room/events.cpp-$compiler"
done
[ "$cc" ] || fail "no gcc or clang is there, which the examples are compiled with"
[ ! "$flags" ] || exit 0

# The shared library, by Python; what Rust has, by cargo.
nm -D --defined-only "$build/libnekchhaul.so.2" | sed -n 's/.* T \([^@]*\).*/\1/p' | sort >"$room/shared"
compare declared shared "the shared library has other names than the header declares"
if tries python3; then
    try "python/bank.py" env NEKCHHAUL_LIB="$build" python3 -B "$here/python/bank.py"
    told events.py env NEKCHHAUL_LIB="$build" python3 -B "$here/python/events.py"
fi
if tries cargo && cargo --version >/dev/null 2>&1; then
    cp -r "$here/rust" "$room/rust"
    cargo_in() { try "cargo $*" env -C "$room/rust" NEKCHHAUL_LIB="$build" RUSTFLAGS="-D warnings" RUSTDOCFLAGS="-D warnings" CARGO_NET_OFFLINE=true cargo "$@"; }
    cargo_in test
    cargo_in run --example bank
    told events.rs env -C "$room/rust" NEKCHHAUL_LIB="$build" CARGO_NET_OFFLINE=true cargo run -q --example events
    cargo_in doc
    ! cargo clippy --version >/dev/null 2>&1 || cargo_in clippy --all-targets -- -D warnings
fi

# Programs outside the repository, by what install.sh puts below a relative prefix with a blank and a sign of sed's in it.
mkdir "$room/outside"
cp "$here/examples/whole.c" "$here/examples/counters.cpp" "$room/outside/"
try "install.sh" env -C "$room" PREFIX="a & b" DESTDIR= NEKCHHAUL_BUILD="$build" "$here/install.sh"
at="$room/a & b"
if tries pkg-config; then
    for package in nekchhaul nekchhaul-static; do
        flags=$(PKG_CONFIG_PATH="$at/lib/pkgconfig" pkg-config --cflags --libs $package) || fail "pkg-config"
        try "a program by pkg-config of $package" env -C "$room/outside" sh -c "$cc -std=c11 -Wall -Wextra -Werror whole.c $flags -o whole"
        try "that program" "$room/outside/whole"
    done
fi
if tries cmake && tries make && [ "$cxx" ]; then
    cat >"$room/outside/CMakeLists.txt" <<'END'
cmake_minimum_required(VERSION 3.13)
project(outside C CXX)
find_package(nekchhaul 2.0 REQUIRED)
add_executable(shared whole.c)
target_link_libraries(shared nekchhaul::nekchhaul)
add_executable(static counters.cpp)
set_property(TARGET static PROPERTY CXX_STANDARD 17)
target_link_libraries(static nekchhaul::static pthread)
END
    try "cmake" cmake -S "$room/outside" -B "$room/made" -DCMAKE_PREFIX_PATH="$at"
    try "cmake --build" cmake --build "$room/made"
    try "a program by CMake, with the shared library" "$room/made/shared"
    try "a program by CMake, with the archive" "$room/made/static"
fi
if has python3; then
    try "a program over the installed nekchhaul.py" env -C "$room/outside" PYTHONPATH="$at/share/nekchhaul/python" \
        python3 -B -c 'import nekchhaul; assert nekchhaul.open(1)[0].close(1) == [0]'
fi
if has cargo && cargo --version >/dev/null 2>&1; then
    try "the installed crate" env -C "$at/share/nekchhaul/rust" CARGO_TARGET_DIR="$room/target" CARGO_NET_OFFLINE=true cargo run -q --example bank
fi
if has python3 && tries groff; then
    try "the manual page" groff -man -ww -z "$at/share/man/man3/nekchhaul.3"
    [ ! -s "$room/log" ] || fail "the manual page"
    sed -n 's/^\.SS //p' "$at/share/man/man3/nekchhaul.3" | tr ' ' '\n' | grep '^nekchhaul_' | sort >"$room/paged"
    compare declared paged "the manual page has other functions than the header"
fi

# valgrind sees each access of the library to the heap, and what is not freed; the thread sanitizer here those of the C code alone.
if tries valgrind; then
    try "valgrind over misuse.c" valgrind -q --error-exitcode=9 --leak-check=full --errors-for-leak-kinds=definite,indirect,possible "$room/misuse.c-$cc"
    told "valgrind over events.c" valgrind -q --error-exitcode=9 "$room/events.c-$cc"
    try "valgrind over bank.c" valgrind -q --error-exitcode=9 --leak-check=full --errors-for-leak-kinds=definite "$room/bank.c-$cc" OrecLazy switching 3 100
fi
if echo 'int main(void) { return 0; }' >"$room/one.c" && $cc -fsanitize=thread "$room/one.c" -o "$room/one" 2>/dev/null && "$room/one" 2>/dev/null; then
    flags="-g -fsanitize=thread"
    compiled "$cc" bank.c -std=c11
    ran "bank.c-$cc" OrecLazy switching 3 10
fi

# What a call costs.
if has python3; then
    try "the table of docs/C.md" "$here/instructions"
    ! has valgrind || try "instructions of a call" env CC=$cc "$here/instructions" "$archive" "$here/include"
fi
[ "$quiet" ] || [ ! "$lacks" ] || echo "capi/test.sh: not there, and so not tried:$lacks (docs/C.md says what to install)" >&2
