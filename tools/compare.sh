#!/bin/sh
# Tries what no proof covers. The documents against the repository; the declarations for C against the contracts; the library, built
# twice and compared byte for byte; its stack, by analysis of the archive; the header and the examples with every compiler at hand;
# the acceptance test; the programs as compiled in three ways; and the calls against another implementation, with times and stack.
# Needs python3, rt, gcc, clang, valgrind, binutils and cargo, and no network.
# A step that fails does not stop the others; the exit status is that of the last one that failed, or 0.
set -eu

cd "$(dirname "$0")/.."
. tools/compilers.sh
library=crates/unit_c/out/libunit_c.a
first=target/libunit_c.first.a
status=0

# Runs a command and keeps its status where it fails.
step() {
    echo "== $*"
    "$@" || {
        status=$?
        echo "FAILED ($status): $*" >&2
    }
}

# Proves the library and writes its archive, for every x86-64: without the flag rt compiles for x86-64-v2, and a library does not ask
# what it runs on.
build() {
    (cd crates/unit_c && rt lib --cpu x86-64)
}

# The first archive is kept, and a second one is built.
build_twice() {
    build &&
        mv "$library" "$first" &&
        build &&
        cmp "$first" "$library" &&
        echo "two builds are equal byte for byte" &&
        sha256sum "$library"
}

# Compiles an example with a compiler without a warning: as it is, and with the attributes left empty.
# shellcheck disable=SC2086 # the words are meant to be parted
compile() {
    $2 -O2 $warnings -I include -c "examples/$1.c" -o "target/examples/$1.o" &&
        $2 -fsyntax-only $warnings -DPELCHUNDA_MUST_USE= "-DPELCHUNDA_NONNULL(...)=" -I include "examples/$1.c"
}

# Compiles an example with each compiler, and runs it with the other arguments.
example() {
    name=$1
    shift
    each_compiler compile "$name" && gcc -std=c99 -O2 -I include "examples/$name.c" "$library" -o "target/examples/$name" &&
        "target/examples/$name" "$@"
}

# The header refuses a size_t of 32 bits by its own words, and takes one of 64 with the same compiler.
refuses_32_bits() {
    clang --target=x86_64-unknown-none -ffreestanding -fsyntax-only -std=c99 -x c include/pelchunda.h &&
        ! clang --target=i386-unknown-none -ffreestanding -fsyntax-only -std=c99 -x c include/pelchunda.h 2>target/examples/refused &&
        grep -q 'error: "pelchunda: the library is for a size_t of 64 bits"' target/examples/refused
}

step python3 tools/check_docs.py
step python3 tools/check_signatures.py
mkdir -p target/examples
rm -f "$library" # an older archive is not taken for a new one
step rt version
step build_twice
if [ ! -f "$library" ]; then
    echo "no library: the rest is left out" >&2
    exit "$status"
fi
step python3 tools/stack.py --self-test
step python3 tools/stack.py "$library" include/pelchunda.h
step refuses_32_bits
step example header
step example room samples/room.bun
step example refusals
step sh tools/acceptance.sh "$library"
step python3 tools/three_ways.py
step cargo run --release --offline --manifest-path compare/Cargo.toml
exit "$status"
