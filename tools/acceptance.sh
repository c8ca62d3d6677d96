#!/bin/sh
# The acceptance test, built and run in every way that is at hand: freestanding, as C99, C11 and C++17; with the sanitizers for its
# own part; under valgrind; and with single bits of the library's code flipped, of which it must notice most.
# usage: sh tools/acceptance.sh LIBRARY. Needs python3, gcc, clang, valgrind and binutils.
set -eu

cd "$(dirname "$0")/.."
. tools/compilers.sh
library=$1
folder=target/acceptance

# Compiles the test with the words given, and links it with a main to $folder/test.
build() {
    # shellcheck disable=SC2086 # the words are meant to be parted
    "$@" $warnings -I include -I "$folder" -c examples/acceptance.c -o "$folder/acceptance.o" &&
        gcc -std=c99 -c examples/acceptance_host.c -o "$folder/host.o" &&
        gcc "$folder/acceptance.o" "$folder/host.o" "$library" -o "$folder/test"
}

# Runs a command and shows its line; where it fails, so does this script.
show() {
    what=$1
    shift
    line=$("$@") || {
        echo "$what: $line" >&2
        return 1
    }
    echo "$what: $line"
}

# The test's object wants the calls, the line's function, and memcpy and memset at most.
wants_nothing_else() {
    others=$(nm -u "$folder/acceptance.o" | awk '{print $2}' | grep -vE '^(pelchunda_.*|acceptance_show|memcpy|memset)$' || true)
    [ -z "$others" ] || {
        echo "the acceptance test wants $others" >&2
        return 1
    }
}

# The test as a line at the factory has it, by one compiler.
# shellcheck disable=SC2086
try() {
    build $1 -O2 -ffreestanding && wants_nothing_else && show "$1" "$folder/test"
}

mkdir -p "$folder"
python3 tools/acceptance_calls.py >"$folder/acceptance_calls.h"
each_compiler try
gcc -std=c99 -g -O1 -fsanitize=address,undefined -fno-sanitize-recover=all -I include -I "$folder" \
    examples/acceptance.c examples/acceptance_host.c "$library" -o "$folder/checked"
show "with sanitizers" "$folder/checked"
build gcc -std=c99 -O2
show "under valgrind" valgrind --quiet --error-exitcode=1 "$folder/test"
python3 tools/flip_bits.py "$folder/test"
