#!/bin/sh
# Makes the delivery of the commit that is checked out, in target/delivery/pelchunda-VERSION: library, header, pkg-config file,
# documents, contracts, sample card, acceptance test and manifest. All of it comes from a clean clone of the commit, in which the gate
# (.ci/run) has passed; the gate's log is kept for the commit, so that a second run does not repeat it. Twice from one commit gives
# the same bytes. Then the delivery is tried by itself.
# The library is for every x86-64 (--cpu). What is left in target/gate and target/delivery has files that rt ci refuses at the top of
# a checkout: there, remove both folders before the gate.
# usage: sh tools/deliver.sh [PREFIX]: with a prefix, such as /usr/local, it is installed there too.
# Needs git, rt, python3, gcc, binutils and pkg-config.
set -eu
umask 022

cd "$(dirname "$0")/.."
root=$(pwd -P)
fail() {
    echo "deliver: $*" >&2
    exit 1
}

[ -z "$(git status --porcelain)" ] || fail "the tree has changes that are not committed"
commit=$(git rev-parse HEAD)
version=$(sed -n 's/^#define PELCHUNDA_VERSION "\(.*\)"$/\1/p' include/pelchunda.h)
format=$(sed -n 's/^#define PELCHUNDA_FORMAT_NUMBER //p' include/pelchunda.h)
clone=$root/target/gate/clone
log=$root/target/gate/$commit.log
delivery=$root/target/delivery/pelchunda-$version

# A clean clone of the commit; one that stands from the gate is kept, since all is proved there.
make_clone() {
    if [ "$(git -C "$clone" rev-parse --show-toplevel HEAD 2>/dev/null || true)" != "$clone
$commit" ] || [ -n "$(git -C "$clone" status --porcelain)" ]; then
        rm -rf "$clone"
        git clone --quiet . "$clone"
        git -C "$clone" checkout --quiet --detach "$commit"
    fi
}

# The gate in the clone, once for a commit.
run_gate() {
    [ -f "$log" ] || {
        echo "the gate runs on a clean clone of $commit"
        bash "$clone/.ci/run" >"$log.part" 2>&1 || fail "the gate failed: $log.part"
        mv "$log.part" "$log"
    }
    gate=$(tail -n 1 "$log")
    case $gate in
    *" passed, 0 failed") ;;
    *) fail "the gate's last line is: $gate" ;;
    esac
}

write_pkg_config() {
    cat <<END
prefix=\${pcfiledir}/../..
includedir=\${prefix}/include
libdir=\${prefix}/lib

Name: pelchunda
Description: The door unit: events, verdicts and the map of cords
Version: $version
Cflags: -I\${includedir}
Libs: -L\${libdir} -lpelchunda
END
}

# Library, header, documents, contracts, sample and acceptance test, from the clone.
fill() {
    (cd "$clone/crates/unit_c" && rt lib --cpu x86-64) >"$log.library" 2>&1 || fail "the library was not built: $log.library"
    rm -rf "$delivery"
    documents=$delivery/share/doc/pelchunda
    data=$delivery/share/pelchunda
    mkdir -p "$delivery/include" "$delivery/lib/pkgconfig" "$documents/contracts" "$data/sample" "$data/acceptance"
    cp "$clone/crates/unit_c/out/libunit_c.a" "$delivery/lib/libpelchunda.a"
    cp "$clone/include/pelchunda.h" "$delivery/include/"
    write_pkg_config >"$delivery/lib/pkgconfig/pelchunda.pc"
    cp "$clone"/docs/*.md "$documents/"
    rm "$documents/PORT.md" "$documents/DESIGN-PASS.md" "$documents/LOOK-BACK.md" # they tell those who change the program what it was before
    cp "$clone/crates/unit_c/src/lib.rt" "$documents/contracts/unit_c.rt"
    cp "$clone/samples/room.bun" "$clone/samples/room.txt" "$clone/examples/room.c" "$data/sample/"
    cp "$clone"/examples/acceptance*.[ch] "$data/acceptance/"
    python3 "$clone/tools/acceptance_calls.py" >"$data/acceptance/acceptance_calls.h" 2>>"$log.library"
}

# What the delivery is, as comments, and the SHA-256 of each file: sha256sum --check MANIFEST
write_manifest() {
    cat <<END
# pelchunda $version, format number $format, for x86-64
# commit: $commit
# toolchain: $(rt version)
# gate: $gate
END
    (cd "$delivery" && find . -type f ! -name MANIFEST | LC_ALL=C sort | xargs sha256sum)
}

# Compiles a program over the delivery's pkg-config file to $trial/program.
# shellcheck disable=SC2086 # the flags are meant to be parted
compile() {
    flags=$(PKG_CONFIG_PATH=$delivery/lib/pkgconfig pkg-config --cflags --libs pelchunda)
    gcc -std=c99 -O2 -Wall -Wextra -Werror "$@" $flags -o "$trial/program"
}

# The delivery by itself: its sums; the header's bytes of stack; the program of the integrator's page and the sample's, on the sample
# card; the acceptance test.
try_delivery() {
    (cd "$delivery" && sha256sum --quiet --strict --check MANIFEST) || fail "the manifest's sums differ"
    python3 "$clone/tools/stack.py" "$delivery/lib/libpelchunda.a" "$delivery/include/pelchunda.h" >/dev/null ||
        fail "the header's bytes of stack are not the library's"
    trial=$(mktemp -d)
    sample=$delivery/share/pelchunda/sample
    acceptance=$delivery/share/pelchunda/acceptance
    sed -n 's/^    //p' "$delivery/share/doc/pelchunda/INTEGRATION.md" | sed -n '/^#include/,/^}/p' >"$trial/first.c"
    compile "$trial/first.c"
    "$trial/program" <"$sample/room.bun" | cmp - "$sample/room.txt" || fail "the page's program writes another map"
    compile "$sample/room.c"
    "$trial/program" "$sample/room.bun" | tail -n +4 >"$trial/rows"
    tail -n +2 "$sample/room.txt" | cmp - "$trial/rows" || fail "the sample's program writes another map"
    compile "$acceptance/acceptance.c" "$acceptance/acceptance_host.c"
    "$trial/program" || fail "the acceptance test fails"
    rm -r "$trial"
}

mkdir -p target/gate
make_clone
run_gate
fill
write_manifest >"$delivery/MANIFEST"
find "$delivery" -exec touch --no-dereference --date="@$(git log -1 --format=%ct)" {} +
try_delivery
if [ $# -gt 0 ]; then mkdir -p "$1" && cp -R "$delivery/include" "$delivery/lib" "$delivery/share" "$1/"; fi
echo "$delivery"
