#!/bin/sh
# The plain reader of bench/plain, against which the library's speed is measured, answers as the library does: only then is the race of bench/run
# fair. It needs no archive, and on every machine that has cargo it answers each question of tests/vectors/W12 as an independent implementation does.
# On x86-64 both read every record of every text of tests/vectors and examples by all four rules into tables of several lengths, altered texts, and
# the day of the race, and their answers are compared. With a folder (`tests/bench.sh FOLDER`) questions and texts are those of it. No time is
# measured here. Skipped, in so many words, where there is no cargo.
set -u
cd "$(dirname "$0")/.." || exit 2
name=bench
. tests/cases

command -v cargo >/dev/null || { echo 'tests/bench.sh: skipped: there is no cargo on the path'; exit 0; }
[ $# -le 1 ] || { echo 'usage: tests/bench.sh [FOLDER]' >&2; exit 2; }
. tests/kit
chosen "$@"
CARGO_TARGET_DIR=$PWD/target/bench
CARGO_NET_OFFLINE=true
export CARGO_TARGET_DIR CARGO_NET_OFFLINE
unset SEAMBEACON_ARCHIVE SEAMBEACON_VECTORS
own || { SEAMBEACON_VECTORS=$vectors && export SEAMBEACON_VECTORS; }

asked() { # PACKAGE WORDS..: cargo on a package of bench/; what it says is in "$work/said", and is shown where it fails
    package=$1
    word=$2
    shift 2
    cargo "$word" --manifest-path "bench/$package/Cargo.toml" "$@" >"$work/said" 2>&1 || { tail -n 40 "$work/said"; return 1; }
}

tested() { # PACKAGE: each of its tests passes, and none is left out
    counted "$1: cargo test" asked "$1" test -- --nocapture
    held=$(cat "bench/$1/src"/*.rs "bench/$1/tests"/*.rs | grep -c '^ *#\[test\]$')
    ran=$(sed -n 's/^test result: ok\. \([0-9]*\) passed; 0 failed; 0 ignored; 0 measured; 0 filtered out.*/\1/p' "$work/said" |
        awk '{ n += $1 } END { print n + 0 }')
    counted "$1: its files hold tests" [ "$held" -gt 0 ]
    counted "$1: of $held tests, $ran ran" [ "$ran" -eq "$held" ]
    sed -n "s/^\([0-9]* questions, by reply.*\)/$name: $1: \1/p" "$work/said"
}

for package in plain race; do
    counted "$package: no name but those of the project among what it needs" \
        [ "$(sed -n 's/^name = "\(.*\)"/\1/p' "bench/$package/Cargo.lock" | grep -cvxE 'plain|race|seambeacon')" = 0 ]
    if cargo clippy --version >/dev/null 2>&1; then
        counted "$package: cargo clippy" asked "$package" clippy --all-targets -- -D warnings
    else
        echo 'tests/bench.sh: skipped: the lints, since cargo has no clippy'
    fi
    if cargo fmt --version >/dev/null 2>&1; then
        counted "$package: cargo fmt --check" asked "$package" fmt --check
    else
        echo 'tests/bench.sh: skipped: the layout, since cargo has no fmt'
    fi
done
counted 'the plain reader has no unsafe code' grep -q '^#!\[forbid(unsafe_code)\]$' bench/plain/src/lib.rs
tested plain
if [ "$machine" != x86_64 ]; then
    echo "tests/bench.sh: skipped: the library's answers, since it is x86-64 code, and this machine is $machine"
    finished 6
    exit
fi
counted 'the archive' archived || finished 1 || exit 1
tested race
finished 10
