#!/bin/sh
# The Rust wrapper in bindings/rust. Its layout, its lints and its documentation need no archive, and are tried on every machine that has
# cargo; a build without the archive must be refused with a sentence that says what to do. On x86-64 cargo tests it over the archive: every
# test that its files hold must have run, and its example prints a value below zero. Skipped, in so many words, where there is no cargo.
set -u
cd "$(dirname "$0")/.." || exit 2
name=rust
. tests/cases

command -v cargo >/dev/null || { echo 'tests/rust.sh: skipped: there is no cargo on the path'; exit 0; }
. tests/kit
CARGO_TARGET_DIR=$PWD/target/rust
CARGO_NET_OFFLINE=true
export CARGO_TARGET_DIR CARGO_NET_OFFLINE
unset SEAMBEACON_ARCHIVE
wrapper=bindings/rust

asked() { # WORDS..: cargo on the wrapper; what it says is in "$work/said", and is shown where it fails
    word=$1
    shift
    cargo "$word" --manifest-path "$wrapper/Cargo.toml" "$@" >"$work/said" 2>&1 || { tail -n 40 "$work/said"; return 1; }
}

# every function of the header is called
sed -n 's/^enum seambeacon_reply \(seambeacon_[a-z_]*\)(.*/\1/p' include/seambeacon.h | sort >"$work/want"
sed -n 's/^    fn \(seambeacon_[a-z_]*\)(.*/\1/p' "$wrapper/src/raw.rs" | sort >"$work/got"
counted 'the header has functions' [ "$(wc -l <"$work/want")" -ge 18 ]
compared 'the functions of the header' "$work/want"

# ---- without the archive

mkdir "$work/empty"
SEAMBEACON_ARCHIVE=$work/empty
export SEAMBEACON_ARCHIVE
counted 'cargo check without the archive' asked check --all-targets
counted 'cargo doc without the archive' asked doc --no-deps
counted 'without the archive there is no build' fails asked build
what='there is no .*libseambeacon\.a: run `rt lib` in the project.s crates/seambeacon'
[ "$machine" = x86_64 ] || what="the library is x86-64 code, and this build is for $machine"
counted 'and the build says what to do' grep -q "nothing can be linked: $what" "$work/said"
if cargo clippy --version >/dev/null 2>&1; then
    counted 'cargo clippy' asked clippy --all-targets -- -D warnings
else
    echo 'tests/rust.sh: skipped: the lints, since cargo has no clippy'
fi
if cargo fmt --version >/dev/null 2>&1; then
    counted 'cargo fmt --check' asked fmt --check
else
    echo 'tests/rust.sh: skipped: the layout, since cargo has no fmt'
fi
unset SEAMBEACON_ARCHIVE
if [ "$machine" != x86_64 ]; then
    echo "tests/rust.sh: skipped: what runs, since the library is x86-64 code, and this machine is $machine"
    finished 6
    exit
fi

# ---- over the archive

counted 'the archive' archived || finished 1 || exit 1
counted 'cargo test' asked test

# each `#[test]`, and each example in the documentation: a pair of fences
held=$(cat "$wrapper"/src/*.rs "$wrapper"/tests/*.rs | grep -c '^ *#\[test\]$')
examples=$(($(cat "$wrapper"/src/*.rs | grep -c '^ *//[/!] ```') / 2))
ran=$(sed -n 's/^test result: ok\. \([0-9]*\) passed; 0 failed; 0 ignored; 0 measured; 0 filtered out.*/\1/p' "$work/said" |
    awk '{ n += $1 } END { print n + 0 }')
counted 'the files hold tests' [ "$held" -ge 64 ]
counted "of $held tests and $examples examples, $ran ran" [ "$ran" -eq $((held + examples)) ]

below_zero >"$work/below"
cargo run --manifest-path "$wrapper/Cargo.toml" --example fof2 <"$work/below" >"$work/got" 2>"$work/said" || tail -n 20 "$work/said"
below_zero_due >"$work/want"
compared 'values below zero' "$work/want"
echo "rust: $ran tests ran"
finished 11
