#!/bin/sh
# ./run itself, in a made-up project with a made-up `rt` that writes down how it was called: a program is checked where it is missing or older
# than a source, and not where it is the newest; its input, its words and its exit status are its own; a failed check starts nothing. The
# processor is made up too, so that both ways to start a program are tried.
set -u
cd "$(dirname "$0")/.." || exit 2
name=run
. tests/cases

made=$(cd "$work" && pwd -P)/made
mkdir -p "$made/bin" "$made/crates/one/src" "$made/crates/one/proofs" "$made/crates/two/src"
cp run "$made/run"
: >"$made/crates.txt"
: >"$made/crates/one/src/main.rt"
: >"$made/crates/one/proofs/Law.antt"

# running builds the program, or fails where there is a file `refuses`; rt reads all input that it is given, and the program says something there
cat >"$made/bin/rt" <<'RT'
#!/bin/sh
[ "$1" != doc ] || { echo "$KIT/START-HERE.md"; exit; }
echo "rt $*, in ${PWD#"$MADE"/}" >>"$CALLS"
cat >>"$CALLS"
echo 'what rt says'
echo 'what rt says there' >&2
[ ! -e ../../refuses ] || exit 1
mkdir -p out
printf '#!/bin/sh\nfor word in "$@"; do echo "word $word"; done\nsed "s/^/input /"\nexit 7\n' >out/one
chmod +x out/one
RT
printf '#!/bin/sh\necho "$MACHINE"\n' >"$made/bin/uname"
printf '#!/bin/sh\nfor word in "$@"; do echo "word $word"; done\n' >"$made/bin/qemu-x86_64"
chmod +x "$made/bin/rt" "$made/bin/uname" "$made/bin/qemu-x86_64"
CALLS=$work/calls
KIT=$work/kit
MACHINE=x86_64
MADE=$made
export CALLS KIT MACHINE MADE

ran() { # CASE CALLS: ./run was asked for `one`; rt was called so many times, and the program has its words and its input and ends with 7
    : >"$CALLS"
    (cd / && PATH=$made/bin:$PATH "$made/run" one 'a b' c) >"$work/got" 2>"$work/errors" <"$work/input"
    counted "$1: the program's own exit status" [ "$?" = 7 ]
    compared "$1: words and input" "$work/want"
    counted "$1: checked $2 times" [ "$(grep -cx 'rt run, in crates/one' "$CALLS")" = "$2" ]
    counted "$1: nothing else was asked of rt, and it had no input" [ "$(wc -l <"$CALLS")" = "$2" ]
}

old() { # FILE..
    touch -t 200001010000 "$@"
}

later() { # FILE..
    touch -t 200101010000 "$@"
}

printf 'first\nsecond\n' >"$work/input"
printf 'word a b\nword c\ninput first\ninput second\n' >"$work/want"
sources="$made/crates.txt $made/crates $made/crates/one $made/crates/one/src $made/crates/one/src/main.rt $made/crates/one/proofs"
sources="$sources $made/crates/one/proofs/Law.antt $made/crates/two/src"
program=$made/crates/one/out/one

ran 'missing' 1
counted 'what rt says is no output of the program' grep -qx 'what rt says' "$work/errors"
ran 'just checked' 0
# shellcheck disable=SC2086
old $sources
later "$program"
ran 'newer than every source' 0
for source in crates.txt crates/one/src/main.rt crates/one/proofs/Law.antt; do
    old "$program"
    later "$made/$source"
    ran "older than $source" 1
    ran "checked again after $source" 0
    old "$made/$source"
done
# what is built, and the folders that it makes, are no sources
mkdir "$made/crates/two/out"
: >"$made/crates/two/out/two"
ran 'older than what is built of another crate' 0
rm "$made/crates/one/proofs/Law.antt"
later "$made/crates/one/proofs"
old "$program"
ran 'older than the loss of a source' 1
chmod -x "$program"
ran 'not to be started' 1

# a check that finds nothing to do leaves the program as it was; it is not asked again
sed 's/^mkdir .*/exit 0/' "$made/bin/rt" >"$work/rt" && cat "$work/rt" >"$made/bin/rt"
old "$program"
ran 'unchanged' 1
ran 'unchanged, once more' 0

# a failed check
: >"$made/refuses"
old "$program"
: >"$CALLS"
(PATH=$made/bin:$PATH && "$made/run" one) >"$work/got" 2>"$work/errors" <"$work/input"
counted 'a failed check ends with 2' [ "$?" = 2 ]
counted 'it was made' grep -qx 'rt run, in crates/one' "$CALLS"
counted 'and nothing is started' [ ! -s "$work/got" ]
counted 'nor is it taken for checked' [ -n "$(find "$made/crates/one/proofs" -newer "$program")" ]
(PATH=$made/bin:$PATH && "$made/run") >"$work/got" 2>"$work/errors" <"$work/input"
counted 'no name is no program' [ "$?" != 0 ]
counted 'and it is said how to ask' grep -q 'usage: ./run NAME' "$work/errors"
rm "$made/refuses"

# on another processor the emulator starts the loader, and the loader the program
later "$program"
old "$made/crates/one/proofs"
MACHINE=other
(PATH=$made/bin:$PATH && "$made/run" one 'a b') >"$work/got" 2>"$work/errors" <"$work/input"
tools=$KIT/toolchain
printf 'word %s\n' "$tools/lib/ld-linux-x86-64.so.2" --library-path "$tools/lib" "$program" 'a b' >"$work/want"
compared 'on another processor' "$work/want"
finished 64
