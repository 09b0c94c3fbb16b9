#!/bin/sh
# The gate itself, in a made-up project with a made-up `rt`: it passes where all is there and right, and fails, in its last line and its exit
# status, where anything is lost or wrong.
set -u
cd "$(dirname "$0")/.." || exit 2
name=gate
. tests/cases

made() { # a project of two crates, one edit and one program, in "$work/made"
    rm -rf "$work/made"
    mkdir -p "$work/made/.ci" "$work/made/bin" "$work/made/docs" "$work/made/tests" "$work/made/crates/one/src" \
        "$work/made/crates/one/must-fail" "$work/made/crates/two/src"
    cp .ci/run "$work/made/.ci/run"
    printf 'one:\ntwo: one\n' >"$work/made/crates.txt"
    : >"$work/made/crates/one/src/lib.rt"
    : >"$work/made/crates/one/must-fail/wrong.edit"
    : >"$work/made/crates/two/src/main.rt"
    for test in edits names contracts other skips; do
        printf '#!/bin/sh\necho "%s: 3 passed, 0 failed"\n' "$test" >"$work/made/tests/$test.sh"
        echo "\`tests/$test.sh\`"
    done >"$work/made/docs/PROMISES.md"
    printf '#!/bin/sh\necho "tests/skips.sh: skipped: no such machine"\n' >"$work/made/tests/skips.sh"
    cat >"$work/made/bin/rt" <<'RT'
#!/bin/sh
echo "rt $*" >>calls
echo 'rt: one proved'
echo 'rt: one: trying its must-fail edits (1)'
echo 'rt: must-fail one/wrong.edit: refused, as it must be: note: src/lib.rt:1:1: it is not proved'
echo 'rt: two proved'
echo 'rt: two ran, and wrote what its file stdout has'
echo "rt: two ran (built by Rattle's own compiler), and wrote what its file stdout has"
echo 'rt: ok; handles allowed: none; must-fail edits: 1 refused; every proof and must-fail edit was done in this run'
echo '3 passed, 0 failed'
RT
    chmod +x "$work/made/bin/rt" "$work/made"/tests/*.sh
}

gate() { # the exit status and the last line of the gate there
    (PATH=$work/made/bin:$PATH && cd "$work/made" && .ci/run >said 2>&1; echo "$? $(tail -n 1 said)")
}

refused() { # CASE COMMAND..: the gate fails after this command in the project
    case=$1
    shift
    made
    (cd "$work/made" && "$@")
    counted "$case" matches "$(gate)" '^[1-9][0-9]* [0-9][0-9]* passed, [1-9][0-9]* failed$'
}

matches() { # LINE PATTERN
    echo "$1" | grep -q "$2" || { echo "$1"; return 1; }
}

changed() { # FILE SCRIPT
    sed "$2" "$1" >"$1.changed" && cat "$1.changed" >"$1" && rm "$1.changed"
}

made
counted 'all is there and right' matches "$(gate)" '^0 18 passed, 0 failed$'
counted 'rt is asked for the gate, once, and for nothing else' [ "$(cat "$work/made/calls")" = 'rt ci' ]
made
(cd "$work/made" && changed bin/rt 's/every proof.*run/done in this run: 1 of the 2 proofs; the others are kept/')
counted 'what an earlier run proved is kept' matches "$(gate)" '^0 18 passed, 0 failed$'
made
(cd "$work/made" && changed crates.txt 's/^one:/one staticlib:/')
counted 'a crate is a static library' matches "$(gate)" '^0 18 passed, 0 failed$'
refused 'a crate is not proved' changed bin/rt 's/^echo .3 passed/echo "2 passed/; s/failed.$/failed"/'
refused 'an edit is not tried' changed bin/rt '/must-fail one/d'
refused 'an edit is bad' changed bin/rt 's/: 1 refused/: 0 refused, 1 bad/'
refused 'an edit is bad, and is counted beside those of the tree' changed bin/rt 's/: 1 refused/: 1 refused, 1 bad/'
refused 'edits are bad, and some are refused only by a limit' changed bin/rt 's/: 1 refused/: 1 refused, 1 of them only by a limit, 12 bad/'
refused 'rt does not say that all is well' changed bin/rt '/rt: ok/d'
refused 'an edit is not refused' changed bin/rt 's/: refused, as it must be/: NOT REFUSED/'
refused 'a program is not run' changed bin/rt '/two ran, /d'
refused 'a program is not run as the second compiler builds it' changed bin/rt '/two ran (/d'
refused 'rt says nothing' changed bin/rt '/^echo ..*[r3]/d'
refused 'rt says that one failed' changed bin/rt 's/0 failed/1 failed/'
refused 'rt fails' sh -c 'echo "exit 1" >>bin/rt'
refused 'the layout is wrong' changed bin/rt '/two ran/d; s/^echo .rt: two proved/echo "rt: two NOT PROVED/; s/^echo .rt: ok.*/echo "rt: FAILED: two"/; s/^echo .3 passed, 0/echo "2 passed, 1/; s/failed.$/failed"/; s/PROVED.$/PROVED"/'
refused 'a crate is lost from the list' changed crates.txt '/^two/d'
refused 'a crate is lost from the tree' rm -r crates/two
refused 'an edit more than was tried' sh -c ': >crates/one/must-fail/more.edit'
refused 'a test is lost' rm tests/other.sh
refused 'a quick test is lost' rm tests/names.sh
refused 'all tests are lost' rm -r tests
refused 'all tests and their document are lost' rm -r tests docs
refused 'a test is not named' changed docs/PROMISES.md '/other/d'
refused 'all tests but the quick ones, and their names, are lost with PROMISES.md' rm -r docs tests/other.sh tests/skips.sh
refused 'a test is empty' sh -c ': >tests/other.sh'
refused 'a test has no case' changed tests/other.sh 's/3 passed/0 passed/'
refused 'a test says that a case failed' changed tests/other.sh 's/0 failed/1 failed/'
refused 'a test fails' sh -c 'echo "exit 1" >>tests/other.sh'
refused 'a test is not to be run' chmod -x tests/other.sh
refused 'a quick test fails' sh -c 'echo "exit 1" >>tests/edits.sh'
counted 'and nothing was proved before that was said' [ ! -e "$work/made/calls" ]
finished 33
