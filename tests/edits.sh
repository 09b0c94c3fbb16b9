#!/bin/sh
# Must-fail edits, before the prover is asked: each has texts to replace, of which each stands once in its file as the ones before it left that, and
# puts others in their place. An edit whose text has gone would be found out by `rt ci` only at its end. The check is tried on made-up edits first.
set -u
LC_ALL=C
export LC_ALL
cd "$(dirname "$0")/.." || exit 2
name=edits
. tests/cases

faults() { # FOLDER: what is wrong with the edits of the crates under it
    for edit in "$1"/*/must-fail/*.edit; do
        [ -f "$edit" ] || { echo "$1: no edit"; continue; }
        awk -v crate="${edit%/must-fail/*}/" '
            function wrong(what) { print FILENAME ": " what }
            function read_once(file, line) {
                if (file in text)
                    return
                text[file] = ""
                while ((getline line <(crate file)) > 0)
                    text[file] = text[file] line "\n"
                close(crate file)
            }
            /^file: / { file = substr($0, 7) }
            /^old: / { old = substr($0, 6) }
            /^new:/ {
                new = substr($0, 5); sub(/^ /, "", new)
                pairs++
                if (file !~ /^(src|specs|proofs)\// || file ~ /\.\./) {
                    wrong("its file is none of src/, specs/ or proofs/: " file)
                    next
                }
                read_once(file)
                at = old == "" ? 0 : index(text[file], old)
                if (!at)
                    wrong("the text to replace is not in " file ": " old)
                else if (index(substr(text[file], at + 1), old))
                    wrong("the text to replace is more than once in " file ": " old)
                else if (old == new)
                    wrong("nothing is replaced: " old)
                else
                    text[file] = substr(text[file], 1, at - 1) new substr(text[file], at + length(old))
                old = ""
            }
            END { if (!pairs) wrong("no text to replace") }' "$edit"
    done
}

mkdir -p "$work/made/one/src" "$work/made/one/must-fail" "$work/bare/one"
printf 'fn f() {\n    1\n}\nfn g() {\n    1 + 2\n}\n' >"$work/made/one/src/lib.rt"

made() { # FAULTS LINE..: an edit of these lines has so many faults
    want=$1
    shift
    printf '%s\n' "$@" >"$work/made/one/must-fail/made.edit"
    counted "made up: $*" [ "$(faults "$work/made" | grep -c .)" = "$want" ]
}

made 0 'file: src/lib.rt' 'old:     1 + 2' 'new:     1 + 3'
made 0 '# a remark' 'file: src/lib.rt' 'old: 1 + 2' 'new: 1 + 3' 'old: fn f' 'new: fn h'
made 0 'file: src/lib.rt' 'old:  + 2' 'new:'
made 0 'file: src/lib.rt' 'old: 1 + 2' 'new: 1 + 3' 'old: 1 + 3' 'new: 1 + 4'
made 0 'file: src/lib.rt' 'old: 1 + 2' 'new: 3 + 2' 'old:     1' 'new:     4'
made 1 'file: src/lib.rt' 'old: 1 + 2' 'new: 1 + 3' 'old: 1 + 2' 'new: 1 + 4'
made 1 'file: src/lib.rt' 'old: 1 + 2' 'new: fn f' 'old: fn f' 'new: fn h'
made 1 'file: src/lib.rt' 'old: 1 + 4' 'new: 1 + 3'
made 1 'file: src/lib.rt' 'old:     1' 'new:     2'
made 1 'file: src/lib.rt' 'old: 1 + 2' 'new: 1 + 2'
made 1 'file: src/lib.rt' 'old: 1 + 2'
made 1 'file: src/lib.rt' 'new: 1 + 2'
made 1 'file: src/main.rt' 'old: 1 + 2' 'new: 1 + 3'
made 1 'old: 1 + 2' 'new: 1 + 3' 'file: src/lib.rt' 'old: 1 + 2' 'new: 1 + 3'
counted 'made up: no edit at all' [ -n "$(faults "$work/bare")" ]

counted 'the text of each edit stands once in its file' none "$(faults crates)"
finished 16
