#!/bin/sh
# The edit journal from C: every script of tests/vectors/W5/journal.txt and tests/vectors/W10/journal.txt, or of the folder that is named
# (`tests/journal.sh FOLDER [--entries]`, with the word for scripts that don't say what a count of group 40 counts), through the functions of the
# header, by the program of tests/c. Every reply is compared with its numbers, the bytes used, every cell and every byte of the journal's buffer,
# those behind the used ones too. The program counts its checks; so many are demanded that no script can be left out.
set -u
cd "$(dirname "$0")/.." || exit 2
name=journal
. tests/cases
. tests/kit
chosen "$@"

program_made
if own; then
    set -- "$vectors/W5/journal.txt" "$vectors/W10/journal.txt"
else
    set -- "$vectors/journal.txt"
fi
for scripts in "$@"; do
    counted "there are scripts in $scripts" grep -Eq '^((elements|entries) )?start ' "$scripts"
done
started "$work/main" journal "${rules%% *}" "$@" >"$work/said"
counted 'every check of the program' [ "$?" = 0 ] || head -n 21 "$work/said"
last=$(tail -n 1 "$work/said")
echo "$name: $last"
made=${last%% checks,*}
! own || counted 'as many checks as there are' [ "${made:-0}" -ge 31420 ]
finished 17
