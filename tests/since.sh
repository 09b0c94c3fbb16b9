#!/bin/sh
# The first record from a date on, from C (R330 to R336), by the program of tests/c. Every question of tests/vectors/W8/first.txt, or of the folder
# that is named (`tests/since.sh FOLDER`), is asked, but for those with a number below 0, and compared with its answer: the reply, the place, the
# records passed, all numbers beside the reply. Then every text of tests/vectors and examples, or of that folder, by each of the rules: for the date of
# each record, a second before and behind it within its minute, and the least and the greatest date of all, the answer is that of a walk over all
# records; and it stays when what stands behind the record that is found is replaced or cut off.
set -u
cd "$(dirname "$0")/.." || exit 2
name=since
. tests/cases
. tests/kit
begun W8 "$@"

# ---- the questions

counted 'there are questions' grep -q ' = ' "$folder/first.txt"
held "$folder/first.txt" 378 firsts "$folder" "$folder/first.txt"
counted 'every line is asked that has no number below 0' [ "${told%% *}" = "$(grep -vc ' -' "$folder/first.txt")" ]
counted 'as many questions as there are' asked 1 378

# ---- the texts

over_texts texts_held 16203 dates
counted 'as many dates as there are' asked 1 4685
finished 26
