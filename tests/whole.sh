#!/bin/sh
# A whole record in one call, from C (R271 to R276), by the program of tests/c. Every question of tests/vectors/W12/whole.txt, or of the folder that
# is named (`tests/whole.sh FOLDER`), is asked, and compared with its answer: the reply, the group that was being read, all numbers beside the reply,
# every cell of the table. Then every text of tests/vectors and examples, or of that folder, by each of the rules: at each record of the walk, where
# it stops, at the text's end and behind that, one call answers as sixty single readings do, with their cells joined; into a table without cells,
# one that is a cell short, an exact one and a longer one. At all these places, and at those of the questions, a rewriting is asked for too: under
# every refusal its table and its output are as they were, and under 0 the table has the same cells (R324 to R326).
set -u
cd "$(dirname "$0")/.." || exit 2
name=whole
. tests/cases
. tests/kit
begun W12 "$@"

# ---- the questions

counted 'there are questions' grep -q ' = ' "$folder/whole.txt"
held "$folder/whole.txt" 26760 wholes "$folder" "$folder/whole.txt"
counted 'every line is asked' [ "${told%% *}" = "$(wc -l <"$folder/whole.txt")" ]
counted 'as many questions as there are' asked 1 567

# ---- the texts

over_texts texts_held 171433 turns
counted 'as many records that are read' asked 1 961
counted 'as many with a group that is refused' asked 2 512
counted 'as many that break a rule on counts' asked 3 50
counted 'as many places without a record' asked 4 3885
finished 28
