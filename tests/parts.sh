#!/bin/sh
# The questions with a record, from C (R285 to R288, R297), by the program of tests/c. Every question of tests/vectors/W7/parts.txt, or of the folder
# that is named (`tests/parts.sh FOLDER`), is asked and its answer compared byte for byte: with placed records and made-up ones, in their own text
# and in others, under their own rules and others. All lent memory is compared too. A record always has 80 counts, so questions with more or fewer
# are left out. Then every record of the walk over every text of tests/vectors and examples, or of that folder, under each of the rules: it answers
# every question as its place does.
set -u
cd "$(dirname "$0")/.." || exit 2
name=parts
. tests/cases
. tests/kit
begun W7 "$@"

held() { # OF LEAST: the program's checks hold, whose number is the last line that it said; over the project's own vectors there are at least so many
    last=$(tail -n 1 "$work/said")
    echo "$name: $1: $last"
    made=${last%% checks,*}
    ! own || counted "$1: as many checks as there are" [ "${made:-0}" -ge "$2" ]
}

# ---- the questions

counted 'there are questions' grep -Eq '^(read|lines|char|counts) ' "$folder/parts.txt"
awk '$4 == "made" && $8 != 80 { print "left out"; next } { sub(/.* = /, ""); print }' "$folder/parts.txt" >"$work/want"
started "$work/main" parts "$folder" "$folder/parts.txt" >"$work/said"
counted 'the questions: every check of the program' [ "$?" = 0 ] || grep -a '^FAILED: ' "$work/said"
sed '$d' "$work/said" >"$work/got"
compared 'the questions: every answer' "$work/want"
left_out=$(grep -cx 'left out' "$work/want")
asked=$(($(wc -l <"$work/want") - left_out))
echo "$name: $asked questions asked, $left_out left out, whose record has not 80 counts"
! own || counted 'as many questions as there are' [ "$asked" -ge 1604 ]
held 'the questions' 2397

# ---- placed records

over_texts started "$work/main" records >"$work/said"
counted 'placed records: every check of the program' [ "$?" = 0 ] || head -n 21 "$work/said"
records=$(sed -n 's/^\([0-9]*\) records$/\1/p' "$work/said")
echo "$name: ${records:-0} records placed by four rules"
! own || counted 'as many records as there are' [ "${records:-0}" -ge 1523 ]
held 'placed records' 531527
finished 22
