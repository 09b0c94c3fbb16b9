#!/bin/sh
# Names: what the documents name is there, and what must be named is named. Between backquotes stand:
#   `name`, `name` (crate, `specs/File.antt`)    declared in that file, and open to others; without its folder the file is of specs/ or proofs/
#   `field`, `field` of `Record` (crate, ..)     fields of that record
#   `crate::name`, `crate::Type::name`           code of the crate
#   `crate/label`                                a must-fail edit of the crate
#   `tests/list.sh`, `README.md`                 a path
#   `name`                                       alone: a crate, or what the same document gives with its file elsewhere
# Anything else that begins with a letter is an error, so that nothing is passed over. The other way round, PROMISES.md names each field of the
# demands' records, each theorem and each question of `sao` and `seambeacon`, each must-fail edit and each test. A rule that is cited anywhere, as
# R62 or D2.4, stands in FORMAT.md, and each rule that stands there is cited in one of the documents. One name has one meaning: what two crates
# define under one name is an error. The lookup is tried on made-up documents first.
set -u
LC_ALL=C
export LC_ALL
cd "$(dirname "$0")/.." || exit 2
name=names
. tests/cases
. tests/words

documents='docs/PROMISES.md docs/TRACE.md'
# the records whose fields PROMISES.md names, each of them
demands='crates/sao/specs/Demand*.antt crates/sao/specs/Ends.antt crates/sao/specs/Entries.antt crates/sao/specs/Growth.antt crates/sao/specs/Numbers.antt crates/group/specs/Damage.antt crates/group/specs/Answers.antt crates/group/specs/Growth.antt crates/place/specs/Growth.antt crates/rewriting/specs/Due.antt'

# A line for each thing that can be named, in a folder laid out as the project: `path P`, `crate C`, `edit C/LABEL`, and `law C FILE OWNER NAME`
# or `code C FILE OWNER NAME OPEN` for what is declared, OWNER the record, data type, enum, struct or impl that it belongs to, else -.
declared() { # FOLDER
    (
        cd "$1" || exit 2
        find . -name target -prune -o -name out -prune -o -name .git -prune -o -print | sed -n 's|^\./|path |p'
        for crate in crates/*/; do
            crate=${crate%/}
            echo "crate ${crate#crates/}"
        done
        for edit in crates/*/must-fail/*.edit; do
            edit=${edit#crates/}
            echo "edit ${edit%%/*}/$(basename "$edit" .edit)"
        done
        find crates -name '*.antt' | sort | while read -r file; do
            awk '
                FNR == 1 {
                    split(FILENAME, part, "/")
                    where = part[2] " " substr(FILENAME, length(part[2]) + 9)
                    owner = "-"; scope = -1
                }
                /^ *(--.*)?$/ { next }
                {
                    match($0, /^ */)
                    if (RLENGTH <= scope) { owner = "-"; scope = -1 }
                    first = 1
                    while ($first == "abbrev" || $first == "unfoldable")
                        first++
                    open = $first == "pub"
                    first += open
                }
                open && $first ~ /^(record|data)$/ {
                    owner = $(first + 1); scope = RLENGTH; shapes = $first == "data"
                    print "law", where, "-", owner
                    next
                }
                open || owner != "-" && shapes {
                    for (last = first; last <= NF && $last != ":"; last++)
                        ;
                    for (; last <= NF && first < last; first++)
                        print "law", where, owner, $first
                }' "$file"
        done
        words crates/*/src/*.rt | awk '
            $1 != file {
                file = $1
                split(file, part, "/")
                where = part[2] " " substr(file, length(part[2]) + 9)
                owner = "-"; braces = 0; nested = 0; head = 0; awaited = ""; open = 0; before = ""
            }
            { word = $2 }
            word == "{" { braces++ }
            word == "}" && --braces == 0 { owner = "-" }
            word ~ /^[([]$/ { nested++ }
            word ~ /^[])]$/ { nested-- }
            # the type of an impl is what stands last in its head, its parameters aside
            awaited == "impl" && nested == 0 { head = 1; angles = 0 }
            head && word == "<" { angles++ }
            head && word == ">" && before != "-" { angles-- }
            head && word ~ /^({|where)$/ { head = 0 }
            head && angles == 0 && word ~ /^[A-Za-z]/ { owner = word }
            awaited ~ /^(enum|struct)$/ { print "code", where, "-", word, open; owner = word; members = 1 }
            awaited ~ /^(fn|const|static)$/ { print "code", where, owner, word, open }
            awaited == "" && owner != "-" && members && braces == 1 && nested == 0 && before ~ /^([{,]|pub|ghost)$/ && word ~ /^[A-Za-z]/ {
                if (word !~ /^(pub|ghost)$/)
                    print "code", where, owner, word, "-"
            }
            awaited == "" && word == "impl" { members = 0 }
            awaited != "" { open = "-" }
            { awaited = word ~ /^(impl|enum|struct|fn|const|static)$/ ? word : "" }
            word ~ /^(pub|extern)$/ { open = "open" }
            word !~ /^(pub|extern|""|const|static|unsafe|fn|enum|struct|impl)$/ { open = "-" }
            { before = word }'
    )
}

# What is wrong in the documents, a line each; `DOCUMENT: N references in M rows` for each document; and `named DOCUMENT ..` for each reference.
looked_up() { # DECLARED DOCUMENT..
    awk '
        BEGIN {
            # words of the language and of what the programs print; folders of every crate
            many = split("requires|ensures|pub fn|let .. else|static|Option|Result|specs/|proofs/|src/|must-fail/|E|end|end |end 0 0 11 0", list, "|")
            for (i = 1; i <= many; i++)
                word[list[i]] = 1
        }
        FNR == NR {
            sub(/^path /, "path\t") || gsub(/ /, "\t")
            split($0, part, "\t")
            if (part[1] == "path" || part[1] == "crate" || part[1] == "edit")
                there[part[1], part[2]] = 1
            else if (part[1] == "law")
                there["law", part[2], part[3], part[4], part[5]] = 1
            else
                there["code", part[2], part[4], part[5]] = 1
            next
        }
        function wrong(what) { print FILENAME ":" FNR ": " what }
        function found(what) {
            references++
            print "named", FILENAME, what
        }
        # the names since the last file, each in this file: what stands before ` of ` belongs to the name behind it
        function settled(crate, file, i, owner) {
            if (!waiting)
                wrong("no name before (" crate ", " file ")")
            for (i = waiting; i >= 1; i--) {
                if (i < waiting && joint[i + 1] == " of ")
                    owner = held[i + 1]
                else if (i == waiting || joint[i] == " of " || joint[i + 1] !~ /^(, | and )$/)
                    owner = "-"
                if (there["law", crate, file, owner, held[i]])
                    found("law " crate " " file " " owner " " held[i])
                else if (file !~ /\// && there["law", crate, "specs/" file, owner, held[i]])
                    found("law " crate " specs/" file " " owner " " held[i])
                else if (file !~ /\// && there["law", crate, "proofs/" file, owner, held[i]])
                    found("law " crate " proofs/" file " " owner " " held[i])
                else
                    wrong("no " held[i] (owner == "-" ? "" : " of " owner) " in " crate ", " file)
                given[FILENAME, held[i]] = 1
            }
            waiting = 0
        }
        function alone(i) {
            for (i = 1; i <= waiting; i++) {
                lone++
                where[lone] = FILENAME ":" FNR; in_document[lone] = FILENAME; lonely[lone] = held[i]
            }
            waiting = 0
        }
        function seen(gap, text, rest, crate, name, part) {
            if (text in word)
                return
            if (text ~ /\.antt$/ && gap ~ / \([a-z_]+, $/ && rest ~ /^\)/) {
                sub(/.*\(/, "", gap); sub(/, $/, "", gap)
                settled(gap, text)
            } else if (text ~ /^[A-Za-z][A-Za-z0-9_-]*$/) {
                held[++waiting] = text
                joint[waiting] = gap
            } else if (text ~ /^[a-z_]+::/) {
                crate = text; sub(/::.*/, "", crate)
                name = text; sub(/^[a-z_]+::/, "", name); sub(/\(.*/, "", name)
                if (split(name, part, "::") == 1) { part[2] = part[1]; part[1] = "-" }
                if (there["code", crate, part[1], part[2]])
                    found("code " crate " " part[1] " " part[2])
                else
                    wrong("no " name " in the code of " crate)
            } else if (text ~ /^[a-z_]+\/[a-z0-9_]+$/ && (("crate", substr(text, 1, index(text, "/") - 1)) in there)) {
                if (there["edit", text])
                    found("edit " text)
                else
                    wrong("no must-fail edit " text)
            } else if (text ~ /^[.A-Za-z_]+\// || text ~ /^[A-Za-z_]+\.(md|txt)$/) {
                name = text; sub(/^\.\//, "", name); sub(/\/$/, "", name)
                if (there["path", name])
                    found("path " name)
                else
                    wrong("no file or folder " text)
            } else if (text ~ /^[A-Za-z_]/)
                wrong("this names nothing that can be looked up: " text)
        }
        function read_cell(cell, gap, at, text) {
            gap = ""
            while ((at = index(cell, "`")) > 0) {
                gap = gap substr(cell, 1, at - 1)
                cell = substr(cell, at + 1)
                at = index(cell, "`")
                if (!at) { wrong("a backquote without its other"); break }
                text = substr(cell, 1, at - 1)
                cell = substr(cell, at + 1)
                seen(gap, text, cell)
                gap = ""
            }
            alone()
        }
        FNR == 1 { fenced = 0; table = 0; waiting = 0; documents[++number] = FILENAME }
        /^```/ { fenced = !fenced; next }
        fenced { next }
        /^\|/ {
            if (++table > 2)
                rows[FILENAME]++
            many = split($0, cell, "|")
            for (i = 1; i <= many; i++)
                read_cell(cell[i])
            counts[FILENAME] = references
            next
        }
        { table = 0; read_cell($0); counts[FILENAME] = references }
        END {
            for (i = 1; i <= lone; i++)
                if (!((in_document[i], lonely[i]) in given) && !there["crate", lonely[i]])
                    print where[i] ": " lonely[i] " stands alone, and no file of it is given in this document"
            for (i = 1; i <= number; i++) {
                here = counts[documents[i]] - counts[documents[i - 1]]
                print documents[i] ": " here " references in " rows[documents[i]] + 0 " rows"
            }
        }' "$@"
}

# Each name that specs/ of two crates define, or that is a type in the code of two. `Due` and `RefusedFor` mean the same of each crate's question:
# what is due as its answer, and when a refusal is.
twice() { # DECLARED
    awk '
        $1 == "law" && $3 ~ /^specs\// && $4 == "-" || $1 == "code" && $4 == "-" && $5 ~ /^[A-Z][A-Za-z]*[a-z]/ {
            name = $5
            if (name ~ /^(Due|RefusedFor)$/)
                next
            if (!(($1, name) in home))
                home[$1, name] = $2
            else if (home[$1, name] != $2)
                print name " has a meaning in " home[$1, name] " and one in " $2
        }' "$1"
}

# What PROMISES.md has to name: a line for each, as `looked_up` tells what is named.
demanded() { # DECLARED FILE..
    from=$1
    shift
    echo "$*" | tr ' ' '\n' | awk '
        FNR == NR { split($0, part, "/"); demand["law " part[2] " " substr($0, length(part[2]) + 9)] = 1; next }
        $1 == "law" && $4 != "-" && (($1 " " $2 " " $3) in demand) { print }
        $1 == "law" && $2 ~ /^(sao|seambeacon)$/ && $3 ~ /^proofs\/[^\/]*$/ && $4 == "-" { print }
        $1 == "code" && $2 ~ /^(sao|seambeacon)$/ && $6 == "open" { print $1, $2, $4, $5 }
        $1 == "edit" { print }
        $1 == "path" && $2 ~ /^tests\/[^\/]*\.sh$/ { print }' - "$from" | sort -u
}

# The rules of a rule book, in its order: those that stand in bold type at the head of an item or a row, and the demands, which are headings.
standing() { # BOOK
    sed -nE 's/^(- |\| )\*\*([RD][0-9.]+)\*\*.*/\2/p; s/^#+ (D[0-9]+) .*/\1/p' "$1"
}

# `RULE FILE:LINE` for each rule that the files cite; from one `to` another all are cited that stand between them. What `+ n` stands behind is
# no rule.
cited() { # STANDING FILE..
    awk '
        FNR == NR { book[++many] = $1; at[$1] = many; next }
        {
            rest = $0; before = ""; from = 0
            while (match(rest, /[RD][0-9]+/)) {
                gap = before substr(rest, 1, RSTART - 1)
                rule = substr(rest, RSTART, RLENGTH)
                rest = substr(rest, RSTART + RLENGTH)
                if (rule ~ /^D/ && match(rest, /^\.[0-9]+/)) {
                    rule = rule substr(rest, 1, RLENGTH)
                    rest = substr(rest, RLENGTH + 1)
                }
                before = rule
                if (gap ~ /[A-Za-z0-9_]$/ || rest ~ /^([A-Za-z0-9_]| \+ n)/) {
                    from = 0
                    continue
                }
                if (from && gap ~ /^[RD][0-9.]+ to $/)
                    while (++from < at[rule])
                        print book[from], FILENAME ":" FNR
                print rule, FILENAME ":" FNR
                from = at[rule]
            }
        }' "$@"
}

# Each rule that is cited and doesn't stand in the book.
unknown() { # STANDING FILE..
    cited "$@" | awk 'FNR == NR { stands[$1] = 1; next } !($1 in stands) { print $2 ": no rule " $1 }' "$1" -
}

# Each rule of the book that no file cites. A demand is cited by its sentences.
uncited() { # STANDING FILE..
    cited "$@" | awk 'FILENAME != standing { cited[$1] = 1; next } !($1 in cited) && !/^D[0-9]+$/ { print "not cited: " $1 }' \
        standing="$1" - "$1"
}

# ---- made up: a crate with a law, a record, a function and an edit

one=$work/made/crates/one
mkdir -p "$one/specs" "$one/proofs" "$one/src" "$one/must-fail" "$work/made/tests"
printf '%s\n' '-- pub remark : A' 'pub record Whole : Type 0 where' '  pub part : A' '  -- pub lost : A' '' 'abbrev pub short : A' 'hidden : A' \
    >"$one/specs/A.antt"
printf '%s\n' 'module _ where' '  pub law-one : A' '  law-one = a' '    where' '    inner : A' >"$one/proofs/A.antt"
printf '%s\n' 'pub enum E { One, Two(u8) }' 'impl E {' '    pub const TOP: u8 = 1;' '}' '// pub fn gone()' 'pub fn f(s: S) -> E { }' \
    'static ROWS: [u8; 2] = [1, 2];' "pub struct View<'a> { pub text: &'a [u8], ghost kept: { A } }" \
    "impl<'a> From<S> for View<'a> { fn from(s: &impl Into<S>) -> View<'a> { } }" "impl View<'_> { pub fn kept_of(self) -> E { } }" \
    >"$one/src/lib.rt"
: >"$one/must-fail/bad_answer.edit"
: >"$work/made/tests/a.sh"
declared "$work/made" >"$work/made.declared"

made() { # FAULTS LINE: so many faults are found in a document of this line
    printf '%s\n' "$2" >"$work/made.md"
    looked_up "$work/made.declared" "$work/made.md" | grep -v '^named ' | grep -vc ' references in ' >"$work/faults"
    counted "made up: $2" [ "$(cat "$work/faults")" = "$1" ]
}

made 0 'words, ` -0` and `007`'
made 0 '`Whole`, `short` (one, `specs/A.antt`) and `part` of `Whole` (one, `A.antt`), `law-one` (one, `A.antt`), then `short` again'
made 0 '| `one::f(s: S)`, `one::E`, `one::E::Two`, `one::E::TOP` | `one/bad_answer`, `tests/a.sh`, `crates/one`, `one` | `short` (one, `A.antt`) |'
made 1 '`short` (one, `proofs/A.antt`)'
made 1 '`remark` (one, `specs/A.antt`)'
made 1 '`hidden` (one, `specs/A.antt`)'
made 1 '`inner` (one, `proofs/A.antt`)'
made 1 '`part` (one, `specs/A.antt`)'
made 1 '`part`, `lost` of `Whole` (one, `specs/A.antt`)'
made 0 '`part` of `Whole`, `part` of `Whole` and `short` (one, `specs/A.antt`)'
made 2 '`part` of `Hole` (one, `specs/A.antt`)'
made 1 '`short` (two, `specs/A.antt`)'
made 2 '| `short` | (one, `specs/A.antt`) |'
made 1 '`short` and no file'
made 1 '`short` (`specs/A.antt`), `short` (one, `specs/A.antt`)'
made 0 '`one::ROWS`, `one::View`, `one::View::text`, `one::View::kept`, `one::View::from(s: S)`, `one::View::kept_of`'
made 1 '`one::gone`'
made 1 '`one::From::from`'
made 1 '`one::View::ghost`'
made 1 '`one::E::Three`'
made 1 '`two::f`'
made 1 '`f(s: S)`'
made 1 '`one/good_answer`'
made 1 '`tests/b.sh`'
made 1 '`README.md`'
made 1 '`short, law-one`'
made 1 'a lone ` backquote'

printf 'law one specs/A.antt Whole part\nedit one/bad_answer\npath tests/a.sh\n' | sort >"$work/want"
demanded "$work/made.declared" crates/one/specs/A.antt >"$work/got"
compared 'made up: what has to be named' "$work/want"

printf '%s\n' 'law one specs/A.antt - f' 'law one specs/B.antt - f' 'law two proofs/A.antt - f' 'law two specs/A.antt R f' 'law one specs/A.antt - Due' \
    'law two specs/A.antt - Due' 'code one src/lib.rt - E open' 'code one src/lib.rt - place open' 'code two src/lib.rt - place open' >"$work/once.declared"
counted 'made up: names with one meaning' none "$(twice "$work/once.declared")"
printf '%s\n' 'law two specs/A.antt - f' 'code two src/lib.rt - Record -' 'code one src/lib.rt - Record open' >>"$work/once.declared"
counted 'made up: names with two' [ "$(twice "$work/once.declared" | wc -l)" -eq 2 ]

# ---- made up: a rule book; its rules have numbers that the project's own has too, since this file is looked at as well

printf '%s\n' '- **R1** is cited by R2' '| **R2** | row |' '- **R3** third' 'no rule: **R4**' '## D1 Demand' '- **D1.1** sentence' '- **D1.2** and another' \
    >"$work/book.md"
standing "$work/book.md" >"$work/made.standing"

ruled() { # UNKNOWN UNCITED LINE: so many rules that this line cites don't stand in the book, and so many of the book are not cited
    printf '%s\n' "$3" >"$work/made.md"
    counted "made up: $3: unknown rules" [ "$(unknown "$work/made.standing" "$work/made.md" | wc -l)" -eq "$1" ]
    counted "made up: $3: rules not cited" [ "$(uncited "$work/made.standing" "$work/made.md" | wc -l)" -eq "$2" ]
}

ruled 0 0 'R1, R2; (R3), D1.1: D1.2.'
ruled 0 0 'R1 to R3, and D1.1 to D1.2'
ruled 0 1 'R1 and R3, D1.1 to D1.2'
ruled 0 5 'no rules: xR1 R2x R3_ 0D1.1'
ruled 0 5 'case n is R4 + n'
ruled 0 4 'a demand, D1, and R1'
ruled 1 4 'R1, R4'
ruled 1 4 'R1 to R4'
ruled 2 5 'D1.3 and R20'

# ---- the project

declared . >"$work/declared"
# shellcheck disable=SC2086
looked_up "$work/declared" $documents >"$work/looked"
counted 'what the documents name is there' none "$(grep -v -e '^named ' -e ' references in ' "$work/looked")"
for document in $documents; do
    read -r found rows <<EOF
$(sed -n "s|^$document: \([0-9]*\) references in \([0-9]*\) rows$|\1 \2|p" "$work/looked")
EOF
    echo "$name: $document: ${found:-0} references in ${rows:-0} rows"
    counted "$document has rows" [ "${rows:-0}" -gt 0 ]
    counted "and as many references" [ "${found:-0}" -ge "${rows:-0}" ]
done
sed -n 's|^named docs/PROMISES\.md ||p' "$work/looked" | sort -u >"$work/named"
# shellcheck disable=SC2086
demanded "$work/declared" $demands >"$work/demanded"
for kind in law code edit path; do
    counted "there is something to be named: $kind" grep -q "^$kind " "$work/demanded"
done
counted 'what must be named in PROMISES.md is' none "$(comm -23 "$work/demanded" "$work/named" | sed 's/^/not named in docs\/PROMISES.md: /')"

counted 'a name has one meaning' none "$(twice "$work/declared")"

standing docs/FORMAT.md >"$work/standing"
counted 'there are rules' [ "$(wc -l <"$work/standing")" -ge 200 ]
# shellcheck disable=SC2046
set -- $(find README.md run .ci crates tests include bindings examples docs -name target -prune -o -name out -prune -o -name stdout -prune -o -name '*.sao' -prune -o \
    -path 'tests/vectors/[0-9]*' -prune -o -path tests/vectors/writes.txt -prune -o -type f -print)
counted 'there are files that may cite them' [ $# -ge 200 ]
counted 'a rule that is cited stands in FORMAT.md' none "$(unknown "$work/standing" "$@")"
# shellcheck disable=SC2086
counted 'a rule of FORMAT.md is cited in the documents' none "$(uncited "$work/standing" $documents)"
finished 63
