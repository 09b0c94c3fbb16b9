#!/bin/sh
# What README.md shows. Its rows of the example day, and those about the rules, are what list, dump and rewrite print. The C program is cut out
# of it, compiled, linked and run, and so is the Rust program where cargo is at hand; both must print foF2 of each hour of examples/day.sao, as
# it stands in the text's columns, but for the one hour where it was not scaled (R291). The scene of edit is played, and its lines about a
# record and the journal in Rust are those that the wrapper's documentation runs. What it shows of profile, noon and follow stands in these programs,
# and is printed. The toolchain's own compiler, linker and loader are used; on x86-64 the commands of README.md too. Another file than
# README.md may be named.
set -u
home=$(cd "$(dirname "$0")/.." && pwd -P) || exit 2
case ${1-} in
'') readme=$home/README.md ;;
/*) readme=$1 ;;
*) readme=$PWD/$1 ;;
esac
cd "$home" || exit 2
name=readme
. tests/cases
. tests/kit

counted 'the archive' archived || finished 1 || exit 1
counted 'it is said how the folder is made that its commands write into' grep -qF '`mkdir -p target`' "$readme"
mkdir -p target

block() { # LANGUAGE NUMBER: the fenced block of that language, all where no number is given
    awk -v fence="\`\`\`$1" -v number="${2:-0}" '
        $0 == fence { met++; open = number == 0 || met == number; next }
        /^```/ { open = 0 }
        open' "$readme"
}

# foF2 stands in the first eight columns of the line behind the time stamp
awk '/^AA20040600229/ { getline; print substr($0, 1, 8) }' examples/day.sao | tr -d ' ' >"$work/hours"
counted 'foF2 of 24 hours in the text' [ "$(wc -l <"$work/hours")" -eq 24 ]
grep -vx '999\.900' "$work/hours" >"$work/want"
counted 'of which one was not scaled' [ "$(wc -l <"$work/want")" -eq 23 ]

# the rows that it shows of what list and dump print, those of dump up to `...` or to the words beside them
./run list <examples/damaged.sao >"$work/list"
grep -E '^[0-9 ]* 15 [0-9]*$|^end 24 ' "$readme" >"$work/rows"
counted 'rows of the listing are shown' [ "$(wc -l <"$work/rows")" -ge 4 ]
counted 'and are printed' [ -z "$(grep -Fxv -f "$work/list" "$work/rows")" ]
for text in day damaged; do
    ./run dump <"examples/$text.sao" >"$work/dump"
    row=$(sed -n "s/^\(group .*[^ .]\)  *\(\.\.\.\)* *$text\.sao:.*/\1/p" "$readme")
    counted "a row of the dump of $text is shown" [ -n "$row" ]
    counted 'and is printed once' [ "$(awk -v row="$row" 'index($0 " ", row " ") == 1' "$work/dump" | grep -c .)" -eq 1 ]
done

# the commands about line ends, group 40 and a ruined index, each with what it prints behind it: the rows, parted by commas, up to a colon; or the day
# itself. A program is built where it has to be, which is told on standard error
./run salvage </dev/null >/dev/null 2>&1
block sh | grep ' # ' >"$work/ruled"
counted 'three commands about line ends, two about group 40 and three about a ruined index are shown' [ "$(wc -l <"$work/ruled")" -eq 8 ]
while read -r shown; do
    eval "${shown%%#*}" >"$work/got" </dev/null
    told=${shown#*# }
    case $told in
    'the day, byte for byte') cp examples/day.sao "$work/said" ;;
    *) echo "${told%%:*}" | sed 's/, /\n/g' >"$work/said" ;;
    esac
    compared "$shown" "$work/said"
done <"$work/ruled"
{ head -c 18346 examples/damaged.sao && tail -c +20479 examples/damaged.sao; } >"$work/said"
counted 'what was salvaged is the damaged day without 09:00' cmp -s target/salvaged.sao "$work/said"

block c 1 >"$work/fof2.c"
counted 'the C program is that of examples' cmp -s "$work/fof2.c" examples/fof2.c
counted 'in at most ten lines' [ "$(wc -l <"$work/fof2.c")" -le 10 ]
counted 'with the library in it' grep -q 'seambeacon_record_characteristic' "$work/fof2.c"

counted 'the C program is compiled by the kit' compiled "$work/fof2.c" "$work/fof2.o" -std=c99
counted 'and linked' linked "$work/fof2" "$work/fof2.o"
started "$work/fof2" <examples/day.sao >"$work/got"
compared 'foF2 of each hour, in C by the kit' "$work/want"

# by the commands of README.md, in a folder that sees the project's own
commands() { # PATTERN: the commands of the README that match
    block sh | grep "^$1"
}

shown() { # CASE COMMANDS: what they print is foF2 of each hour
    counted "one command $1" [ "$(echo "$2" | grep -c .)" -eq 1 ]
    (cd "$work/project" && sh -c "$2") >"$work/got" 2>"$work/errors" || head -n 20 "$work/errors"
    compared "foF2 of each hour, $1" "$work/want"
}

mkdir "$work/project" "$work/project/target"
for part in include examples bindings tests crates crates.txt; do
    ln -s "$PWD/$part" "$work/project/$part"
done
counted 'the archive is made by a command' [ "$(commands '(cd crates/seambeacon && rt lib)$' | grep -c .)" -eq 1 ]
if [ "$machine" = x86_64 ] && command -v cc >/dev/null; then
    shown 'for C' "$(commands 'cc .*fof2')"
else
    echo "tests/readme.sh: skipped: the command for C, which needs x86-64 and cc (this is $machine)"
fi

# the scene of edit: behind `$` it is started, behind `>` stands what is typed, and all else is what it says
played() { # CASE PROGRAM..: each run of the scene, on one day and one journal; what is typed is its whole input
    case_of=$1
    shift
    cp examples/day.sao "$work/edited.sao"
    rm -f "$work/edited.journal" "$work/edited.journal".??????
    run=1
    while [ "$run" -le "$runs" ]; do
        awk -v run="$run" '/^\$ / { met++ } met == run && sub(/^> /, "")' "$work/scene" >"$work/typed"
        awk -v run="$run" '/^\$ / { met++; next } met == run && !/^> /' "$work/scene" |
            sed 's|\(target/journal\.\)[A-Za-z0-9]\{6\}$|\1??????|' >"$work/say" # the letters of a new file's name are any
        counted "$case_of: run $run has commands" [ -s "$work/typed" ]
        "$@" "$work/edited.sao" 2 "$work/edited.journal" <"$work/typed" >"$work/typed.got" 2>&1
        sed "s|$work/edited\.\(journal\.\)[A-Za-z0-9]\{6\}\$|target/\1??????|" "$work/typed.got" >"$work/got"
        compared "$case_of: run $run" "$work/say"
        run=$((run + 1))
    done
    awk '/^AA20040600229010000/ { getline; print substr($0, 1, 8) }' "$work/edited.sao" >"$work/got"
    echo '   3.600' >"$work/say"
    compared "$case_of: foF2 of 01:00 in the saved day" "$work/say"
    counted "$case_of: the journal is empty" [ ! -s "$work/edited.journal" ]
    counted "$case_of: what was replayed is kept" [ "$(cat "$work/edited.journal".?????? | wc -c)" -eq 56 ]
}

block text >"$work/scene"
runs=$(grep -c '^\$ target/edit target/day\.sao 2 target/journal$' "$work/scene")
counted 'a scene of two runs' [ "$runs" -eq 2 ]
counted 'edit is compiled and linked by the kit' editor_linked "$work/edit"
played 'the scene' started "$work/edit"
counted 'one command for edit' [ "$(commands 'cc .*edit' | grep -c .)" -eq 1 ]
if [ "$machine" = x86_64 ] && command -v cc >/dev/null; then
    counted 'the command for edit' sh -c "cd '$work/project' && $(commands 'cc .*edit')"
    played 'the scene, by the command' "$work/project/target/edit"
else
    echo "tests/readme.sh: skipped: the command for edit, which needs x86-64 and cc (this is $machine)"
fi

within() { # PART WHOLE
    case $(cat "$2") in
    *"$(cat "$1")"*) [ -s "$1" ] ;;
    *) return 1 ;;
    esac
}

# the panel: a function of the program, which prints the cells of groups 51 to 53 as dump has them
block c 2 >"$work/panel.c"
counted 'the panel is that of examples' within "$work/panel.c" examples/profile.c
counted 'with the library in it' grep -q 'seambeacon_record_group' "$work/panel.c"
counted 'profile is compiled by the kit' compiled examples/profile.c "$work/profile.o" -std=c99
counted 'and linked' linked "$work/profile" "$work/profile.o"
if command -v cc >/dev/null; then
    counted 'profile, cc with its own headers' cc -std=c99 -Wall -Wextra -pedantic -Werror -Iinclude -fsyntax-only examples/profile.c
fi
./run dump <examples/day.sao | awk '
    $1 == "record" { place = $2 }
    $1 == "group" { cells[$2] = $4; for (i = 8; i <= NF; i++) cell[$2, i - 8] = $i }
    $1 == "group" && $2 == 53 {
        print "record at " place ": " cells[51] " points"
        for (i = 0; i < cells[51]; i++)
            printf "%.3f %.3f %.3fE%+d\n", cell[51, i] / 1000, cell[52, i] / 1000, cell[53, 2 * i] / 1000, cell[53, 2 * i + 1]
    }' >"$work/points"
counted 'points of 24 records' [ "$(grep -c '^record at ' "$work/points")" -eq 24 ]
started "$work/profile" <examples/day.sao >"$work/got"
compared 'the profile of each hour' "$work/points"
grep -o '`[0-9.]* [0-9.]* [0-9.]*E+[0-9]`' "$readme" | tr -d '`' >"$work/rows"
counted 'two points are shown' [ "$(wc -l <"$work/rows")" -eq 2 ]
counted 'and are printed' none "$(grep -Fxv -f "$work/got" "$work/rows")"

# noon: five lines of a program, which prints the second half of the day
block c 3 >"$work/noon.c"
counted 'the plot from noon on is that of examples' within "$work/noon.c" examples/noon.c
counted 'in five lines' [ "$(wc -l <"$work/noon.c")" -eq 5 ]
counted 'with the library in it' grep -q 'seambeacon_first_from' "$work/noon.c"
counted 'noon is compiled by the kit' compiled examples/noon.c "$work/noon.o" -std=c99
counted 'and linked' linked "$work/noon" "$work/noon.o"
if command -v cc >/dev/null; then
    counted 'noon, cc with its own headers' cc -std=c99 -Wall -Wextra -pedantic -Werror -Iinclude -fsyntax-only examples/noon.c
fi
started "$work/noon" <examples/day.sao >"$work/got"
tail -n 12 "$work/hours" >"$work/afternoon"
compared 'foF2 of each hour from noon on' "$work/afternoon"
counted 'the first of them is shown' grep -q "12 values from \`$(head -n 1 "$work/afternoon")\` on" "$readme"
head -c 25092 examples/day.sao >"$work/morning"
started "$work/noon" <"$work/morning" >"$work/got"
counted 'there is none in the morning: exit status 1' [ $? -eq 1 ]
counted 'and nothing is printed' [ ! -s "$work/got" ]

# what is shown of follow: lines of the program that stand there one behind the other, and lines that it prints of the day
block c 4 >"$work/walk.c"
counted 'the walk of follow is that of examples' within "$work/walk.c" examples/follow.c
counted 'with the library in it' grep -q 'seambeacon_place' "$work/walk.c"
block c 5 >"$work/loop.c"
counted 'and so is its loop' within "$work/loop.c" examples/follow.c
counted 'which walks on' grep -q 'walk_on()' "$work/loop.c"
grep -E '^record [0-9]+: |^waiting at ' "$readme" >"$work/rows"
counted 'lines of follow are shown' [ "$(wc -l <"$work/rows")" -ge 4 ]
counted 'follow is compiled by the kit' compiled examples/follow.c "$work/follow.o" -std=c99
counted 'and linked' linked "$work/follow" "$work/follow.o"
followed() { # CASE: the lines that are shown are in "$work/got"
    counted "$1: what is shown is told" none "$(grep -Fxv -f "$work/got" "$work/rows")"
    counted "$1: with a last line behind 24" [ "$(wc -l <"$work/got")" -eq 25 ]
}
started "$work/follow" 1000 <examples/day.sao >"$work/got"
followed 'the day, followed'
counted 'one command for follow' [ "$(commands 'cc .*follow' | grep -c .)" -eq 1 ]
if [ "$machine" = x86_64 ] && command -v cc >/dev/null; then
    (cd "$work/project" && sh -c "$(commands 'cc .*follow')") >"$work/got"
    followed 'the day, followed by the command'
else
    echo "tests/readme.sh: skipped: the command for follow, which needs x86-64 and cc (this is $machine)"
fi

block rust 1 >"$work/fof2.rs"
counted 'the Rust program is that of the wrapper' cmp -s "$work/fof2.rs" bindings/rust/examples/fof2.rs
counted 'with the library in it' grep -q 'seambeacon::' "$work/fof2.rs"
# what is shown of a record and of the journal in Rust is the example that its documentation runs, but for the lines that are hidden there
documented() { # STRUCT: the last example before it
    awk -v struct="pub struct $1" '
        index($0, struct " ") == 1 || index($0, struct "<") == 1 { printf "%s", shown; exit }
        /^\/\/\/ ```/ { open = !open; if (open) shown = ""; next }
        open && !/^\/\/\/ # / { sub(/^\/\/\/ ?/, ""); shown = shown $0 "\n" }' bindings/rust/src/lib.rs
}
block rust 2 >"$work/got"
documented Record >"$work/want.rs"
counted 'a record in Rust is shown' grep -q 'record\.group(' "$work/got"
compared 'as its documentation runs it' "$work/want.rs"
block rust 3 >"$work/got"
documented Journal >"$work/want.rs"
counted 'the journal in Rust is shown' grep -q 'Journal::replay' "$work/got"
compared 'as its documentation runs it' "$work/want.rs"
if [ "$machine" = x86_64 ] && command -v cargo >/dev/null; then
    CARGO_TARGET_DIR=$PWD/target/rust
    CARGO_NET_OFFLINE=true
    export CARGO_TARGET_DIR CARGO_NET_OFFLINE
    shown 'for Rust' "$(commands 'cargo ')"
else
    echo "tests/readme.sh: skipped: the command for Rust, which needs x86-64 and cargo (this is $machine)"
fi
finished 63
