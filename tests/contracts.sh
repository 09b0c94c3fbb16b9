#!/bin/sh
# Contracts: every public function of every crate has an `ensures`, but for `words::given`: what the system hands over is in no contract; and
# every `impl From` says what it gives. No public question of `sao` or `seambeacon` has a `requires`. The questions are those of README.md and of
# the header, name for name. The check is tried on made-up functions first.
set -u
LC_ALL=C
export LC_ALL
cd "$(dirname "$0")/.." || exit 2
name=contracts
. tests/cases
. tests/words

# A line for each public function: its file, its name, how many `ensures` and how many `requires` it has. Its contract is what stands between
# its name and the body's brace, clause by clause, each with a name or without; `misread` stands in place of the numbers where that is not so.
contracts() { # FILE..
    words "$@" | awk '
        function ended() {
            if (public)
                print file, called, clear ? ensures " " requires : "misread"
            state = ""; public = 0
        }
        function left() { # the end of a file
            if (state == "")
                return
            clear = clear && state == "behind"
            ended()
        }
        $1 != file { left(); file = $1; public = 0 }
        { word = $2 }
        # behind a body stands no clause, or it was no body
        state == "behind" { clear = clear && word !~ /^(\{|requires|ensures)$/; ended() }
        state == "" && word == "fn" { state = "named"; next }
        state == "" {
            if (word ~ /^(pub|extern)$/)
                public = 1
            else if (word !~ /^(""|const|unsafe|\(|crate|super|\))$/)
                public = 0
            next
        }
        state == "named" {
            called = word; state = "signed"; clear = 1; ensures = 0; requires = 0; clause = ""; nested = 0; braces = 0
            next
        }
        state == "signed" && braces == 0 && word ~ /^[([]$/ { nested++ }
        state == "signed" && braces == 0 && word ~ /^[])]$/ { nested-- }
        state == "signed" && braces == 0 && nested == 0 && word ~ /^(requires|ensures)$/ {
            clear = clear && clause == ""
            clause = word; names = 0
            next
        }
        state == "signed" && braces == 0 && nested == 0 && word == ";" { clear = 0; ended(); next }
        word == "{" && braces++ == 0 {
            if (clause == "")
                state = "body"
            else
                clear = clear && names <= 1
            next
        }
        word == "}" && --braces == 0 {
            if (state == "body")
                state = "behind"
            ensures += clause == "ensures"
            requires += clause == "requires"
            clause = ""
            next
        }
        braces == 0 && clause != "" { names++ }
        END { left() }'
}

unensured() { # FILE..: the public functions without an `ensures`
    contracts "$@" | awk '$3 == "misread" || $3 == 0'
}

required() { # FILE..: the public functions with a `requires`
    contracts "$@" | awk '$3 == "misread" || $4 > 0'
}

unsaid() { # FILE..: the files with an `impl From` that has no `from_gives`, once for each
    words "$@" | awk '
        # an item, and no type of a parameter
        $2 == "impl" && last ~ /^[]};{]?$/ { open = 1; at = depth; from = 0; given = 0 }
        open && depth == at && $2 == "From" { from = 1 }
        open && depth == at + 1 && last == "ghost" && $2 == "from_gives" { given = 1 }
        $2 == "{" { depth++ }
        $2 == "}" && --depth == at && open { open = 0; if (from && !given) print $1 }
        { last = $2 }'
}

converts() { # MANY CODE: so many `impl From` of a made-up file say nothing of what they give
    printf '%s\n' "$2" >"$work/made.rt"
    counted "made up: $2" [ "$(unsaid "$work/made.rt" | grep -c .)" = "$1" ]
}

made() { # NUMBERS CODE: of a made-up function f, so many `ensures` and `requires` are found, or it is `misread`; nothing where it is not public
    printf '%s\n' "$2" >"$work/made.rt"
    counted "made up: $2" [ "$(contracts "$work/made.rt" | cut -d ' ' -f 2-)" = "$1" ]
}

made 'f 1 0' 'pub fn f(n: usize) -> usize ensures { result ≡ n } { n }'
made 'f 2 0' 'pub fn f(n: &mut [u8; 2]) ensures answer { a } ensures table { S { b } } { n }'
made 'f 1 1' 'pub fn f(n: usize) -> usize requires { n } ensures { n } { n }'
made 'f 1 1' 'pub fn f(n: usize) -> usize
    requires small { n }
    ensures { n }
{
    n
}'
made 'f 1 1' '#[unsafe(no_mangle)] pub extern "C" fn f(
    n: usize,
) -> usize requires
{ n } ensures
{ n }
{ n }'
made 'f 1 1' "impl T { pub fn f<'a>(self, n: &'a [u8]) -> &'a [u8] ensures { n } requires { n } { n } }"
made 'f 0 0' 'pub fn f(n: usize) -> usize { n }'
made 'f 0 0' 'pub fn f(n: usize) -> usize // ensures { n }
{ n }'
made 'f 0 0' 'pub fn f(n: usize) -> usize /* ensures { n } */ { "ensures { n }" }'
made 'f 0 1' 'extern "C" fn f(n: usize) -> usize requires { n } { n }'
made 'f misread' 'pub fn f(n: usize) -> usize ensures { n } grows { n } requires { n } { n }'
made 'f misread' 'pub fn f(n: usize) -> usize ensures two names { n } { n }'
made 'f misread' 'pub fn f(n: usize) -> usize ensures { n };'
made 'f misread' 'pub fn f(n: usize) -> usize ensures { n }'
made '' 'fn f(n: usize) -> usize requires { n } { n }'
made '' 'pub struct S { n: usize } fn f(n: usize) -> usize requires { n } { n }'

converts 0 'impl From<A> for B { ghost from_gives = { same }; fn from(a: A) -> B { B { a } } }'
converts 1 'impl From<A> for B { fn from(a: A) -> B { B { a } } }'
converts 1 'impl From<A> for B { ghost from_gives = { same }; fn from(a: A) -> B { b } } impl From<C> for B { fn from(c: C) -> B { /* ghost from_gives */ b } }'
converts 1 'mod m { impl From<A> for B { fn from(a: A) -> B { B { a } } } }'
converts 1 'impl From<A> for B { fn from(a: A) -> B { ghost from_gives = { same }; B { a } } }'
converts 1 'impl From<A> for B { fn from(a: A) -> B { f(|x: impl C| x); B { a } } }'
converts 0 'impl B { fn from(a: A) -> B { B { a } } }'

counted 'every impl From says what it gives' none "$(unsaid crates/*/src/*.rt)"
counted 'every public function but one has an ensures' none "$(unensured crates/*/src/*.rt | grep -vx 'crates/words/src/lib\.rt given 0 0')"
for crate in sao seambeacon; do
    counted "no question of $crate has a requires" none "$(required crates/$crate/src/*.rt)"
done

# the questions of README.md, in the first column of its table, and of the header
awk '/^## / { open = $0 == "## Questions" } open && /^\|/ { split($0, cell, "|"); print cell[2] }' README.md |
    grep -o '`[a-z_]*(' | tr -d '`(' | sort >"$work/sao"
sed -n 's/^enum seambeacon_reply \(seambeacon_[a-z_]*\)(.*/\1/p' include/seambeacon.h | sort >"$work/seambeacon"
for crate in sao seambeacon; do
    contracts crates/$crate/src/*.rt | cut -d ' ' -f 2 | sort >"$work/got"
    counted "there are questions of $crate" [ -s "$work/$crate" ]
    compared "the questions of $crate" "$work/$crate"
done
finished 31
