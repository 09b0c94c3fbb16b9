"""Counts, in crates/*/src/*.rt, the places of docs/DESIGN-PASS.md.

    python3 tools/places.py [-l] [FOLDER]

FOLDER is the top of a checkout (here, if none is given); -l lists each place, with the file and the line. A comment is never a place.
"""
import re
import sys
from collections import Counter, defaultdict
from pathlib import Path


def sources(top):
    for path in sorted(Path(top).glob("crates/*/src/*.rt")):
        yield f"{path.parts[-3]}/{path.name}", [re.sub(r"//.*", "", line).rstrip() for line in path.read_text().split("\n")]


def blocks(lines, start):
    """Each `START NAME .. }`: its line, its name and its lines, up to a brace in the column where it began."""
    for i, line in enumerate(lines):
        m = re.match(rf"(\s*)(?:pub )?{start} (\w+)", line)
        if m:
            end = next((j for j in range(i, len(lines)) if lines[j] == m[1] + "}" or (j == i and lines[j].endswith("}"))), i)
            yield i + 1, m[2], lines[i:end + 1]


def functions(lines):
    return blocks(lines, r"(?:const |unsafe |extern \"C\" )*fn")


REFUSING = r"Refused|Misformed|Broken\w*|Wrong|Fails|Other|Stopped|NotReported|Missing|NoRoom|None|No"


def own_enums(name, lines):
    """Enums of two variants of which one holds a value, and enums with a variant that says no, or that holds a refusal."""
    for n, enum, body in blocks(lines, "enum"):
        kinds = [m for m in (re.match(r"    (\w+)(\(.*\)| \{)?,?$", line) for line in body[1:]) if m]
        two = len(kinds) == 2 and any(m[2] for m in kinds)
        if two or any(re.fullmatch(REFUSING, m[1]) and len(kinds) < 6 or "Refusal" in (m[2] or "") for m in kinds):
            yield n, enum


def flags_beside_values(name, lines):
    """Fields of structs that tell whether, or how, the other fields hold."""
    for n, struct, body in blocks(lines, "struct"):
        for k, line in enumerate(body):
            m = re.match(r"\s+(?:pub )?(answer|found|stands|known|kind|ok): ", line)
            if m:
                yield n + k, f"{struct}.{m[1]}"


def codes(name, lines):
    """Numbers for kinds and refusals: a kind, a tag or a reply's number as an integer, and a number that no value may have. The number of a
    group, a line or a characteristic is none."""
    for i, line in enumerate(lines):
        if re.search(r"\b(kind|tag): (u8|u32|u64|usize)\b|\bnumber: u32\b|let \(kind, |return 17;|^\s+17$|=> 17,|16 < after", line):
            yield i + 1, line.strip()


def indexed_loops(name, lines):
    """`while`, `loop`, and a `for` over a range whose number stands in an index or a place in its body."""
    for i, line in enumerate(lines):
        if re.match(r"\s*('\w+: )?(while .*|loop) \{", line):
            yield i + 1, line.strip()
        m = re.match(r"(\s*)(?:'\w+: )?for (\w+) in .*\.\..* \{$", line)
        if m:
            end = next(j for j in range(i, len(lines)) if lines[j] == m[1] + "}")
            if any(re.search(rf"\w\[[^\]]*\b{m[2]}\b", inner) for inner in lines[i + 1:end]):
                yield i + 1, line.strip()


BY_HAND = re.compile(
    r"fn (of_refusal|of_checked|of_answer|reply_of|lesser|is_word|signed|class|bits_of|cell_of|put_number|number|wide|is_printable|within|"
    r"is_between|is_digit|letter|at_or_after|leap|put_text|byte_or_blank|get_at|put_at|place_of|count_of|rules_of|date_of|all_blank|"
    r"is_segments|rounded_up|differs|zero_or|has_room|as_checked|next_place|group_of|passed_of|ends_by|counting_by|lower_of|is_placed|value_of)\b")


def by_hand(name, lines):
    """Functions that compare, order, copy or convert, of which std may have its own, and casts by `as`."""
    for i, line in enumerate(lines):
        m = BY_HAND.search(line)
        if m:
            yield i + 1, m[1]
        for m in re.finditer(r"\bas (?:u8|u16|u32|u64|usize|i64)\b", line):
            yield i + 1, line.strip()


def repeated_requires(name, lines):
    """A `requires` that three or more functions of a crate have, word for word but for the clause's name."""
    seen = defaultdict(list)
    for n, _, body in functions(lines):
        head = "\n".join(body).split("\n{")[0]
        for m in re.finditer(r"requires (?:\w+ )?\{(.*?)\}\s*(?=$|requires|ensures)", head, re.S):
            seen[" ".join(m[1].split())].append(n)
    for text, places in seen.items():
        if len(places) >= 3:
            for n in places:
                yield n, text


def parameters_together(name, lines):
    """Three or more parameters that stand side by side in three or more functions of a crate; each longest run once."""
    runs = defaultdict(list)
    for n, _, body in functions(lines):
        head = "\n".join(body).split("\n{")[0].split("ensures")[0].split("requires")[0]
        names = re.findall(r"[(,]\s*(?:mut )?(\w+): ", head[head.index("("):]) if "(" in head else []
        for k in range(len(names)):
            for size in range(3, len(names) - k + 1):
                runs[tuple(names[k:k + size])].append(n)
    many = {run: places for run, places in runs.items() if len(places) >= 3}
    for run, places in many.items():
        if not any(len(other) > len(run) and len(many[other]) == len(places) and
                   any(other[i:i + len(run)] == run for i in range(len(other))) for other in many):
            yield places[0], f"{', '.join(run)} ({len(places)} functions)"


def parallel_arrays(name, lines):
    """Structs with two or more arrays or slices, or one and a number that says how much of it counts."""
    for n, struct, body in blocks(lines, "struct"):
        arrays = [line for line in body if re.search(r": (&'a )?\[\w+", line)]
        if len(arrays) >= 2 or (arrays and any(re.search(r"\b(depth|end|used|many|len): ", line) for line in body)):
            yield n, struct


TWINS = [("whole_run", "fixed_run", "power_run"), ("fill_whole", "fill_fixed", "fill_power"), ("number_in", "figures_in"),
         ("all_printable", "all_letters"), ("on_group", "in_line", "no_field", "bad_date", "bad_entry"), ("listing_end", "put_listing"),
         ("numbers_end", "put_numbers"), ("lines_with", "lines_by", "lines_of"), ("read_with", "read_by"), ("part_by", "part_of"),
         ("characteristic_with", "characteristic_by", "characteristic_of"), ("walk", "play"), ("put_i", "put_f", "put_e"),
         ("open_in", "release_in"), ("print_record", "print_stop"), ("print_groups", "print_characteristics"), ("put_counts", "put_cells"),
         ("place_of", "count_of"), ("fill_each", "fill_powers")]

LEFT_ALONE = set("if else match let mut for in while loop return break self Self Ok Err Some None true false fn as ref".split())


def shape(body):
    """A function's body with its names and numbers taken out; none if it is too short to tell."""
    text = "\n".join(body)
    text = text[text.index("\n{") if "\n{" in text else text.find("{"):]
    words = re.findall(r"\w+|[^\w\s]", text)
    if len(words) < 30:
        return None
    return " ".join(w if w in LEFT_ALONE or not re.match(r"\w", w) else "_" for w in words)


def twins(files):
    """Functions of a crate that differ in a type, a size, a constant, a test or how their parameters are bundled, named after reading all of src/;
    and functions of any crates whose bodies are the same but for names and numbers. since's own `place_of` is another thing."""
    alike = defaultdict(list)
    for name, lines in files:
        found = {called: n for n, called, _ in functions(lines)}
        for group in TWINS:
            here = [called for called in group if called in found]
            if len(here) > 1 and not name.startswith("since"):
                for called in here:
                    yield name, found[called], f"{called} ({', '.join(here)})"
        for n, called, body in functions(lines):
            if not any(called in group for group in TWINS) and shape(body):
                alike[shape(body)].append((name, n, called))
    for same in alike.values():
        if len(same) > 1:
            for name, n, called in same:
                yield name, n, f"{called} ({', '.join(c for _, _, c in same)})"


def each(count):
    return lambda files: ((name, n, what) for name, lines in files for n, what in count(name, lines))


COUNTS = [("1 own enums of the shape of Option or Result", each(own_enums)), ("1 flags beside values", each(flags_beside_values)),
          ("1 numbers for kinds or refusals", each(codes)), ("2 twins", twins), ("3 while, loop, and ranges that index", each(indexed_loops)),
          ("4 compared, copied, converted or cast by hand", each(by_hand)), ("5 a requires of three or more functions", each(repeated_requires)),
          ("5 parameters that travel together", each(parameters_together)), ("6 parallel arrays, a length beside", each(parallel_arrays))]


def main():
    args = [a for a in sys.argv[1:] if a != "-l"]
    top = args[0] if args else "."
    files = list(sources(top))
    for title, count in COUNTS:
        places = list(count(files))
        print(f"{title}: {len(places)}")
        if "-l" in sys.argv:
            for name, n, what in places:
                print(f"    {name}:{n}: {what}")
    answers = list(Path(top).glob("crates/*/proofs/*/**/Answers.antt")) + list(Path(top).glob("crates/*/proofs/*/Proof.antt"))
    lines = sum(len(p.read_text().split("\n")) - 1 for p in answers)
    laws = list(Path(top).glob("crates/*/proofs/*.antt"))
    print(f"8 files of answers: {len(answers)}, {lines} lines; files of laws: {len(laws)}, {sum(len(p.read_text().split(chr(10))) - 1 for p in laws)} lines")


main()
