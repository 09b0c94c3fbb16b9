/* R13, R365: S with a group 40, its count taken for elements and for entries, both asked for by several numbers. Every field is that of R407. What
   is due follows from how many elements and lines a count has, which stands in a table here; also for the greatest count, in reading, in writing
   and in the journal. That a count of any other group counts elements under all rules is tried on group 39. */
#include "entries.h"
#include "questions.h"
#include "texts.h"

#define LENGTH(list) (sizeof(list) / sizeof(list)[0])

/* A line is full with 6 fields of 20 bytes, and has 122 bytes then. */
enum { FULL = 6, FULL_BYTES = 122, CELLS_OF_S = 24 };

static const struct seambeacon_beside none;
static const uint16_t no_counts[80];

static const struct {
    uint16_t count;
    struct {
        size_t elements, lines;
    } by[2]; /* elements, entries */
} counts[] = {
    {0, {{0, 0}, {0, 0}}},
    {1, {{1, 1}, {1, 1}}},
    {2, {{2, 1}, {7, 2}}},
    {6, {{6, 1}, {31, 6}}},
    {7, {{7, 2}, {37, 7}}},
    {999, {{999, 167}, {5989, 999}}},
};

/* ---- S with such a group, made for one of the rules. */

static struct {
    uint16_t counts[80];
    size_t cell_count, length;
    int64_t cells[CELLS_OF_S + 2 * 5989 + 1]; /* one more, that writing can be asked with */
    uint8_t bytes[305 + 998 * FULL_BYTES + 22];
} made;

static void put(const char *bytes)
{
    memcpy(made.bytes + made.length, bytes, strlen(bytes));
    made.length += strlen(bytes);
}

/* S with another count of a group from 1 to 40. */
static void begin(size_t group, uint16_t count)
{
    size_t entry = 3 * group - 1;
    memset(&made, 0, sizeof made);
    memcpy(made.counts, s.counts, sizeof s.counts);
    memcpy(made.bytes, s.bytes, s.length);
    memcpy(made.cells, all_of_s, sizeof all_of_s);
    made.length = s.length;
    made.cell_count = CELLS_OF_S;
    made.counts[group - 1] = count;
    for (uint16_t left = count; left > 0; left /= 10)
        made.bytes[entry--] = (uint8_t)('0' + left % 10);
}

static void put_elements(size_t many, size_t full, const char *field, int64_t digits)
{
    for (size_t i = 1; i <= many; i++) {
        put(field);
        if (i % full == 0 || i == many)
            put("\r\n");
        made.cells[made.cell_count++] = digits;
        made.cells[made.cell_count++] = 1;
    }
}

static void make(size_t i, size_t entries)
{
    begin(40, counts[i].count);
    put_elements(counts[i].by[entries].elements, FULL, "  0.100000000000E+01", 100000000000);
    need("the bytes of its lines", made.length == s.length + 20 * counts[i].by[entries].elements + 2 * counts[i].by[entries].lines);
}

/* ---- Asked by the rule that it was made for. */

static void check_listed(size_t groups, size_t lines)
{
    static char listed[100];
    int length = sprintf(listed, "1 0 %lu 0 0 %lu %lu\nend 1 %lu 1 0\n", (unsigned long)made.length, (unsigned long)groups, (unsigned long)lines,
                         (unsigned long)made.length);
    ask_list_all(made.bytes, made.length, (const uint8_t *)listed, (size_t)length);
}

/* Every question about the record made, whose last group is this one. */
static void check_made(size_t group, size_t lines)
{
    struct seambeacon_part part = {s.length, made.length - s.length}, behind = {made.length, 0};
    ask_place(made.bytes, made.length, 0, 0, (struct seambeacon_beside){.next = made.length}, made.counts);
    ask_read_all(made.bytes, made.length, 0, group, made.cells + CELLS_OF_S, made.cell_count - CELLS_OF_S);
    ask_whole_all(made.bytes, made.length, 0, made.cells, made.cell_count);
    ask_lines(made.bytes, made.length, 0, group, 0, none, part);
    ask_lines(made.bytes, made.length, 0, group + 1, 0, none, behind);
    ask_write_all(made.counts, made.cells, made.cell_count, made.bytes, made.length);
    ask_write(made.counts, 80, made.cells, made.cell_count - 1, made.length, 14, none, NULL);
    ask_write(made.counts, 80, made.cells, made.cell_count + 1, made.length + FULL_BYTES, 14, none, NULL);
    ask_rewrite(made.bytes, made.length, 0, made.cell_count, made.length, 0,
                (struct seambeacon_beside){.next = made.length, .written = made.length}, 0, made.bytes, made.cells, made.cell_count);
    check_listed(3 + (lines > 0), 5 + lines);
}

/* ---- Asked by the other rule. */

/* Entries would have more lines than there are. */
static void check_too_few(void)
{
    static const char listed[] = "end 0 0 3 0\n";
    ask_place(made.bytes, made.length, 0, 3, none, no_counts);
    ask_read(made.bytes, made.length, 0, 40, 12000, 3, none, NULL);
    ask_whole(made.bytes, made.length, 0, 13000, 3, none, 0, NULL);
    ask_list_all(made.bytes, made.length, (const uint8_t *)listed, strlen(listed));
    ask_write(made.counts, 80, made.cells, made.cell_count, made.length, 14, none, NULL);
}

/* The lines of that many elements are all full. If so is the last of these elements' lines they are read, and else it has too many. */
static void check_too_many(size_t elements, size_t lines)
{
    ask_place(made.bytes, made.length, 0, 0, (struct seambeacon_beside){.next = s.length + lines * FULL_BYTES}, made.counts);
    if (elements % FULL == 0) {
        ask_read_all(made.bytes, made.length, 0, 40, made.cells + CELLS_OF_S, 2 * elements);
        ask_whole_all(made.bytes, made.length, 0, made.cells, CELLS_OF_S + 2 * elements);
    } else {
        ask_read(made.bytes, made.length, 0, 40, 2 * elements, 8, (struct seambeacon_beside){.line = lines}, NULL);
        ask_whole(made.bytes, made.length, 0, CELLS_OF_S + 2 * elements, 8, (struct seambeacon_beside){.line = lines}, 40, NULL);
        ask_whole(made.bytes, made.length, 0, CELLS_OF_S + 2 * elements - 1, 11, none, 0, NULL);
    }
    ask_write(made.counts, 80, made.cells, made.cell_count, made.length, 14, none, NULL);
}

/* ---- The journal: the last cell of group 40, and one behind it. */

static void set_field(uint8_t field[22], size_t cell, uint8_t old_value, uint8_t value)
{
    memset(field, 0, 22);
    field[0] = 1;
    field[2] = 19;
    field[3] = 40;
    field[4] = (uint8_t)(cell >> 8);
    field[5] = (uint8_t)(cell & 255);
    field[13] = old_value;
    field[21] = value;
}

/* Into a journal with room for two; the cells and the journal afterwards are compared. */
static void ask_set(size_t cell, size_t reply, const uint8_t *field)
{
    int64_t *table = lend_cells(made.cell_count), was = made.cells[made.cell_count - 1];
    uint8_t *journal = lend_bytes(44);
    memcpy(table, made.cells, made.cell_count * sizeof *table);
    fresh();
    lent.used = 0;
    due.used = reply == 0 ? 22 : 0;
    due.beside = none;
    answered("set_cell",
             seambeacon_set_cell(rules, made.counts, 80, table, made.cell_count, journal, 44, &lent.used, 40, cell, 7, &lent.beside), reply);
    if (reply == 0)
        made.cells[made.cell_count - 1] = 7;
    cells_due("set_cell: the cells", made.cells, made.cell_count);
    bytes_due("set_cell: the journal", field, due.used);
    made.cells[made.cell_count - 1] = was;
}

static void ask_replay(const uint8_t field[22])
{
    int64_t *table = lend_cells(made.cell_count);
    memcpy(table, made.cells, made.cell_count * sizeof *table);
    fresh();
    due.open = 0;
    due.beside = none;
    answered("replay", seambeacon_replay(rules, made.counts, 80, table, made.cell_count, field, 22, 22, &lent.open, &lent.beside), 0);
    made.cells[made.cell_count - 1] = 7;
    cells_due("replay: the cells", made.cells, made.cell_count);
    made.cells[made.cell_count - 1] = 1;
}

static void check_sets(void)
{
    size_t last = made.cell_count - CELLS_OF_S;
    uint8_t field[22];
    ask_set(last + 1, 12, NULL);
    ask_set(0, 12, NULL);
    if (last == 0)
        return;
    set_field(field, last, 1, 7);
    ask_set(last, 0, field);
    ask_replay(field);
}

/* ---- All of these, by every number. */

static void check_count(size_t i, size_t entries)
{
    of_case("group 40, of the rule it was made for", counts[i].count);
    make(i, entries);
    check_made(40, counts[i].by[entries].lines);
    check_sets();
    if (counts[i].count <= 1)
        return; /* the rules agree */
    of_case("group 40, of the other rule", counts[i].count);
    make(i, !entries);
    if (entries)
        check_too_few();
    else
        check_too_many(counts[i].by[0].elements, counts[i].by[0].lines);
}

/* 12 elements of E11.6E1, ten in a line: 12 fields of 11 bytes in two lines. */
static void check_group_39(void)
{
    of_case("group 39", 0);
    begin(39, 12);
    put_elements(12, 10, "0.100000E+1", 100000);
    need("two lines", made.length == s.length + 12 * 11 + 2 * 2);
    check_made(39, 2);
}

void check_entries(void)
{
    for (size_t i = 0; i < RULES * FLAGS; i++) {
        size_t rule = i / FLAGS, entries = rule == ENTRIES || rule == BOTH;
        under(flags[rule][i % FLAGS]);
        for (size_t k = 0; k < LENGTH(counts); k++)
            check_count(k, entries);
        check_group_39();
    }
}
