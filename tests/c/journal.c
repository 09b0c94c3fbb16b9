/* The journal's functions on the scripts of a file. What is due is kept here: counts, cells, the journal's bytes and how many are used. Each call
   is lent a copy of it between guards, and afterwards every cell and every byte is compared. Which cell a set alters follows from the counts.
   What a fresh journal has to undo is known from a plain stack of whole tables; what a lent one has, which need not fit its table, from its
   fields (R515). A script is gone through several times, by numbers that stand for the same rules as its own. */
#include "journal.h"
#include "questions.h"
#include "words.h"

enum { MOST_COUNTS = 100, MOST_CELLS = 20000, MOST_BYTES = 20000, MOST_OPEN = 16 };

struct state {
    uint32_t rules;
    size_t count_length, cell_length, room, used;
    size_t filled; /* bytes of the journal that a script gives: the used ones, or all where fewer are there */
    uint16_t counts[MOST_COUNTS];
    int64_t cells[MOST_CELLS];
    uint8_t bytes[MOST_BYTES];
};

static const struct seambeacon_beside none;
static struct state script, replayed;
static int lent_journal; /* the script did not begin with a fresh one */
static size_t line, turn; /* how often the file was gone through before */
static int64_t opened[MOST_OPEN + 1][MOST_CELLS];
static size_t open_now;

/* ---- What is lent, and what is due of it. */

static int64_t *lend_table(const struct state *state)
{
    int64_t *table = lend_cells(state->cell_length);
    memcpy(table, state->cells, state->cell_length * sizeof *table);
    return table;
}

static uint8_t *lend_journal(const struct state *state)
{
    uint8_t *journal = lend_bytes(state->room);
    memcpy(journal, state->bytes, state->filled);
    return journal;
}

static void state_due(const char *question, const struct state *state)
{
    cells_due(question, state->cells, state->cell_length);
    bytes_due(question, state->bytes, state->filled);
}

/* The two numbers beside a reply: the first is a savepoint, a group or a place, and there is no second. */
static struct seambeacon_beside beside_of(size_t reply, int opening)
{
    struct seambeacon_beside beside = none;
    size_t first = size();
    if (reply == 0 && opening)
        beside.savepoint = first;
    else if (reply == 6 || reply == 7)
        beside.group = first;
    else if (reply == 17)
        beside.place = first;
    else
        need("no number beside this reply", first == 0);
    need("no second number", size() == 0);
    return beside;
}

/* `-> REPLY A B`, the last two in due.beside: the reply. */
static size_t reply_due(int opening)
{
    size_t reply;
    need("an arrow", word_is("->"));
    reply = size();
    due.beside = beside_of(reply, opening);
    return reply;
}

/* ---- The table's layout, by the rules and the counts alone (R13, R501, R502). */

static const uint8_t cells_of_an_element[60] = {
    1, 120, 1, 1, 1, 1, 1, 1, 1, 1, /* groups 1 to 10 */
    1, 1,   1, 1, 1, 1, 1, 1, 1, 1, /* 11 to 20 */
    1, 1,   1, 1, 1, 1, 1, 1, 1, 1, /* 21 to 30 */
    1, 1,   1, 1, 1, 1, 2, 2, 2, 2, /* 31 to 40 */
    1, 2,   1, 1, 1, 1, 1, 1, 1, 1, /* 41 to 50 */
    1, 1,   2, 1, 1, 1, 2, 1, 1, 2, /* 51 to 60 */
};

static size_t elements_of(size_t group)
{
    size_t count = script.counts[group - 1];
    return group == 40 && (script.rules & SEAMBEACON_ENTRIES) && count > 0 ? 6 * (count - 1) + 1 : count;
}

static size_t cells_of(size_t group)
{
    return elements_of(group) * cells_of_an_element[group - 1];
}

/* Where a cell of a group stands in the table. */
static size_t spot(size_t group, size_t cell)
{
    size_t before = 0;
    int there = script.count_length == 80 && group >= 1 && group <= 60 && cell >= 1 && cell <= cells_of(group);
    need("a group that has that cell", there);
    for (size_t i = 1; there && i < group; i++)
        before += cells_of(i);
    need("a table of all cells", there && before + cell <= script.cell_length);
    return there && before + cell <= script.cell_length ? before + cell - 1 : 0;
}

/* ---- Fields: tag, a length of two bytes that counts what follows it, and what the call has. */

static void add_byte(size_t byte)
{
    need("room in the test", script.filled < MOST_BYTES);
    if (script.filled < MOST_BYTES)
        script.bytes[script.filled++] = (uint8_t)byte;
}

static void add_value(int64_t value)
{
    for (int shift = 56; shift >= 0; shift -= 8)
        add_byte((uint64_t)value >> shift & 255);
}

static void add_set(size_t group, size_t cell, int64_t old_value, int64_t value)
{
    add_byte(1);
    add_byte(0);
    add_byte(19);
    add_byte(group);
    add_byte(cell >> 8);
    add_byte(cell & 255);
    add_value(old_value);
    add_value(value);
}

static void add_savepoint(size_t tag, size_t savepoint)
{
    add_byte(tag);
    add_byte(0);
    add_byte(1);
    add_byte(savepoint);
}

static int64_t value_at(size_t place)
{
    uint64_t value = 0;
    for (size_t i = 0; i < 8; i++)
        value = value << 8 | script.bytes[place + i];
    return (int64_t)value;
}

/* An open savepoint's opening is the last with its number. Each cell that was set behind it gets the old value of the first of these sets, and
   so the sets are gone through from the last to the first. */
static void restore(size_t savepoint)
{
    static size_t sets[MOST_BYTES];
    size_t many = 0;
    for (size_t at = 0; at + 3 < script.filled; at += 3u + script.bytes[at + 2]) {
        if (script.bytes[at] == 2 && script.bytes[at + 3] == savepoint)
            many = 0;
        else if (script.bytes[at] == 1)
            sets[many++] = at;
    }
    while (many > 0) {
        const uint8_t *field = script.bytes + sets[--many];
        script.cells[spot(field[3], (size_t)field[4] << 8 | field[5])] = value_at(sets[many] + 6);
    }
}

/* ---- Calls. */

/* Lends the used bytes, and reads what is due: the reply, with the numbers beside it and the used bytes of `due`. */
static size_t call_due(int opening)
{
    size_t reply;
    fresh();
    lent.used = script.used;
    reply = reply_due(opening);
    due.used = script.used = size();
    return reply;
}

static void call_ended(const char *question)
{
    need("as many bytes are used as the fields have", script.filled == (script.used <= script.room ? script.used : script.room));
    state_due(question, &script);
}

static void check_set(void)
{
    size_t group = size(), cell = size(), reply;
    int64_t value = number(), *table = lend_table(&script);
    uint8_t *journal = lend_journal(&script);
    reply = call_due(0);
    answered("set_cell",
             seambeacon_set_cell(rules, script.counts, script.count_length, table, script.cell_length, journal, script.room, &lent.used, group, cell,
                                 value, &lent.beside),
             reply);
    if (reply == 0) {
        size_t altered = spot(group, cell);
        add_set(group, cell, script.cells[altered], value);
        script.cells[altered] = value;
    }
    call_ended("set_cell: cells and journal");
}

static void check_open(void)
{
    size_t reply;
    int64_t *table = lend_table(&script);
    uint8_t *journal = lend_journal(&script);
    reply = call_due(1);
    answered("open_savepoint",
             seambeacon_open_savepoint(rules, script.counts, script.count_length, table, script.cell_length, journal, script.room, &lent.used,
                                       &lent.beside),
             reply);
    if (reply == 0) {
        add_savepoint(2, due.beside.savepoint);
        open_now = due.beside.savepoint;
        need("a savepoint from 1 to 16", open_now >= 1 && open_now <= MOST_OPEN);
        memcpy(opened[open_now % (MOST_OPEN + 1)], script.cells, sizeof script.cells);
    }
    call_ended("open_savepoint: cells and journal");
}

static void check_release(void)
{
    size_t savepoint = size(), reply;
    int64_t *table = lend_table(&script);
    uint8_t *journal = lend_journal(&script);
    reply = call_due(0);
    answered("release_savepoint",
             seambeacon_release_savepoint(rules, script.counts, script.count_length, table, script.cell_length, journal, script.room, &lent.used,
                                          savepoint, &lent.beside),
             reply);
    if (reply == 0) {
        need("the innermost, by the stack", lent_journal || savepoint == open_now);
        open_now = savepoint - 1;
        add_savepoint(3, savepoint);
    }
    call_ended("release_savepoint: cells and journal");
}

static void check_undo(void)
{
    size_t savepoint = size(), reply;
    int64_t *table = lend_table(&script);
    uint8_t *journal = lend_journal(&script);
    reply = call_due(0);
    answered("undo_to_savepoint",
             seambeacon_undo_to_savepoint(rules, script.counts, script.count_length, table, script.cell_length, journal, script.room, &lent.used,
                                          savepoint, &lent.beside),
             reply);
    if (reply == 0) {
        need("an open one, by the stack", lent_journal || savepoint <= open_now);
        open_now = savepoint;
        if (lent_journal)
            restore(savepoint);
        else
            memcpy(script.cells, opened[savepoint % (MOST_OPEN + 1)], script.cell_length * sizeof *table);
        add_savepoint(4, savepoint);
    }
    call_ended("undo_to_savepoint: cells and journal");
}

/* ---- The state, as the script tells it. */

static void begin(struct state *state, uint32_t told)
{
    state->count_length = counts_given(state->counts, MOST_COUNTS);
    state->cell_length = numbers(state->cells, MOST_CELLS);
    state->rules = alike(told, state->counts, turn);
    under(state->rules);
}

static void check_start(int with_journal, uint32_t told)
{
    begin(&script, told);
    script.room = size();
    need("a journal that the test has room for", script.room <= MOST_BYTES);
    if (script.room > MOST_BYTES)
        script.room = MOST_BYTES;
    script.used = with_journal ? size() : 0;
    script.filled = with_journal ? hexadecimal(script.bytes, MOST_BYTES) : 0;
    need("the used bytes, or the whole journal", script.filled == (script.used <= script.room ? script.used : script.room));
    lent_journal = with_journal;
    open_now = 0;
}

static void check_cells(void)
{
    size_t i = 0;
    int same = 1;
    for (; line_goes_on(); i++) {
        int64_t cell = number();
        same = same && i < script.cell_length && cell == script.cells[i];
    }
    check("the cells now", same && i == script.cell_length);
}

static void check_bytes(void)
{
    static uint8_t bytes[MOST_BYTES];
    size_t length = hexadecimal(bytes, MOST_BYTES);
    check("the journal now", length == script.filled && memcmp(bytes, script.bytes, length) == 0);
}

/* ---- Replay. */

/* Over the table of `replayed`, with so many bytes behind those of its journal; its cells are due afterwards. */
static void ask_replay(const int64_t *cells, size_t behind, size_t reply)
{
    int64_t *table = lend_cells(replayed.cell_length);
    uint8_t *journal = lend_bytes(replayed.filled + behind);
    memcpy(table, cells, replayed.cell_length * sizeof *table);
    memcpy(journal, replayed.bytes, replayed.filled);
    answered("replay",
             seambeacon_replay(rules, replayed.counts, replayed.count_length, table, replayed.cell_length, journal, replayed.filled + behind,
                               replayed.used, &lent.open, &lent.beside),
             reply);
    state_due("replay: cells and journal", &replayed);
}

static void check_replay(uint32_t told)
{
    static int64_t cells[MOST_CELLS];
    size_t reply;
    begin(&replayed, told);
    memcpy(cells, replayed.cells, sizeof cells);
    replayed.used = size();
    replayed.filled = hexadecimal(replayed.bytes, MOST_BYTES);
    fresh();
    reply = reply_due(0);
    due.open = size();
    need("the cells of a replay", word_is("cells"));
    line++;
    for (size_t i = 0; line_goes_on() && i < MOST_CELLS; i++)
        replayed.cells[i] = number();
    need("which has as many as before", !line_goes_on());
    ask_replay(cells, 0, reply);
    if (replayed.used <= replayed.filled)
        ask_replay(cells, 5, reply);
    under(script.rules);
}

/* ---- No memory at all. */

static const uint16_t counts_of_s[80] = {[0] = 4, [2] = 19, [3] = 1, [79] = 5};
static int64_t cells_of_s[24];

/* Sets, opens, releases, undoes and replays, with an empty journal of which so many bytes are said to be used. */
static void ask_nothing(const uint16_t *counts, size_t count_length, int64_t *cells, size_t cell_length, size_t used, const size_t *replies,
                        struct seambeacon_beside beside)
{
    for (size_t i = 0; i < 5; i++) {
        enum seambeacon_reply reply;
        size_t *lent_used = &lent.used;
        fresh();
        due.beside = beside;
        due.used = lent.used = used;
        if (i == 0)
            reply = seambeacon_set_cell(rules, counts, count_length, cells, cell_length, NULL, 0, lent_used, 4, 1, 7, &lent.beside);
        else if (i == 1)
            reply = seambeacon_open_savepoint(rules, counts, count_length, cells, cell_length, NULL, 0, lent_used, &lent.beside);
        else if (i == 2)
            reply = seambeacon_release_savepoint(rules, counts, count_length, cells, cell_length, NULL, 0, lent_used, 1, &lent.beside);
        else if (i == 3)
            reply = seambeacon_undo_to_savepoint(rules, counts, count_length, cells, cell_length, NULL, 0, lent_used, 1, &lent.beside);
        else {
            due.open = 0;
            reply = seambeacon_replay(rules, counts, count_length, cells, cell_length, NULL, 0, used, &lent.open, &lent.beside);
        }
        answered("a call without memory", reply, replies[i]);
    }
}

static void check_nothing(void)
{
    static const size_t no_counts[] = {4, 4, 4, 4, 4}, no_cells[] = {14, 14, 14, 14, 14}, no_journal[] = {11, 11, 15, 15, 0},
                        beyond[] = {17, 17, 17, 17, 17};
    of_case("no counts, no cells and no journal", 0);
    ask_nothing(NULL, 0, NULL, 0, 0, no_counts, none);
    of_case("no cells and no journal", 0);
    ask_nothing(counts_of_s, 80, NULL, 0, 0, no_cells, none);
    of_case("no journal", 0);
    ask_nothing(counts_of_s, 80, cells_of_s, 24, 0, no_journal, none);
    of_case("no journal, and bytes of it are said to be used", 0);
    ask_nothing(counts_of_s, 80, cells_of_s, 24, (size_t)-1, beyond, none);
    for (size_t i = 0; i < 24; i++)
        check("the cells are as they were", cells_of_s[i] == 0);
}

void check_no_memory(void)
{
    for (size_t i = 0; i < RULES * FLAGS; i++) {
        under(flags[i / FLAGS][i % FLAGS]);
        check_nothing();
    }
}

/* ---- The file. */

static int check_line(uint32_t told)
{
    told = rules_told(told);
    if (word_is("#"))
        skip_line();
    else if (word_is("start"))
        check_start(0, told);
    else if (word_is("begin"))
        check_start(1, told);
    else if (word_is("set"))
        check_set();
    else if (word_is("open"))
        check_open();
    else if (word_is("release"))
        check_release();
    else if (word_is("undo"))
        check_undo();
    else if (word_is("cells"))
        check_cells();
    else if (word_is("journal"))
        check_bytes();
    else if (word_is("replay"))
        check_replay(told);
    else
        return 0;
    return 1;
}

static void check_lines(const char *file, uint32_t told)
{
    of_case(file, 0);
    read_words(file);
    for (line = 1; more(); line++) {
        of_case(file, line);
        if (!check_line(told)) {
            need("a line of the format", 0);
            return;
        }
    }
}

void check_journal(const char *file, uint32_t told)
{
    for (turn = 0; turn < ALIKE; turn++)
        check_lines(file, told);
}
