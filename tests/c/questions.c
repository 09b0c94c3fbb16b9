#include "forms.h"
#include "questions.h"

static const struct seambeacon_beside none;

const uint32_t flags[RULES][FLAGS] = {
    [USUAL] = {SEAMBEACON_USUAL, 4, 0x80000000, 0xfffffffc},
    [STRICT] = {SEAMBEACON_STRICT, 5, 0x80000001, 0xfffffffd},
    [ENTRIES] = {SEAMBEACON_ENTRIES, 6, 0x80000002, 0xfffffffe},
    [BOTH] = {SEAMBEACON_STRICT + SEAMBEACON_ENTRIES, 7, 0x80000003, 0xffffffff},
};

uint32_t alike(uint32_t asked, const uint16_t counts[80], size_t i)
{
    switch (i) {
    case 0:
        return asked;
    case 1:
        return asked ^ SEAMBEACON_STRICT;
    case 2:
        return asked ^ 0xfffffffc;
    default:
        return counts[39] <= 1 ? asked ^ SEAMBEACON_ENTRIES : asked;
    }
}

size_t *first_beside(struct seambeacon_beside *beside, size_t reply)
{
    switch (reply) {
    case 0:
        return &beside->written;
    case 6:
    case 7:
    case 13:
        return &beside->group;
    case 8:
    case 9:
        return &beside->line;
    case 10:
        return &beside->position;
    default:
        return NULL;
    }
}

/* R259: where the lines of each group of the record at a place begin and end: behind two index lines, one group after the other. */
static void places_due(const uint8_t *text, size_t length, size_t at, const uint16_t *counts)
{
    for (size_t group = 0; group <= 60; group++) {
        size_t lines = group == 0 ? 2 : lines_of(group, counts[group - 1]);
        if (group > 0)
            due.record.starts[group - 1] = at;
        for (; lines > 0 && at < length; at++)
            lines -= text[at] == '\n';
        if (group > 0)
            due.record.ends[group - 1] = at;
    }
}

void ask_place(const uint8_t *text, size_t length, size_t at, size_t reply, struct seambeacon_beside beside, const uint16_t *counts)
{
    fresh();
    memcpy(due.record.counts, counts, sizeof due.record.counts);
    memset(due.record.starts, 0, sizeof due.record.starts);
    memset(due.record.ends, 0, sizeof due.record.ends);
    if (reply == 0 || reply == 7)
        places_due(text, length, at, counts);
    due.record.reply = (enum seambeacon_reply)reply;
    due.record.beside = beside;
    answered("place", seambeacon_place(rules, text, length, at, &lent.record), reply);
}

void ask_read(const uint8_t *text, size_t length, size_t at, size_t group, size_t room, size_t reply, struct seambeacon_beside beside,
              const int64_t *cells)
{
    int64_t *table = lend_cells(room);
    fresh();
    due.beside = beside;
    answered("read_group", seambeacon_read_group(rules, text, length, at, group, table, room, &lent.beside), reply);
    cells_due("read_group: the table", cells, beside.written);
}

void ask_whole(const uint8_t *text, size_t length, size_t at, size_t room, size_t reply, struct seambeacon_beside beside, size_t unread,
               const int64_t *cells)
{
    int64_t *table = lend_cells(room);
    fresh();
    due.beside = beside;
    due.unread = unread;
    answered("read_record", seambeacon_read_record(rules, text, length, at, table, room, &lent.unread, &lent.beside), reply);
    cells_due("read_record: the table", cells, beside.written);
}

void ask_first(const uint8_t *text, size_t length, const struct seambeacon_date *from, size_t reply, struct seambeacon_beside beside, size_t place,
               size_t passed)
{
    fresh();
    due.beside = beside;
    due.place = place;
    due.passed = passed;
    answered("first_from", seambeacon_first_from(rules, text, length, from, &lent.place, &lent.passed, &lent.beside), reply);
}

void ask_stretch(const uint8_t *text, size_t length, size_t at, size_t reply, size_t next)
{
    fresh();
    due.beside = (struct seambeacon_beside){.next = next};
    answered("stretch_end", seambeacon_stretch_end(rules, text, length, at, &lent.beside), reply);
}

void ask_lines(const uint8_t *text, size_t length, size_t at, size_t group, size_t reply, struct seambeacon_beside beside,
               struct seambeacon_part part)
{
    fresh();
    due.beside = beside;
    due.part = part;
    answered("group_lines", seambeacon_group_lines(rules, text, length, at, group, &lent.part, &lent.beside), reply);
}

void ask_characteristic(const uint8_t *text, size_t length, size_t at, size_t number, size_t reply, struct seambeacon_beside beside,
                        enum seambeacon_kind kind, int64_t value)
{
    fresh();
    due.beside = beside;
    due.kind = kind;
    due.value = value;
    answered("characteristic", seambeacon_characteristic(rules, text, length, at, number, &lent.kind, &lent.value, &lent.beside), reply);
}

void ask_write(const uint16_t *counts, size_t many, const int64_t *cells, size_t cell_count, size_t room, size_t reply,
               struct seambeacon_beside beside, const uint8_t *bytes)
{
    uint8_t *out = lend_bytes(room);
    fresh();
    due.beside = beside;
    answered("write_record", seambeacon_write_record(rules, counts, many, cells, cell_count, out, room, &lent.beside), reply);
    bytes_due("write_record: the output", bytes, beside.written);
}

void ask_list(const uint8_t *text, size_t length, size_t room, size_t reply, struct seambeacon_beside beside, const uint8_t *bytes)
{
    uint8_t *out = lend_bytes(room);
    fresh();
    due.beside = beside;
    answered("list", seambeacon_list(rules, text, length, out, room, &lent.beside), reply);
    bytes_due("list: the output", bytes, beside.written);
}

void ask_rewrite(const uint8_t *text, size_t length, size_t at, size_t cell_room, size_t room, size_t reply, struct seambeacon_beside beside,
                 size_t unread, const uint8_t *bytes, const int64_t *cells, size_t count)
{
    int64_t *table = lend_cells(cell_room);
    uint8_t *out = lend_bytes(room);
    fresh();
    due.beside = beside;
    due.unread = unread;
    answered("rewrite_record",
             seambeacon_rewrite_record(rules, text, length, at, table, cell_room, out, room, &lent.unread, &lent.beside), reply);
    bytes_due("rewrite_record: the output", bytes, beside.written);
    cells_due("rewrite_record: the table", cells, reply == 0 ? count : 0);
}

/* ---- One short, exact and longer. */

static struct seambeacon_beside of_written(size_t written)
{
    struct seambeacon_beside beside = none;
    beside.written = written;
    return beside;
}

void ask_read_all(const uint8_t *text, size_t length, size_t at, size_t group, const int64_t *cells, size_t count)
{
    if (count > 0)
        ask_read(text, length, at, group, count - 1, 11, none, cells);
    ask_read(text, length, at, group, count, 0, of_written(count), cells);
    ask_read(text, length, at, group, count + 5, 0, of_written(count), cells);
}

void ask_whole_all(const uint8_t *text, size_t length, size_t at, const int64_t *cells, size_t count)
{
    ask_whole(text, length, at, 0, 11, none, 0, cells);
    ask_whole(text, length, at, count - 1, 11, none, 0, cells);
    ask_whole(text, length, at, count, 0, of_written(count), 0, cells);
    ask_whole(text, length, at, count + 5, 0, of_written(count), 0, cells);
}

void ask_write_all(const uint16_t *counts, const int64_t *cells, size_t cell_count, const uint8_t *bytes, size_t count)
{
    ask_write(counts, 80, cells, cell_count, count - 1, 11, none, bytes);
    ask_write(counts, 80, cells, cell_count, count, 0, of_written(count), bytes);
    ask_write(counts, 80, cells, cell_count, count + 5, 0, of_written(count), bytes);
}

void ask_list_all(const uint8_t *text, size_t length, const uint8_t *bytes, size_t count)
{
    ask_list(text, length, count - 1, 11, none, bytes);
    ask_list(text, length, count, 0, of_written(count), bytes);
    ask_list(text, length, count + 5, 0, of_written(count), bytes);
}
