/* Seambeacon: places, reads and writes SAO 4.3 records, and keeps a journal of edits.
   Link crates/seambeacon/out/libseambeacon.a (`rt lib` in crates/seambeacon), x86-64.

   Whatever rules, text, place, record, number, table, output and journal a function is given, it
   ends and returns one of the replies below; nothing has to be checked before a call. R with a
   number is a rule of docs/FORMAT.md.

   What a caller answers for:
   - A pointer with a length behind it is valid for that many of what it points to; with length 0
     it is never followed and may be NULL. Any other pointer is valid for the one value, array or
     struct that it points to, and is not NULL. All are aligned for their type.
   - Memory that is lent to be altered (a pointer without const) overlaps nothing else that is
     lent in the same call, and nobody else reads or writes it during the call. Nobody writes the
     rest during the call.

   Several threads may ask at the same time, without a lock: the library has no memory of its own
   and keeps nothing between two calls. They may lend the same text, record, counts and cells to be
   read; each call has a table, an output, a journal and numbers of its own to be altered, and
   placing a record of its own.

   A text is its bytes, with line ends; no byte marks its end. A place is a number of bytes from
   the text's start, or from the journal's. Groups, cells of a group, lines, elements, positions,
   characteristics and savepoints count from 1. */
#ifndef SEAMBEACON_H
#define SEAMBEACON_H

#include <stddef.h>
#include <stdint.h>

#ifdef __cplusplus
extern "C" {
#endif

/* The rules (R12): how the lines of a text end, and what a count of group 40 counts. Each function
   takes them first, as the sum of these flags. A flag without a meaning is ignored (R365). */
enum seambeacon_rules {
    /* no flag: a line ends with a line feed, and a carriage return that stands directly before it
       belongs to the line end too; lines of both kinds may stand in one text. Any other carriage
       return is a byte of the line like others. A count is the number of its group's elements,
       in group 40 as in every other */
    SEAMBEACON_USUAL = 0,
    /* the strict line end: the carriage return before the line feed has to be there; a line
       without it is refused, with 4 in the index and with 8 in a group */
    SEAMBEACON_STRICT = 1,
    /* a count of group 40 is a number of entries, parabolic segments and one more: n above 0 are
       n lines, the last with one element and each other one with six, so 6 (n - 1) + 1 elements
       of two cells each. A count of 0 or 1 means the same without this flag (R13) */
    SEAMBEACON_ENTRIES = 2
};

/* The replies (reply n is R200 + n), each with the numbers that are given beside it. */
enum seambeacon_reply {
    /* done: the next place in placing and rewriting, the cells or bytes written in all that
       write, the savepoint in opening one */
    SEAMBEACON_DONE = 0,
    /* the place is the text's end */
    SEAMBEACON_END = 1,
    /* the place lies behind the text's end */
    SEAMBEACON_BEYOND = 2,
    /* from the place on there are fewer line feeds than the record has lines */
    SEAMBEACON_TOO_FEW_LINES = 3,
    /* an index line or an entry is misformed or, under SEAMBEACON_STRICT, an index line lacks its
       carriage return; where counts are given, they are not 80 or one is above 999 */
    SEAMBEACON_MISFORMED = 4,
    /* the release, number 80 of the index, is not 5 */
    SEAMBEACON_OTHER_RELEASE = 5,
    /* a group of 61 to 79 has a count: the lowest such group */
    SEAMBEACON_FILLED_VACANT = 6,
    /* a rule on counts is broken: the group blamed, and in placing the next place */
    SEAMBEACON_BROKEN_RULE = 7,
    /* a data line has a wrong length, something else than blanks behind its fields or, under
       SEAMBEACON_STRICT, no carriage return at its end: the line */
    SEAMBEACON_BAD_LINE = 8,
    /* a field is misformed: its line and its element */
    SEAMBEACON_BAD_FIELD = 9,
    /* the date in group 3, or one that is asked for, is wrong: the position in group 3 blamed */
    SEAMBEACON_BAD_DATE = 10,
    /* the table, the output or the journal is too short for what 0 would put there */
    SEAMBEACON_NO_ROOM = 11,
    /* the number is no group (1 to 60), or no characteristic (1 to 49); in setting a cell, the
       group has no such cell either */
    SEAMBEACON_NO_SUCH_NUMBER = 12,
    /* in writing, no field of its form reads as an element's cells: its group and its element */
    SEAMBEACON_NO_FIELD = 13,
    /* in writing and in a journal, there are more or fewer cells than the counts ask for under
       the rules */
    SEAMBEACON_OTHER_LENGTH = 14,
    /* the savepoint is not open or, in releasing, not the innermost */
    SEAMBEACON_NOT_OPEN = 15,
    /* 16 savepoints are open already */
    SEAMBEACON_ALL_OPEN = 16,
    /* a field of the journal is misformed, its call would not be accepted there, an open does not
       have the next number or, in replay, an old value differs: the place of the field */
    SEAMBEACON_BAD_ENTRY = 17,
    /* the part of the text that a record names for a group is not exactly as many whole lines as
       the group's count needs */
    SEAMBEACON_BAD_PART = 22
};

/* What is known of a characteristic. */
enum seambeacon_kind {
    SEAMBEACON_VALUE = 0,
    SEAMBEACON_NO_READING = 1,   /* the cell is 9,999,000 or, of a frequency, 999,900 */
    SEAMBEACON_NOT_REPORTED = 2, /* the record has fewer characteristics */
    SEAMBEACON_REFUSED = 3       /* the reply says why */
};

/* The library has replies and kinds as 32 bits. A compiler told to make these enums otherwise
   (-fshort-enums) is refused here. */
typedef char seambeacon_enums_have_32_bits
    [sizeof(enum seambeacon_reply) == 4 && sizeof(enum seambeacon_kind) == 4 ? 1 : -1];

/* The numbers beside a reply. All eight are written at every call, and those that the reply does
   not give are 0. */
struct seambeacon_beside {
    size_t next;      /* place behind the record */
    size_t written;   /* cells or bytes written */
    size_t group;
    size_t line;      /* line in the group */
    size_t element;   /* element in the group */
    size_t position;  /* position in group 3 */
    size_t savepoint; /* the savepoint that was opened */
    size_t place;     /* place of a field in the journal */
};

/* A part of the text: where it starts, as a place, and its length in bytes. */
struct seambeacon_part {
    size_t start;
    size_t length;
};

/* A date (R367), with the time of day, by the seven numbers of group 3. */
struct seambeacon_date {
    size_t year;        /* 0 to 9999 */
    size_t day_of_year; /* 1 to 366 */
    size_t month;       /* 1 to 12 */
    size_t day;         /* 1 to 31 */
    size_t hour;        /* 0 to 23 */
    size_t minute;      /* 0 to 59 */
    size_t second;      /* 0 to 59 */
};

/* A record (R366), as placing gives it. Placing's answer is reply, with beside; the questions with
   a record look at the other members alone. A record may come from any text and any rules, or be
   made up. Beside a text it is a view of that text: counts has its counts, and the questions with
   a record give a group's cells, a group's lines and a characteristic, without placing it anew. */
struct seambeacon_record {
    uint16_t counts[80]; /* group g's count is counts[g - 1] */
    size_t starts[60];   /* the place where group g's lines begin is starts[g - 1] */
    size_t ends[60];     /* and the place behind them ends[g - 1] */
    enum seambeacon_reply reply;
    struct seambeacon_beside beside;
};

/* The library's own functions behind the four that take a record: for callers who can't use the
   struct, with its members lent one by one. What they are asked and answer is said below, at the
   functions without _apart. */
enum seambeacon_reply seambeacon_place_apart(uint32_t rules, const uint8_t *text,
                                             size_t text_length, size_t at, uint16_t counts[80],
                                             size_t starts[60], size_t ends[60],
                                             struct seambeacon_beside *beside);
enum seambeacon_reply seambeacon_record_group_apart(uint32_t rules, const uint8_t *text,
                                                    size_t text_length, const uint16_t counts[80],
                                                    const size_t starts[60], const size_t ends[60],
                                                    size_t group, int64_t *table,
                                                    size_t table_length,
                                                    struct seambeacon_beside *beside);
enum seambeacon_reply seambeacon_record_lines_apart(uint32_t rules, const uint8_t *text,
                                                    size_t text_length, const uint16_t counts[80],
                                                    const size_t starts[60], const size_t ends[60],
                                                    size_t group, struct seambeacon_part *part,
                                                    struct seambeacon_beside *beside);
enum seambeacon_reply seambeacon_record_characteristic_apart(
    uint32_t rules, const uint8_t *text, size_t text_length, const uint16_t counts[80],
    const size_t starts[60], const size_t ends[60], size_t number, enum seambeacon_kind *kind,
    int64_t *value, struct seambeacon_beside *beside);

/* Asked: which record stands at a place of a text.
   Answered: 0 or 7 with the next place, from which a walk goes on; the record has its 80 counts,
   and where the lines of each of its 60 groups begin and end, as places in the text. With count 0
   both are the place where the lines would be. The reply and the numbers beside it stand in the
   record too.
   Another refusal (1 to 6) leaves zeros in counts, starts and ends. When bytes are added at the
   text's end, 1, 2 and 3 may become other replies; no other answer about this place does (R256,
   R258). */
static inline enum seambeacon_reply seambeacon_place(uint32_t rules, const uint8_t *text,
                                                     size_t text_length, size_t at,
                                                     struct seambeacon_record *record)
{
    record->reply = seambeacon_place_apart(rules, text, text_length, at, record->counts,
                                           record->starts, record->ends, &record->beside);
    return record->reply;
}

/* Asked: the cells of a group, 1 to 60, of the record at a place.
   Answered: 0 with the number of cells, which stand in the table from its first cell on; what
   stands behind them is kept. I fields are whole numbers, F fields thousandths, A fields a cell
   for each byte; an E field has two cells, its digits and its exponent. No group has more than
   1,998 cells but, under SEAMBEACON_ENTRIES, group 40, which has up to 11,978.
   A refusal (12, a placing reply but 0, 11, 8, 9, 10, in this order) leaves the whole table as it
   was; of 7 it gives the group, without a next place. */
enum seambeacon_reply seambeacon_read_group(uint32_t rules, const uint8_t *text,
                                            size_t text_length, size_t at, size_t group,
                                            int64_t *table, size_t table_length,
                                            struct seambeacon_beside *beside);

/* Asked: the cells of all groups of the record at a place, in one call.
   Answered: 0 with the number of cells. Those of group 1 stand in the table from its first cell
   on, behind them those of group 2, and so on up to group 60, each as seambeacon_read_group gives
   them: so they can be lent to seambeacon_write_record and to the journal. What stands behind them
   is kept. *unread is 0. No record has more than 64,323 cells or, under SEAMBEACON_ENTRIES, 74,303.
   A refusal (a placing reply but 0; 11, which the counts decide before any line is looked at; the
   first reply but 0 of reading groups 1 to 60; in this order) leaves the whole table as it was
   (R276). *unread is the group that could not be read, to which the numbers beside 8, 9 and 10
   belong, or 0 where none was tried: 6 and 7 have a group of their own beside them, 7 without a
   next place. */
enum seambeacon_reply seambeacon_read_record(uint32_t rules, const uint8_t *text,
                                             size_t text_length, size_t at, int64_t *table,
                                             size_t table_length, size_t *unread,
                                             struct seambeacon_beside *beside);

/* Asked: the lines of a group of the record at a place, with their line ends.
   Answered: 0, and which part of the text holds them: part->length bytes from text + part->start
   on. With count 0 the part is empty, and lies where the lines would be (R282).
   A refusal (12, or a placing reply but 0, of 7 without a next place) gives the empty part at
   place 0 (R283). */
enum seambeacon_reply seambeacon_group_lines(uint32_t rules, const uint8_t *text,
                                             size_t text_length, size_t at, size_t group,
                                             struct seambeacon_part *part,
                                             struct seambeacon_beside *beside);

/* Asked: a characteristic, 1 to 49, of the record at a place.
   Answered: under reply 0 its kind, and in *value its value in thousandths, 0 for the other
   kinds. Frequencies are 1, 2, 4 to 10, 22, 23, 25, 27 to 31, 35, 36, 44, 46 and 48 (R295).
   A refusal (12, or the reply of reading group 4) has the kind SEAMBEACON_REFUSED. */
enum seambeacon_reply seambeacon_characteristic(uint32_t rules, const uint8_t *text,
                                                size_t text_length, size_t at, size_t number,
                                                enum seambeacon_kind *kind, int64_t *value,
                                                struct seambeacon_beside *beside);

/* Asked: the first record of a text, in the order in which they stand in it, that is not earlier
   than a date and time. All seven numbers of that count: day of the year, month and day have to
   name the same day, and the time is compared to the second (R331, R332).
   Answered: 0; *place is the record's place, and *passed is how many records stand before it.
   A record has a date if it is placed with 0 and its group 3 is read with 0; all others are passed
   (R333). Records need not stand in the order of their dates. The walk ends at the record that is
   found; what stands behind it has no part in the answer (R336).
   A refusal has *place 0: 10 for a given date that is wrong, before the text is looked at, with
   *passed 0; where there is no such record, what the walk stopped with (1 at the text's end, or 3
   to 6), with all its records in *passed. */
enum seambeacon_reply seambeacon_first_from(uint32_t rules, const uint8_t *text,
                                            size_t text_length,
                                            const struct seambeacon_date *from, size_t *place,
                                            size_t *passed, struct seambeacon_beside *beside);

/* Asked: where the stretch ends that begins at a place of a text. There a walk may go on that has
   stopped at the place with one of 3 to 6 (R350); but any place may be asked about.
   Answered: 0; the next place is the first later one, just behind a line feed, at which a record is
   placed with 0 and its groups 1, 3 and 4 are read so (R351); if there is none, the text's length.
   What looks like a record inside a ruined one is taken for one.
   A refusal: 2 if the place lies behind the text's end, 1 if it is there. */
enum seambeacon_reply seambeacon_stretch_end(uint32_t rules, const uint8_t *text,
                                             size_t text_length, size_t at,
                                             struct seambeacon_beside *beside);

/* The questions with a record, which are asked beside a text. Counts are those of the record, and
   nothing else of it is looked at but the start and the end of the group that is asked for, or of
   group 4 for a characteristic. A record that placing gave (0 or 7) in this very text, by these
   rules, is answered as its place is, and never with 22 (R288). Of any other a part is taken only
   if it is as many whole lines (R286): no byte of it is beyond the text, it begins at place 0 or
   next behind a line feed, and it has the line feeds that the count needs, one of them as its last
   byte; for count 0 it is empty, where a line may begin. Else it is refused with 22. A placing
   that was refused by 1 to 6 leaves a record whose counts are zeros, and so it is answered 5. */

/* Asked: the cells of a group, 1 to 60, of a record.
   Answered: as by seambeacon_read_group: 0 with the number of cells, which stand in the table from
   its first cell on; what stands behind them is kept.
   A refusal (12; 4, 5, 6 and 7 by the record's counts; 22, 11, 8, 9, 10, in this order) leaves the
   whole table as it was. */
static inline enum seambeacon_reply seambeacon_record_group(uint32_t rules, const uint8_t *text,
                                                            size_t text_length,
                                                            const struct seambeacon_record *record,
                                                            size_t group, int64_t *table,
                                                            size_t table_length,
                                                            struct seambeacon_beside *beside)
{
    return seambeacon_record_group_apart(rules, text, text_length, record->counts, record->starts,
                                         record->ends, group, table, table_length, beside);
}

/* Asked: the lines of a group, 1 to 60, of a record, with their line ends.
   Answered: 0, and which part of the text holds them, as the record has it: part->length bytes
   from text + part->start on.
   A refusal (12; 4, 5, 6 and 7 by the record's counts; 22, in this order) gives the empty part at
   place 0. */
static inline enum seambeacon_reply seambeacon_record_lines(uint32_t rules, const uint8_t *text,
                                                            size_t text_length,
                                                            const struct seambeacon_record *record,
                                                            size_t group,
                                                            struct seambeacon_part *part,
                                                            struct seambeacon_beside *beside)
{
    return seambeacon_record_lines_apart(rules, text, text_length, record->counts, record->starts,
                                         record->ends, group, part, beside);
}

/* Asked: a characteristic, 1 to 49, of a record.
   Answered: as by seambeacon_characteristic: under reply 0 its kind, and in *value its value in
   thousandths, 0 for the other kinds.
   A refusal (12, or the reply of seambeacon_record_group for group 4, 22 among them) has the kind
   SEAMBEACON_REFUSED. */
static inline enum seambeacon_reply seambeacon_record_characteristic(
    uint32_t rules, const uint8_t *text, size_t text_length,
    const struct seambeacon_record *record, size_t number, enum seambeacon_kind *kind,
    int64_t *value, struct seambeacon_beside *beside)
{
    return seambeacon_record_characteristic_apart(rules, text, text_length, record->counts,
                                                  record->starts, record->ends, number, kind,
                                                  value, beside);
}

/* Asked: to write a record of these counts, which are 80, and of all its cells in group order:
   under SEAMBEACON_ENTRIES those of group 40 are 2 (6 (n - 1) + 1) for its count n above 0.
   Answered: 0 with the number of bytes of its canonical text, which stand in out from its first
   byte on; what stands behind them is kept. Its lines end with carriage return and line feed, with
   SEAMBEACON_STRICT and without.
   A refusal (4, 5, 6, 7, 14, 13, 10, 11, in this order) leaves the whole output as it was. */
enum seambeacon_reply seambeacon_write_record(uint32_t rules, const uint16_t *counts,
                                              size_t counts_length, const int64_t *cells,
                                              size_t cells_length, uint8_t *out,
                                              size_t out_length,
                                              struct seambeacon_beside *beside);

/* Asked: the listing of a text: a line of seven numbers for each record of the walk (R342), and
   last a line with `end` and four numbers, which tell how many records there are and where and
   why the walk stopped (R343).
   Answered: 0 with the number of bytes, which stand in out from its first byte on; what stands
   behind them is kept. A text of any length is listed.
   A refusal (11) leaves the whole output as it was. */
enum seambeacon_reply seambeacon_list(uint32_t rules, const uint8_t *text, size_t text_length,
                                      uint8_t *out, size_t out_length,
                                      struct seambeacon_beside *beside);

/* Asked: to rewrite the record at a place as canonical text. The table is room for the record's
   cells; as many cells as the output has bytes are always enough.
   Answered: 0 with the number of bytes and the next place. The bytes stand in out from its first
   byte on, the record's cells in group order in the table from its first cell on; what stands
   behind them is kept. *unread is 0.
   A refusal (a placing reply but 0, 11, or the first reply but 0 of reading groups 1 to 60)
   leaves the whole output and the whole table as they were. *unread is the group that could not
   be read, or 0 where none was tried, as in seambeacon_read_record. */
enum seambeacon_reply seambeacon_rewrite_record(uint32_t rules, const uint8_t *text,
                                                size_t text_length, size_t at, int64_t *table,
                                                size_t table_length, uint8_t *out,
                                                size_t out_length, size_t *unread,
                                                struct seambeacon_beside *beside);

/* The journal of edits. A caller holds a record's counts, which are 80, all its cells in group
   order, and a journal: a buffer of which *used bytes are used, 0 when it is fresh. Each accepted
   call adds one field to it, 22 bytes for a set and 4 for the others; *used is then the bytes used
   afterwards. Bytes of the buffer behind the used ones are kept.
   The rules are those by which the cells were read. Cells that were read with SEAMBEACON_ENTRIES
   and are lent without it, or the other way round, are refused with 14 where group 40 has a count
   above 1; SEAMBEACON_STRICT makes no difference here.
   A refusal (4, 5, 6, 7, 14, 17, 12, 15, 16, 11, in this order, of those that a function can have)
   leaves all cells, the whole journal and *used as they were. The used bytes are looked at first,
   field by field, so any of these functions may find 17; if *used is more than the buffer has, and
   all fields are right, the place beside 17 is the buffer's length. */

/* Asked: to set a cell of a group. Every value can be set; whether it has a field, writing says.
   Answered: 0; the cell has the value, and the journal a field with the old value and the new.
   A refusal is 4, 5, 6, 7, 14, 17, 12 or 11. */
enum seambeacon_reply seambeacon_set_cell(uint32_t rules, const uint16_t *counts,
                                          size_t counts_length, int64_t *cells,
                                          size_t cells_length, uint8_t *journal,
                                          size_t journal_length, size_t *used, size_t group,
                                          size_t cell, int64_t value,
                                          struct seambeacon_beside *beside);

/* Asked: to open a savepoint inside those that are open.
   Answered: 0 with its number, 1 to 16: one more than were open.
   A refusal is 4, 5, 6, 7, 14, 17, 16 or 11. */
enum seambeacon_reply seambeacon_open_savepoint(uint32_t rules, const uint16_t *counts,
                                                size_t counts_length, const int64_t *cells,
                                                size_t cells_length, uint8_t *journal,
                                                size_t journal_length, size_t *used,
                                                struct seambeacon_beside *beside);

/* Asked: to release the innermost savepoint, named by its number.
   Answered: 0; it is closed, and what was set since it was opened belongs to the one outside.
   A refusal is 4, 5, 6, 7, 14, 17, 15 or 11. */
enum seambeacon_reply seambeacon_release_savepoint(uint32_t rules, const uint16_t *counts,
                                                   size_t counts_length, const int64_t *cells,
                                                   size_t cells_length, uint8_t *journal,
                                                   size_t journal_length, size_t *used,
                                                   size_t savepoint,
                                                   struct seambeacon_beside *beside);

/* Asked: to undo all that was set since a savepoint, any that is open, was opened.
   Answered: 0; every cell is what it was then, the savepoint stays open, and those inside it are
   closed.
   A refusal is 4, 5, 6, 7, 14, 17, 15 or 11. */
enum seambeacon_reply seambeacon_undo_to_savepoint(uint32_t rules, const uint16_t *counts,
                                                   size_t counts_length, int64_t *cells,
                                                   size_t cells_length, uint8_t *journal,
                                                   size_t journal_length, size_t *used,
                                                   size_t savepoint,
                                                   struct seambeacon_beside *beside);

/* Asked: to make the calls of a journal again, over the cells that they began with.
   Answered: 0; the cells are what the calls made of them, and *open is how many savepoints are
   open. Calls can then go on with this journal.
   A refusal (4, 5, 6, 7, 14, 17, in this order) leaves all cells as they were, and *open is 0. If
   the journal's last field was cut short, 17 has its place, and so many bytes of it can be
   replayed. */
enum seambeacon_reply seambeacon_replay(uint32_t rules, const uint16_t *counts,
                                        size_t counts_length, int64_t *cells, size_t cells_length,
                                        const uint8_t *journal, size_t journal_length, size_t used,
                                        size_t *open, struct seambeacon_beside *beside);

#ifdef __cplusplus
}
#endif

#endif
