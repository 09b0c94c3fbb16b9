#include "parts.h"
#include "questions.h"
#include "words.h"

static const struct seambeacon_beside none;
static struct file text, origin; /* the text that is asked about, and the one that a record was placed in */
static struct seambeacon_record record;

/* The next question is asked with this record, of which nothing may be altered. */
static void fresh_record(void)
{
    fresh();
    memcpy(&lent.record, &record, sizeof record);
    memcpy(&due.record, &record, sizeof record);
}

static const uint8_t *text_lent(void)
{
    return text.length > 0 ? text.bytes : NULL;
}

/* ---- The questions of a file: their rules, text and record. */

static const char *texts_of;
static struct {
    int made;
    size_t start, end; /* of the group that is asked for */
} named;

static void place_record(void)
{
    size_t at;
    text_named(&origin, texts_of);
    at = size();
    seambeacon_place(rules_named(0), origin.bytes, origin.length, at, &record);
}

/* What is not looked at is nothing that placing gives. How many counts it is said to have. */
static size_t make_record(void)
{
    size_t rest, many, filled;
    memset(&record, 0xA5, sizeof record);
    memset(record.counts, 0, sizeof record.counts);
    named.start = size();
    named.end = size();
    rest = size();
    for (size_t i = 0; i < 60; i++)
        record.starts[i] = record.ends[i] = rest;
    many = size();
    for (filled = size(); filled > 0; filled--) {
        size_t group = size(), count = size();
        if (group >= 1 && group <= 80)
            record.counts[group - 1] = (uint16_t)count;
    }
    return many;
}

/* The record; whether it has 80 counts. */
static int record_told(void)
{
    named.made = word_is("made");
    if (named.made)
        return make_record() == 80;
    need("a record is placed or made", word_is("placed"));
    place_record();
    return 1;
}

static void name_part(size_t group)
{
    if (!named.made || group < 1 || group > 60)
        return;
    record.starts[group - 1] = named.start;
    record.ends[group - 1] = named.end;
}

/* ---- Their answers. */

/* Of the numbers beside the reply none is given but the two that are printed, and nothing is altered that is not due. */
static void check_reply(const char *question, enum seambeacon_reply reply)
{
    size_t *first = first_beside(&lent.beside, reply);
    due.beside = none;
    due.beside.element = lent.beside.element;
    if (first != NULL)
        *first_beside(&due.beside, reply) = *first;
    answered(question, reply, reply);
}

static void print_reply(enum seambeacon_reply reply)
{
    size_t *first = first_beside(&lent.beside, reply);
    printf("%u %lu %lu", (unsigned)reply, (unsigned long)(first != NULL ? *first : 0), (unsigned long)lent.beside.element);
}

static void answer_read(void)
{
    size_t group = size(), room = size();
    int64_t *table = lend_cells(room);
    enum seambeacon_reply reply;
    name_part(group);
    fresh_record();
    reply = seambeacon_record_group(rules, text_lent(), text.length, &lent.record, group, room > 0 ? table : NULL, room, &lent.beside);
    check_reply("record_group", reply);
    cells_due("record_group: the rest of the table", table, lent.beside.written);
    print_reply(reply);
    for (size_t i = 0; i < lent.beside.written && i < room; i++)
        printf(" %ld", (long)table[i]);
}

static void answer_lines(void)
{
    enum seambeacon_reply reply;
    size_t group = size();
    name_part(group);
    fresh_record();
    reply = seambeacon_record_lines(rules, text_lent(), text.length, &lent.record, group, &lent.part, &lent.beside);
    due.part = lent.part;
    check_reply("record_lines", reply);
    print_reply(reply);
    printf(" %lu %lu", (unsigned long)lent.part.start, (unsigned long)(lent.part.start + lent.part.length));
}

static void answer_characteristic(void)
{
    enum seambeacon_reply reply;
    size_t number = size();
    name_part(4);
    fresh_record();
    reply = seambeacon_record_characteristic(rules, text_lent(), text.length, &lent.record, number, &lent.kind, &lent.value, &lent.beside);
    due.kind = lent.kind;
    due.value = lent.value;
    check_reply("record_characteristic", reply);
    printf("%u %ld ", (unsigned)lent.kind, (long)lent.value);
    print_reply(reply);
}

static void answer_counts(void)
{
    size_t many = 0;
    for (size_t i = 0; i < 80; i++)
        many += record.counts[i] != 0;
    printf("%lu", (unsigned long)many);
    for (size_t i = 0; i < 80; i++)
        if (record.counts[i] != 0)
            printf(" %lu %lu", (unsigned long)i + 1, (unsigned long)record.counts[i]);
}

static const struct {
    const char *word;
    void (*answer)(void);
} questions[] = {{"read", answer_read}, {"lines", answer_lines}, {"char", answer_characteristic}, {"counts", answer_counts}};

static void answer_question(size_t line)
{
    size_t which = 0, many = sizeof questions / sizeof questions[0];
    while (which < many && !word_is(questions[which].word))
        which++;
    need("a question of the format", which < many);
    under(rules_named(line));
    text_named(&text, texts_of);
    if (!record_told()) {
        printf("left out");
    } else if (which < many) {
        questions[which].answer();
        need("an answer behind the question", word_is("="));
    }
    printf("\n");
    skip_line();
}

void answer_questions(const char *folder, const char *file)
{
    texts_of = folder;
    of_case(file, 0);
    read_words(file);
    for (size_t line = 1; more(); line++) {
        of_case(file, line);
        answer_question(line);
    }
}

/* ---- As by place. */

enum { MOST_CELLS = 12000 };

static void check_read(size_t at, size_t group, size_t room)
{
    static int64_t cells[MOST_CELLS];
    int64_t *table = lend_cells(room);
    enum seambeacon_reply reply;
    fresh_record();
    reply = seambeacon_read_group(rules, text.bytes, text.length, at, group, cells, room, &due.beside);
    answered("record_group", seambeacon_record_group(rules, text.bytes, text.length, &lent.record, group, table, room, &lent.beside), reply);
    cells_due("record_group: the table", cells, due.beside.written);
    need("no 22", reply != SEAMBEACON_BAD_PART);
}

static void check_lines(size_t at, size_t group)
{
    enum seambeacon_reply reply;
    fresh_record();
    reply = seambeacon_group_lines(rules, text.bytes, text.length, at, group, &due.part, &due.beside);
    answered("record_lines", seambeacon_record_lines(rules, text.bytes, text.length, &lent.record, group, &lent.part, &lent.beside), reply);
    need("no 22", reply != SEAMBEACON_BAD_PART);
}

static void check_known(size_t at, size_t number)
{
    enum seambeacon_reply reply;
    fresh_record();
    reply = seambeacon_characteristic(rules, text.bytes, text.length, at, number, &due.kind, &due.value, &due.beside);
    answered("record_characteristic",
             seambeacon_record_characteristic(rules, text.bytes, text.length, &lent.record, number, &lent.kind, &lent.value, &lent.beside),
             reply);
    need("no 22", reply != SEAMBEACON_BAD_PART);
}

/* Every group, into a table that has room for it (R13) and into none, and every characteristic. */
static void check_record(size_t at)
{
    for (size_t group = 1; group <= 60; group++) {
        check_read(at, group, group == 40 ? MOST_CELLS : 2000);
        check_read(at, group, 0);
        check_lines(at, group);
    }
    for (size_t number = 1; number <= 49; number++)
        check_known(at, number);
}

size_t check_placed(const char *name)
{
    size_t records = 0;
    of_case(name, 0);
    read_file(&text, name);
    for (size_t which = 0; which < RULES; which++) {
        size_t at = 0;
        under(flags[which][0]);
        for (;; at = record.beside.next) {
            enum seambeacon_reply reply = seambeacon_place(rules, text.bytes, text.length, at, &record);
            if (reply != SEAMBEACON_DONE && reply != SEAMBEACON_BROKEN_RULE)
                break;
            of_case(name, at);
            check_record(at);
            records++;
        }
    }
    return records;
}
