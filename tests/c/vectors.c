#include "forms.h"
#include "questions.h"
#include "vectors.h"
#include "words.h"

enum { MOST = 70000, MOST_COUNTS = 100 };

static const struct seambeacon_beside none;
static struct file text;
static int64_t cells[MOST];
static uint16_t counts[MOST_COUNTS];
static uint8_t bytes[MOST];

/* ---- Write questions. */

static void check_write(uint32_t asked)
{
    size_t room = size(), many = counts_given(counts, MOST_COUNTS), cell_count = numbers(cells, MOST), reply = size(), written;
    struct seambeacon_beside beside = beside_told(reply);
    written = hexadecimal(bytes, MOST);
    need("as many bytes as the reply says", written == beside.written);
    for (size_t i = 0; i < ALIKE; i++) {
        under(alike(asked, counts, i));
        ask_write(counts, many, cells, cell_count, room, reply, beside, bytes);
        if (reply == 0)
            ask_write_all(counts, cells, cell_count, bytes, written);
    }
}

void check_writes(const char *file, uint32_t told)
{
    of_case(file, 0);
    read_words(file);
    for (size_t line = 1; more(); line++) {
        of_case(file, line);
        check_write(rules_told(told));
    }
}

/* ---- Listing and rewriting. */

static void check_list(const char *file)
{
    read_file(&expected, file);
    ask_list_all(text.bytes, text.length, expected.bytes, expected.length);
}

/* R346: record after record, up to the first that is refused or has no room in 8,192 bytes. */
static void check_rewrite(const char *file)
{
    enum { ROOM = 8192 };
    size_t at = 0, behind = 0;
    read_file(&expected, file);
    for (;;) {
        uint8_t *out = lend_bytes(ROOM);
        int64_t *table = lend_cells(ROOM);
        fresh();
        if (seambeacon_rewrite_record(rules, text.bytes, text.length, at, table, ROOM, out, ROOM, &lent.unread, &lent.beside) != 0)
            break;
        check("no more is rewritten than is due", lent.beside.written <= expected.length - behind);
        if (lent.beside.written > expected.length - behind)
            return;
        bytes_due("rewrite_record: the output", expected.bytes + behind, lent.beside.written);
        check("the next place lies behind", lent.beside.next > at);
        behind += lent.beside.written;
        at = lent.beside.next;
    }
    bytes_due("rewrite_record: the output of a refusal", NULL, 0);
    cells_due("rewrite_record: the table of a refusal", NULL, 0);
    check("all is rewritten that is due", behind == expected.length);
}

/* ---- Every answer about every placed record. */

/* R272, R274, R275: what the rows of a record's groups say of the whole record. */
static struct {
    size_t reply, group, count;
    struct seambeacon_beside beside;
    int64_t cells[MOST];
} whole;

static void join(size_t group, size_t reply, struct seambeacon_beside beside)
{
    if (group == 1)
        whole.reply = whole.count = 0;
    if (whole.reply != 0)
        return;
    need("so many cells", whole.count + beside.written <= MOST);
    if (reply == 0 && whole.count + beside.written <= MOST)
        memcpy(whole.cells + whole.count, cells, beside.written * sizeof *cells);
    whole.count += beside.written;
    whole.reply = reply;
    whole.group = reply >= 8 ? group : 0;
    whole.beside = beside;
    whole.beside.written = reply == 0 ? whole.count : 0;
}

static void check_whole(size_t at)
{
    size_t room = 0;
    for (size_t group = 1; group <= 60; group++)
        room += cells_of(group, counts[group - 1]);
    if (whole.reply == 0)
        ask_whole_all(text.bytes, text.length, at, whole.cells, whole.count);
    else
        ask_whole(text.bytes, text.length, at, room, whole.reply, whole.beside, whole.group, NULL);
    if (whole.reply >= 8)
        ask_whole(text.bytes, text.length, at, room - 1, 11, none, 0, NULL);
}

static void check_group(size_t at)
{
    size_t group = size(), reply = size(), given = 0, count = 0;
    struct seambeacon_beside beside = beside_told(reply);
    struct seambeacon_part part;
    part.start = size();
    part.length = size() - part.start;
    while (line_goes_on())
        cells[count++] = number();
    need("as many cells as the reply says", count == beside.written);
    given = reply == 0 || (reply >= 8 && reply <= 10);
    ask_lines(text.bytes, text.length, at, group, given ? 0 : reply, given ? none : beside, part);
    if (reply == 0)
        ask_read_all(text.bytes, text.length, at, group, cells, count);
    else
        ask_read(text.bytes, text.length, at, group, group == 40 ? 12000 : 2000, reply, beside, NULL); /* room for its cells (R13) */
    join(group, reply, beside);
    if (group == 60)
        check_whole(at);
}

static void check_characteristic(size_t at)
{
    size_t characteristic = size(), reply;
    enum seambeacon_kind kind = (enum seambeacon_kind)number();
    int64_t value = number();
    struct seambeacon_beside beside;
    reply = size();
    beside = beside_told(reply);
    ask_characteristic(text.bytes, text.length, at, characteristic, reply, beside, kind, value);
}

/* A place with its reply, next place and group, and for a placed record its counts: the place. */
static size_t check_place(int placed)
{
    struct seambeacon_beside beside = none;
    size_t at = size(), reply = size();
    beside.next = size();
    beside.group = size();
    memset(counts, 0, sizeof counts);
    for (size_t i = 0; placed && i < 80; i++)
        counts[i] = (uint16_t)number();
    ask_place(text.bytes, text.length, at, reply, beside, counts);
    return at;
}

static void check_dump(const char *file)
{
    size_t at = 0;
    read_words(file);
    for (size_t line = 1; more(); line++) {
        of_case(file, line);
        if (word_is("record"))
            at = check_place(1);
        else if (word_is("group"))
            check_group(at);
        else if (word_is("char"))
            check_characteristic(at);
        else if (word_is("stop"))
            check_place(0);
        else {
            need("a line of the format", 0);
            return;
        }
    }
}

void check_text(const char *name, const char *list, const char *rewrite, const char *dump)
{
    of_case(name, 0);
    read_file(&text, name);
    if (strcmp(list, "-") != 0)
        check_list(list);
    if (strcmp(rewrite, "-") != 0)
        check_rewrite(rewrite);
    if (strcmp(dump, "-") != 0)
        check_dump(dump);
}
