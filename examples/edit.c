/* edit DAY RECORD JOURNAL: edits a record of a day by commands on standard input, a line each.

     set G C VALUE    gives cell C of group G the value
     open             opens a savepoint
     release N        closes savepoint N, the innermost, and keeps what was set since
     undo N           brings every cell to what it was when savepoint N was opened
     show G           prints the cells of group G
     save             writes the record into the day, and empties the journal

   What is accepted is on disk, in the journal, before it is said to be done. So a run that was killed is gone on with by the same command: the
   journal is replayed. A field that was cut short is the end of a call that was never said to be done, and is removed; where a save was killed
   before it had emptied the journal, that is done; with any other fault in the journal no file is altered.

   It ends with 0 at the end of its input; with 1 if the last save was refused, or if it had to end before; with 2 if it was started wrongly.

   One editor at a time has a journal. Several may edit records of one day, each with a journal of its own; one at a time saves. A journal doesn't
   say to which record it belongs, so what is replayed may be another one's, whose cells are alike: number and date of the record are told, and
   the journal's bytes are kept in a new file when they are saved.

   Each command looks at all of the journal, which is why it has a limit. A replay, and each undo, goes once more over every stretch that was
   undone before: a journal of undos alone takes time in the square of its length. A save empties it. */
#define _XOPEN_SOURCE 700
#include <stdio.h>
#include <stdlib.h>
#include <string.h>
#include <unistd.h>
#include "files.h"
#include "seambeacon.h"

enum { COUNTS = 80, GROUPS = 60, MOST_LINE = 200 };

/* No record that the rules on counts let pass has more cells, read by the usual rules as all is here: a count is at most 999, and is the number of
   its group's elements in group 40 too. Of the sixty groups 48 have one cell an element, and eight (37 to 40, 42, 53, 57 and 60) have two; group 2
   has at most two elements, of 120 cells each, and groups 4, 54 and 55 at most 49. */
enum { MOST_CELLS = 48 * 999 + 8 * 2 * 999 + 2 * 120 + 3 * 49 };

/* Nor a longer text: two index lines of 122 bytes, and for each cell at most ten bytes of its field and the two of a line's end. */
enum { MOST_TEXT = 2 * 122 + 12 * MOST_CELLS };

/* Of the journal's bytes set and open leave some, so that undo, and set where a save has found a wrong value, have room in a full journal. */
enum { SET_BYTES = 22, MOST_EDITS = 1 << 20, MOST_JOURNAL = MOST_EDITS + (1 << 16) };

static struct {
    const char *name;
    char *path; /* behind all symbolic links */
    uint8_t *text;
    size_t length, at, next; /* the record stands from at to next */
} day;

static struct {
    size_t number;
    struct seambeacon_record placed; /* in the day as it was loaded */
    int64_t cells[MOST_CELLS];
    size_t starts[GROUPS + 1]; /* group g has the cells from starts[g - 1] to starts[g] */
    char date[20];             /* as it stands in the day */
} record;

static struct {
    const char *name;
    char *path; /* behind all symbolic links */
    FILE *file;
    uint8_t bytes[MOST_JOURNAL];
    size_t used;
    int replayed;     /* its first bytes were not made by this run */
    int save_refused; /* the last save was */
} journal;

/* ---- Replies in words. */

static const char *const meanings[] = {
    "done",
    "the text ends there",
    "the place lies behind the text's end",
    "the text has fewer lines than the record",
    "the index is misformed",
    "the release is not that of SAO 4.3",
    "a group without a form has a count",
    "the counts break a rule",
    "a line has a wrong length or line end",
    "a field is misformed",
    "the date is wrong",
    "there is no room left",
    "there is no such group or cell",
    "the cells fit no field",
    "there are more or fewer cells than the counts ask for",
    "that savepoint is not open or, to be released, not the innermost",
    "16 savepoints are open already",
    "a field of the journal is wrong",
};

static void tell_number(FILE *to, const char *name, size_t number)
{
    if (number > 0)
        fprintf(to, ", %s %zu", name, number);
}

static void tell(FILE *to, enum seambeacon_reply reply, const struct seambeacon_beside *beside)
{
    size_t known = sizeof meanings / sizeof meanings[0];
    fprintf(to, "%s (reply %d", (size_t)reply < known ? meanings[reply] : "an answer that the library does not give", (int)reply);
    tell_number(to, "group", beside->group);
    tell_number(to, "line", beside->line);
    tell_number(to, "element", beside->element);
    tell_number(to, "position", beside->position);
    if (reply == SEAMBEACON_BAD_ENTRY)
        fprintf(to, ", place %zu", beside->place);
    fprintf(to, ")");
}

/* What a refused command leaves to be done. */
static const char *way_out(enum seambeacon_reply reply)
{
    switch (reply) {
    case SEAMBEACON_NO_ROOM:
        return "; the journal is full: save empties it, and undo and release have room";
    case SEAMBEACON_NO_FIELD:
    case SEAMBEACON_BAD_DATE:
        return "; the journal has all edits: set that anew or undo, and save again";
    default:
        return "";
    }
}

static int refused(enum seambeacon_reply reply, const struct seambeacon_beside *beside)
{
    if (reply == SEAMBEACON_DONE)
        return 0;
    printf("refused: ");
    tell(stdout, reply, beside);
    printf("%s\n", way_out(reply));
    return 1;
}

/* ---- The day. */

static int load_day(const char *name)
{
    FILE *file;
    int loaded;
    day.name = name;
    day.path = resolved(name);
    if (day.path == NULL)
        return 0;
    file = fopen(day.path, "rb");
    if (file == NULL)
        return failed(name);
    loaded = read_all(file, name, &day.text, &day.length);
    fclose(file);
    return loaded;
}

static int is_as_loaded(FILE *file)
{
    uint8_t *text;
    size_t length;
    int same = read_all(file, day.name, &text, &length) && length == day.length && memcmp(text, day.text, length) == 0;
    free(text);
    return same;
}

/* ---- The record. */

static int find_record(size_t number)
{
    const struct seambeacon_beside *beside = &record.placed.beside;
    enum seambeacon_reply reply;
    for (size_t i = 1;; i++) {
        reply = seambeacon_place(SEAMBEACON_USUAL, day.text, day.length, day.at, &record.placed);
        if (i == number || (reply != SEAMBEACON_DONE && reply != SEAMBEACON_BROKEN_RULE))
            break;
        day.at = beside->next;
    }
    record.number = number;
    day.next = beside->next;
    if (reply == SEAMBEACON_DONE)
        return 1;
    fprintf(stderr, reply == SEAMBEACON_BROKEN_RULE ? "edit: record %zu cannot be read: " : "edit: there is no record %zu: ", number);
    tell(stderr, reply, beside);
    fprintf(stderr, "\n");
    return 0;
}

/* As 2004-02-29 01:00:00; each letter below has the number in the alphabet that its digit has among the positions of group 3. */
static void load_date(void)
{
    static const char form[] = "cdef-jk-lm no:pq:rs";
    const int64_t *cells = record.cells + record.starts[2];
    for (size_t i = 0; i < sizeof form; i++)
        record.date[i] = form[i] < 'a' ? form[i] : (char)cells[form[i] - 'a'];
}

/* Where the cells of each group begin follows from the counts (R46): an element of group 2 has 120 cells, an E field two, every other one. */
static void load_starts(void)
{
    for (size_t group = 1; group <= GROUPS; group++) {
        int pairs = (group >= 37 && group <= 40) || group == 42 || group == 53 || group == 57 || group == 60;
        size_t cells = group == 2 ? 120 : pairs ? 2 : 1;
        record.starts[group] = record.starts[group - 1] + cells * record.placed.counts[group - 1];
    }
}

/* The record was placed with 0 and the table holds any record, so a refusal is a group's. */
static int load_cells(void)
{
    struct seambeacon_beside beside;
    size_t unread;
    enum seambeacon_reply reply =
        seambeacon_read_record(SEAMBEACON_USUAL, day.text, day.length, day.at, record.cells, MOST_CELLS, &unread, &beside);
    if (reply != SEAMBEACON_DONE) {
        fprintf(stderr, "edit: group %zu of record %zu cannot be read: ", unread, record.number);
        tell(stderr, reply, &beside);
        fprintf(stderr, "\n");
        return 0;
    }
    load_starts();
    load_date();
    printf("record %zu has %zu cells\n", record.number, beside.written);
    return 1;
}

/* ---- The journal. */

static int locked_journal(void)
{
    enum lock lock = lock_file(journal.file);
    if (lock == HELD)
        fprintf(stderr, "edit: another editor is at work with %s; nothing was altered\n", journal.name);
    return lock == LOCKED || (lock == NOT_LOCKED && failed(journal.name));
}

static int read_journal(void)
{
    rewind(journal.file);
    journal.used = fread(journal.bytes, 1, MOST_JOURNAL, journal.file);
    if (getc(journal.file) != EOF) {
        fprintf(stderr, "edit: %s has more than %d bytes; nothing was altered\n", journal.name, (int)MOST_JOURNAL);
        return 0;
    }
    return !ferror(journal.file) || failed(journal.name);
}

/* By its name the very file is found that is open, and where its folder was flushed. */
static int is_found(void)
{
    return leads_to(journal.name, journal.file) && leads_to(journal.path, journal.file);
}

static int load_journal(const char *name)
{
    journal.name = name;
    journal.file = fopen(name, "a+b");
    if (journal.file == NULL)
        return failed(name);
    if (leads_to(day.path, journal.file)) {
        fprintf(stderr, "edit: the journal %s is the day itself; nothing was altered\n", name);
        return 0;
    }
    journal.path = resolved(name);
    if (journal.path == NULL || !flushed_folder(journal.path) || !locked_journal())
        return 0;
    if (!is_found()) {
        fprintf(stderr, "edit: %s was removed or replaced while it was being opened; start again\n", name);
        return 0;
    }
    return read_journal();
}

/* Another editor may have saved the day, and let go of the journal, while this one loaded the day. */
static int day_fits_journal(void)
{
    FILE *file = fopen(day.path, "rb");
    int same;
    if (file == NULL)
        return failed(day.name);
    same = is_as_loaded(file);
    fclose(file);
    if (!same)
        fprintf(stderr, "edit: the day was saved by another editor while it was being loaded; start again\n");
    return same;
}

/* The file has the first bytes alone, on disk. */
static int cut_journal(size_t length)
{
    return (ftruncate(fileno(journal.file), (off_t)length) == 0 && flushed(journal.file)) || failed(journal.name);
}

/* The journal's bytes are on disk in a new file beside it, with that name. */
static int copied(char name[MOST_PATH])
{
    if (!written_beside(journal.name, journal.file, journal.bytes, journal.used, name))
        return 0;
    if (flushed_folder(name))
        return 1;
    remove(name);
    return 0;
}

static void tell_not_found(void)
{
    char copy[MOST_PATH];
    int there = copied(copy);
    printf("perhaps not done: %s does not lead where it led at the start, so what was done may not be found again\n", journal.name);
    if (there)
        printf("to go on with all edits since the last save, start again with the journal %s\n", copy);
}

/* The bytes that a call added are on disk, and are found there when the editor is started again. */
static int kept(size_t from)
{
    size_t added = journal.used - from;
    int written = (fwrite(journal.bytes + from, 1, added, journal.file) == added && flushed(journal.file)) || failed(journal.name);
    if (!is_found()) {
        tell_not_found();
        return 0;
    }
    if (!written)
        printf("perhaps not done: the journal could not be written; what was done before is in it, so start again and look\n");
    return written;
}

/* ---- Replay. */

static enum seambeacon_reply replay_over(int64_t *cells, size_t *savepoints, struct seambeacon_beside *beside)
{
    return seambeacon_replay(SEAMBEACON_USUAL, record.placed.counts, COUNTS, cells, record.starts[GROUPS], journal.bytes, MOST_JOURNAL,
                             journal.used, savepoints, beside);
}

/* The bytes of the field at a place, by its tag and length as far as they are there; 0 if none begins so. */
static size_t field_bytes(size_t place)
{
    static const uint8_t heads[][3] = {{1, 0, 19}, {2, 0, 1}, {3, 0, 1}, {4, 0, 1}};
    size_t left = journal.used - place;
    for (size_t i = 0; left > 0 && i < 4; i++)
        if (memcmp(journal.bytes + place, heads[i], left < 3 ? left : 3) == 0)
            return 3u + heads[i][2];
    return 0;
}

/* From the place to the journal's end stands the beginning of a field, and not all of it. */
static int cut_short(size_t place)
{
    return journal.used - place < field_bytes(place);
}

/* The places of the sets, up to the first that is no field, which a replay will find. */
static size_t find_sets(size_t *places)
{
    size_t many = 0, bytes;
    for (size_t at = 0; (bytes = field_bytes(at)) > 0 && bytes <= journal.used - at; at += bytes)
        if (journal.bytes[at] == 1)
            places[many++] = at;
    return many;
}

/* The cell of the set at a place has its old value again. */
static int give_back(int64_t *cells, size_t place)
{
    const uint8_t *field = journal.bytes + place;
    size_t group = field[3], cell = (size_t)field[4] << 8 | field[5];
    uint64_t value = 0;
    if (group < 1 || group > GROUPS || cell < 1 || cell > record.starts[group] - record.starts[group - 1])
        return 0;
    for (size_t i = 6; i < 14; i++)
        value = value << 8 | field[i];
    cells[record.starts[group - 1] + cell - 1] = (int64_t)value;
    return 1;
}

/* A save was cut off before it had emptied the journal. Then the day has what the journal's calls have made: with all old values given back, from
   the last to the first, a replay gives the very cells that the day has. */
static int was_saved(void)
{
    static int64_t cells[MOST_CELLS];
    static size_t sets[MOST_JOURNAL / SET_BYTES];
    struct seambeacon_beside beside;
    size_t savepoints, many = find_sets(sets);
    memcpy(cells, record.cells, sizeof cells);
    while (many > 0)
        if (!give_back(cells, sets[--many]))
            return 0;
    return replay_over(cells, &savepoints, &beside) == SEAMBEACON_DONE && memcmp(cells, record.cells, sizeof cells) == 0;
}

/* The journal's bytes are kept beside it: if RECORD was not the one that was edited, that record may have the same cells by chance. */
static int end_save(void)
{
    char copy[MOST_PATH];
    if (!flushed_folder(day.path)) {
        fprintf(stderr, "edit: the day has the edits of the journal already, but perhaps not yet safe; nothing was altered, so start again\n");
        return 0;
    }
    if (!copied(copy) || !cut_journal(0)) {
        fprintf(stderr, "edit: the day has the edits of the journal already, but the journal could not be emptied: start again, or move it away\n");
        return 0;
    }
    printf("record %zu, of %s, has the edits of the journal already: a save was cut off before it had emptied the journal, which is empty now\n",
           record.number, record.date);
    printf("the edits were those of %s\n", copy);
    journal.used = 0;
    return 1;
}

static int replay(void)
{
    struct seambeacon_beside beside;
    size_t savepoints, whole = journal.used;
    enum seambeacon_reply reply = replay_over(record.cells, &savepoints, &beside);
    if (reply == SEAMBEACON_BAD_ENTRY && cut_short(beside.place)) {
        journal.used = beside.place;
        reply = replay_over(record.cells, &savepoints, &beside);
    }
    if (reply == SEAMBEACON_BAD_ENTRY && was_saved())
        return end_save();
    if (reply != SEAMBEACON_DONE) {
        fprintf(stderr, "edit: the journal cannot be replayed, and nothing was altered: ");
        tell(stderr, reply, &beside);
        fprintf(stderr, "\n");
        return 0;
    }
    if (journal.used < whole) {
        if (!cut_journal(journal.used))
            return 0;
        printf("the field at place %zu of the journal was cut short, and its %zu bytes were removed\n", journal.used, whole - journal.used);
    }
    journal.replayed = journal.used > 0;
    if (journal.replayed)
        printf("replayed %zu bytes of the journal over record %zu, of %s; savepoints open: %zu\n", journal.used, record.number, record.date,
               savepoints);
    return 1;
}

/* ---- Commands: 0 where none can follow. */

/* The library asks that no more bytes are used than there is room for. */
static size_t room(size_t most)
{
    return journal.used < most ? most : journal.used;
}

static int set(size_t group, size_t cell, int64_t value)
{
    struct seambeacon_beside beside;
    size_t from = journal.used;
    if (refused(seambeacon_set_cell(SEAMBEACON_USUAL, record.placed.counts, COUNTS, record.cells, record.starts[GROUPS], journal.bytes,
                                    room(journal.save_refused ? MOST_JOURNAL : MOST_EDITS), &journal.used, group, cell, value, &beside),
                &beside))
        return 1;
    if (!kept(from))
        return 0;
    printf("done: cell %zu of group %zu is %lld\n", cell, group, (long long)value);
    return 1;
}

static int open_savepoint(void)
{
    struct seambeacon_beside beside;
    size_t from = journal.used;
    if (refused(seambeacon_open_savepoint(SEAMBEACON_USUAL, record.placed.counts, COUNTS, record.cells, record.starts[GROUPS], journal.bytes,
                                          room(MOST_EDITS), &journal.used, &beside),
                &beside))
        return 1;
    if (!kept(from))
        return 0;
    printf("done: savepoint %zu is open\n", beside.savepoint);
    return 1;
}

static int release_savepoint(size_t savepoint)
{
    struct seambeacon_beside beside;
    size_t from = journal.used;
    if (refused(seambeacon_release_savepoint(SEAMBEACON_USUAL, record.placed.counts, COUNTS, record.cells, record.starts[GROUPS], journal.bytes,
                                             MOST_JOURNAL, &journal.used, savepoint, &beside),
                &beside))
        return 1;
    if (!kept(from))
        return 0;
    printf("done: savepoint %zu is released\n", savepoint);
    return 1;
}

static int undo(size_t savepoint)
{
    struct seambeacon_beside beside;
    size_t from = journal.used;
    if (refused(seambeacon_undo_to_savepoint(SEAMBEACON_USUAL, record.placed.counts, COUNTS, record.cells, record.starts[GROUPS], journal.bytes,
                                             MOST_JOURNAL, &journal.used, savepoint, &beside),
                &beside))
        return 1;
    if (!kept(from))
        return 0;
    printf("done: all is as it was when savepoint %zu was opened\n", savepoint);
    return 1;
}

static int show(size_t group)
{
    if (group < 1 || group > GROUPS) {
        printf("refused: there is no group %zu\n", group);
        return 1;
    }
    printf("group %zu:", group);
    for (size_t i = record.starts[group - 1]; i < record.starts[group]; i++)
        printf(" %lld", (long long)record.cells[i]);
    printf("\n");
    return 1;
}

/* ---- Saving: the new day replaces the old one in one step, and the journal is emptied last. */

/* The day, locked until it is closed; NULL, with the reason in words. It is as it was loaded; else a save would take back what somebody else has
   saved there, another record perhaps. A day that was replaced since it was opened here is another file, and its lock holds nobody off. */
static FILE *hold_day(void)
{
    FILE *file = fopen(day.path, "r+b");
    enum lock lock = file == NULL ? NOT_LOCKED : lock_file(file);
    const char *why = NULL;
    if (lock == NOT_LOCKED) {
        failed(day.name);
        why = file == NULL ? "the day cannot be opened; the journal has all edits"
                           : "the day cannot be locked, and is as it was; the journal has all edits";
    } else if (lock == HELD || !leads_to(day.path, file))
        why = "another editor is saving this day just now; the journal has all edits, so save again";
    else if (!is_as_loaded(file))
        why = "the day is not as it was loaded; the journal has all edits, so start again";
    if (why == NULL)
        return file;
    printf("refused: %s\n", why);
    if (file != NULL)
        fclose(file);
    return NULL;
}

/* The day's text, canonical where the record stands; its length, or 0 where that was refused. */
static size_t new_day(uint8_t **text, size_t *written)
{
    static uint8_t out[MOST_TEXT];
    struct seambeacon_beside beside;
    size_t behind = day.length - day.next;
    if (refused(seambeacon_write_record(SEAMBEACON_USUAL, record.placed.counts, COUNTS, record.cells, record.starts[GROUPS], out, sizeof out,
                                        &beside),
                &beside))
        return 0;
    *written = beside.written;
    *text = malloc(day.at + *written + behind);
    if (*text == NULL) {
        printf("refused: there is no memory for the day; the journal has all edits\n");
        return 0;
    }
    memcpy(*text, day.text, day.at);
    memcpy(*text + day.at, out, *written);
    memcpy(*text + day.at + *written, day.text + day.next, behind);
    return day.at + *written + behind;
}

static enum replaced replace_day(const uint8_t *text, size_t length)
{
    enum replaced replaced;
    FILE *held = hold_day();
    if (held == NULL)
        return NOT_REPLACED;
    replaced = replace_file(day.path, held, text, length);
    fclose(held);
    if (replaced == NOT_REPLACED)
        printf("refused: the day could not be written, and is as it was; the journal has all edits\n");
    if (replaced == NOT_FLUSHED)
        printf("saved, but perhaps not yet safe: a power failure may bring the old day back; the journal is kept, so start again\n");
    return replaced;
}

/* What was replayed may be another record's: the journal's bytes are then kept before they are removed. */
static int emptied(size_t written)
{
    char copy[MOST_PATH];
    int found;
    if ((journal.replayed && !copied(copy)) || !cut_journal(0)) {
        printf("saved, but the journal could not be emptied: start again, which does so\n");
        return 0;
    }
    found = is_found();
    if (found)
        printf("done: record %zu is saved, in %zu bytes, and the journal is empty\n", record.number, written);
    else
        printf("saved, but %s does not lead where it led at the start: look what stands there, and start again\n", journal.name);
    if (journal.replayed)
        printf("what was replayed, and all edits since, are kept in %s\n", copy);
    journal.used = 0;
    journal.replayed = 0;
    return found;
}

/* The text is the day from now on. */
static int saved(uint8_t *text, size_t length, size_t written)
{
    free(day.text);
    day.text = text;
    day.length = length;
    day.next = day.at + written;
    return emptied(written);
}

static int save(void)
{
    uint8_t *text = NULL;
    size_t written = 0, length = new_day(&text, &written);
    enum replaced replaced = length == 0 ? NOT_REPLACED : replace_day(text, length);
    journal.save_refused = replaced == NOT_REPLACED;
    if (replaced == REPLACED)
        return saved(text, length, written);
    free(text);
    return replaced == NOT_REPLACED;
}

/* ---- Words. */

/* A whole number in digits alone, at most so great. */
static int read_digits(const char *word, uint64_t most, uint64_t *number)
{
    *number = 0;
    if (*word == '\0')
        return 0;
    for (; *word != '\0'; word++) {
        unsigned digit = (unsigned)*word - '0';
        if (digit > 9 || *number > (most - digit) / 10)
            return 0;
        *number = *number * 10 + digit;
    }
    return 1;
}

static int read_size(const char *word, size_t *number)
{
    uint64_t digits;
    int right = read_digits(word, (size_t)-1, &digits);
    *number = (size_t)digits;
    return right;
}

static int read_value(const char *word, int64_t *value)
{
    int minus = *word == '-';
    uint64_t digits;
    if (!read_digits(word + minus, ((uint64_t)1 << 63) - !minus, &digits))
        return 0;
    *value = minus ? (int64_t)(0 - digits) : (int64_t)digits;
    return 1;
}

/* The words of a line, at most four and one more where there are too many. */
static size_t split(char *line, char *words[5])
{
    size_t many = 0;
    for (char *word = strtok(line, " \t\r\n"); word != NULL && many < 5; word = strtok(NULL, " \t\r\n"))
        words[many++] = word;
    return many;
}

static int take(char **words, size_t many)
{
    size_t first, second;
    int64_t value;
    if (many == 1 && strcmp(words[0], "open") == 0)
        return open_savepoint();
    if (many == 1 && strcmp(words[0], "save") == 0)
        return save();
    if (many == 2 && strcmp(words[0], "release") == 0 && read_size(words[1], &first))
        return release_savepoint(first);
    if (many == 2 && strcmp(words[0], "undo") == 0 && read_size(words[1], &first))
        return undo(first);
    if (many == 2 && strcmp(words[0], "show") == 0 && read_size(words[1], &first))
        return show(first);
    if (many == 4 && strcmp(words[0], "set") == 0 && read_size(words[1], &first) && read_size(words[2], &second) &&
        read_value(words[3], &value))
        return set(first, second, value);
    if (many > 0)
        printf("not understood: commands are set G C VALUE, open, release N, undo N, show G, save\n");
    return 1;
}

/* A line of standard input; 0 at its end. One that is longer than any command, or has no line feed, may be a part of what was meant, and is
   given as a word that is no command. */
static int read_line(char *line)
{
    size_t length = 0, many = 0;
    int byte;
    for (; (byte = getchar()) != EOF && byte != '\n'; many++)
        if (length < MOST_LINE - 1)
            line[length++] = byte == '\0' ? '?' : (char)byte;
    line[length] = '\0';
    if (many > length || (byte == EOF && many > 0))
        memcpy(line, "?", 2);
    return byte != EOF || many > 0;
}

int main(int count, char **words)
{
    size_t number;
    char line[MOST_LINE], *command[5];
    if (count != 4 || !read_size(words[2], &number) || number == 0) {
        fprintf(stderr, "usage: edit DAY RECORD JOURNAL (two files, and a record's number from 1)\n");
        return 2;
    }
    setvbuf(stdout, NULL, _IOLBF, 0); /* an answer is said at once, also into a file */
    if (!load_day(words[1]) || !find_record(number) || !load_cells() || !load_journal(words[3]) || !day_fits_journal() || !replay())
        return 1;
    while (read_line(line) && take(command, split(line, command)))
        ;
    return !feof(stdin) || journal.save_refused;
}
