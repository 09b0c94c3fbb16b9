/* What is due is known without asking for it: from the walk, placed record by record, and from what group 3 of each is read as. */
#include "questions.h"
#include "since.h"
#include "words.h"

enum { MOST_RECORDS = 4096 };

static struct file text;

/* ---- Dates, by their seven numbers. */

enum { NUMBERS = 7 };

/* The positions of each number's digits in group 3, from 0 (R140). */
static const size_t first_digit[NUMBERS + 1] = {2, 6, 9, 11, 13, 15, 17, 19};

static struct seambeacon_date date_of(const size_t seven[NUMBERS])
{
    struct seambeacon_date date = {seven[0], seven[1], seven[2], seven[3], seven[4], seven[5], seven[6]};
    return date;
}

static void seven_of(const int64_t *cells, size_t seven[NUMBERS])
{
    for (size_t i = 0; i < NUMBERS; i++) {
        seven[i] = 0;
        for (size_t at = first_digit[i]; at < first_digit[i + 1]; at++)
            seven[i] = seven[i] * 10 + (size_t)(cells[at] - '0');
    }
}

/* R332: right dates are in the order of their seven numbers. */
static int not_before(const size_t a[NUMBERS], const size_t b[NUMBERS])
{
    for (size_t i = 0; i < NUMBERS; i++)
        if (a[i] != b[i])
            return a[i] > b[i];
    return 1;
}

/* ---- The walk, with the dates of its records. */

static struct entry {
    size_t place, next;
    int dated;
    size_t seven[NUMBERS];
} entries[MOST_RECORDS];

static size_t many;
static struct seambeacon_record stop; /* what stands where the walk stops */

static void read_date(struct entry *entry)
{
    static int64_t cells[1000];
    struct seambeacon_beside beside;
    entry->dated = seambeacon_read_group(rules, text.bytes, text.length, entry->place, 3, cells, 1000, &beside) == SEAMBEACON_DONE;
    if (entry->dated)
        seven_of(cells, entry->seven);
}

static void walk(void)
{
    size_t at = 0;
    for (many = 0;; many++) {
        seambeacon_place(rules, text.bytes, text.length, at, &stop);
        if (stop.reply != SEAMBEACON_DONE && stop.reply != SEAMBEACON_BROKEN_RULE)
            return;
        need("not so many records", many < MOST_RECORDS);
        entries[many].place = at;
        entries[many].next = at = stop.beside.next;
        read_date(&entries[many]);
    }
}

/* ---- What is due. */

static const struct seambeacon_beside none;

/* R336: the same bytes up to the end of the record that is found, and others behind it, or none. */
static void check_stops(const struct seambeacon_date *from, size_t found)
{
    static struct file other;
    size_t end = entries[found].next;
    memcpy(other.bytes, text.bytes, end);
    memset(other.bytes + end, '9', text.length - end);
    ask_first(other.bytes, text.length, from, 0, none, entries[found].place, found);
    ask_first(other.bytes, end, from, 0, none, entries[found].place, found);
}

static void check_from(const size_t seven[NUMBERS])
{
    struct seambeacon_date from = date_of(seven);
    for (size_t k = 0; k < many; k++)
        if (entries[k].dated && not_before(entries[k].seven, seven)) {
            ask_first(text.bytes, text.length, &from, 0, none, entries[k].place, k);
            check_stops(&from, k);
            return;
        }
    ask_first(text.bytes, text.length, &from, stop.reply, stop.beside, 0, many);
}

/* ---- Dates to ask for. */

/* A second on, if that is the same minute; so the other numbers stay. */
static void check_near(const size_t seven[NUMBERS])
{
    size_t near[NUMBERS];
    memcpy(near, seven, sizeof near);
    check_from(near);
    if (near[6] < 59) {
        near[6]++;
        check_from(near);
        near[6]--;
    }
    if (near[6] > 0) {
        near[6]--;
        check_from(near);
    }
}

size_t check_from_each(const char *name)
{
    static const size_t least[NUMBERS] = {0, 1, 1, 1, 0, 0, 0}, greatest[NUMBERS] = {9999, 365, 12, 31, 23, 59, 59};
    size_t asked = 0;
    of_case(name, 0);
    read_file(&text, name);
    for (size_t which = 0; which < RULES; which++) {
        under(flags[which][which]);
        walk();
        check_from(least);
        check_from(greatest);
        asked += 2;
        for (size_t k = 0; k < many; k++)
            if (entries[k].dated) {
                of_case(name, entries[k].place);
                check_near(entries[k].seven);
                asked++;
            }
    }
    return asked;
}

/* ---- The questions of a file. */

/* Whether it was asked. */
static int check_question(const char *folder, size_t line)
{
    int below = 0;
    size_t seven[NUMBERS], reply, place, passed;
    struct seambeacon_beside beside = {0};
    struct seambeacon_date from;
    under(rules_named(line));
    text_named(&text, folder);
    for (size_t i = 0; i < NUMBERS; i++) {
        int64_t told = number();
        below |= told < 0;
        seven[i] = (size_t)told;
    }
    need("an answer behind the question", word_is("="));
    reply = size();
    place = size();
    passed = size();
    *(reply == 6 ? &beside.group : &beside.position) = size();
    need("a number beside 6 and 10 alone", reply == 6 || reply == 10 || beside.position == 0);
    from = date_of(seven);
    if (!below)
        ask_first(text.bytes, text.length, &from, reply, beside, place, passed);
    return !below;
}

size_t check_firsts(const char *folder, const char *file)
{
    size_t line = 0, asked = 0;
    of_case(file, 0);
    read_words(file);
    while (more()) {
        of_case(file, ++line);
        asked += (size_t)check_question(folder, line);
    }
    return asked;
}
