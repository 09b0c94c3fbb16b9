/* What is due here is what the rules give for record S and its neighbours (R380 to R382, R411 to R415). S has 305 bytes; groups 1, 3 and 4
   stand at 244, 274 and 295. All lines here have their carriage return, and no record has a group 40, so all rules give the same. */
#include "questions.h"
#include "record_s.h"
#include "texts.h"

#define LENGTH(list) (sizeof(list) / sizeof(list)[0])
#define GREATEST ((size_t)-1)

static const struct seambeacon_beside none;
static const uint16_t no_counts[80];
static const int64_t position[] = {1200, 67000, -23500, 143000}, height[] = {7250}, unscaled[] = {9999000}, mark[] = {999900};
static const int64_t date[] = {'A', 'A', '2', '0', '0', '6', '2', '6', '5', '0', '9', '2', '2', '1', '4', '2', '5', '3', '0'};
static const int64_t sixteen[] = {1000, 2000, 3000, 4000, 5000, 6000, 7000, 8000, 9000, 10000, 11000, 12000, 13000, 14000, 15000, 16000};

/* ---- Placing. */

static const struct {
    const struct text *text;
    size_t at, reply, next, group;
} places[] = {
    {&s, 0, 0, 305, 0},
    {&s, 1, 4, 0, 0},
    {&s, 122, 4, 0, 0},
    {&s, 295, 3, 0, 0},
    {&s, 304, 3, 0, 0},
    {&s, 305, 1, 0, 0},
    {&s, 306, 2, 0, 0},
    {&s, GREATEST, 2, 0, 0},
    {&twice, 0, 0, 305, 0},
    {&twice, 305, 0, 610, 0},
    {&twice, 610, 1, 0, 0},
    {&twice, 611, 2, 0, 0},
    {&twice_comma, 0, 0, 305, 0},
    {&twice_comma, 305, 0, 610, 0},
    {&nothing, 0, 1, 0, 0},
    {&nothing, 1, 2, 0, 0},
    {&cut, 0, 3, 0, 0},
    {&blanks, 0, 0, 417, 0},
    {&too_many_blanks, 0, 0, 418, 0},
    {&comma, 0, 0, 305, 0},
    {&broken, 0, 7, 331, 7},
    {&broken, 331, 1, 0, 0},
    {&too_few_first, 0, 7, 305, 1},
    {&many_messages, 0, 3, 0, 0},
    {&letters, 0, 7, 309, 54},
    {&other_release, 0, 5, 0, 0},
    {&vacant, 0, 6, 0, 63},
    {&last_vacant, 0, 6, 0, 79},
    {&minus_zero, 0, 4, 0, 0},
    {&no_digit, 0, 4, 0, 0},
    {&two_lines, 0, 0, 427, 0},
};

static void check_places(void)
{
    for (size_t i = 0; i < LENGTH(places); i++) {
        struct seambeacon_beside beside = none;
        int placed = places[i].reply == 0 || places[i].reply == 7;
        of_case("placing", i);
        beside.next = places[i].next;
        beside.group = places[i].group;
        ask_place(places[i].text->bytes, places[i].text->length, places[i].at, places[i].reply, beside,
                  placed ? places[i].text->counts : no_counts);
    }
    of_case("placing in no text at all", 0);
    ask_place(NULL, 0, 0, 1, none, no_counts);
    ask_place(NULL, 0, GREATEST, 2, none, no_counts);
    of_case("placing behind S", 0);
    ask_place(s_broken.bytes, s_broken.length, 305, 7, (struct seambeacon_beside){.next = 636, .group = 7}, broken.counts);
}

/* ---- Reading, and the lines of a group. */

static const struct {
    const struct text *text;
    size_t at, group;
    const int64_t *cells;
    size_t count;
    struct seambeacon_part part;
    const char *lines;
} groups[] = {
    {&s, 0, 1, position, 4, {244, 30}, "  1.200 67.000-23.500143.000\r\n"},
    {&s, 0, 2, NULL, 0, {274, 0}, ""},
    {&s, 0, 3, date, 19, {274, 21}, "AA20062650922142530\r\n"},
    {&s, 0, 4, height, 1, {295, 10}, "   7.250\r\n"},
    {&s, 0, 5, NULL, 0, {305, 0}, ""},
    {&s, 0, 60, NULL, 0, {305, 0}, ""},
    {&twice, 0, 4, height, 1, {295, 10}, "   7.250\r\n"},
    {&twice, 305, 1, position, 4, {549, 30}, "  1.200 67.000-23.500143.000\r\n"},
    {&twice, 305, 2, NULL, 0, {579, 0}, ""},
    {&twice, 305, 4, height, 1, {600, 10}, "   7.250\r\n"},
    {&twice_comma, 305, 4, height, 1, {600, 10}, "   7.250\r\n"},
    {&comma, 0, 1, position, 4, {244, 30}, "  1.200 67.000-23.500143.000\r\n"},
    {&comma, 0, 3, date, 19, {274, 21}, "AA20062650922142530\r\n"},
    {&no_reading, 0, 4, unscaled, 1, {295, 10}, "9999.000\r\n"},
    {&not_scaled, 0, 4, mark, 1, {295, 10}, " 999.900\r\n"},
    {&second_bad, 0, 4, height, 1, {295, 10}, "   7.250\r\n"},
};

static void check_groups(void)
{
    for (size_t i = 0; i < LENGTH(groups); i++) {
        const uint8_t *text = groups[i].text->bytes;
        size_t length = groups[i].text->length;
        of_case("a group that is read", i);
        ask_read_all(text, length, groups[i].at, groups[i].group, groups[i].cells, groups[i].count);
        ask_lines(text, length, groups[i].at, groups[i].group, 0, none, groups[i].part);
        check("the part is the text's own",
              strlen(groups[i].lines) == lent.part.length && lent.part.start <= length && lent.part.length <= length - lent.part.start &&
                  memcmp(text + lent.part.start, groups[i].lines, lent.part.length) == 0);
    }
    of_case("groups of other texts", 0);
    ask_read_all(blanks.bytes, blanks.length, 0, 4, height, 1);
    ask_read_all(two_lines.bytes, two_lines.length, 0, 4, sixteen, 16);
    ask_lines(two_lines.bytes, two_lines.length, 0, 4, 0, none, (struct seambeacon_part){295, 132});
}

/* An empty table is never followed. */
static void check_no_table(void)
{
    of_case("no table at all", 0);
    fresh();
    due.beside = none;
    answered("a group with count 0", seambeacon_read_group(rules, s.bytes, s.length, 0, 2, NULL, 0, &lent.beside), 0);
    fresh();
    due.beside = none;
    answered("a group with cells", seambeacon_read_group(rules, s.bytes, s.length, 0, 4, NULL, 0, &lent.beside), 11);
    fresh();
    due.beside = none;
    answered("a group with several", seambeacon_read_group(rules, s.bytes, s.length, 0, 1, NULL, 0, &lent.beside), 11);
    fresh();
    due.beside = none;
    due.unread = 0;
    answered("a whole record", seambeacon_read_record(rules, s.bytes, s.length, 0, NULL, 0, &lent.unread, &lent.beside), 11);
    fresh();
    due.beside = none;
    due.unread = 0;
    answered("no text either", seambeacon_read_record(rules, NULL, 0, 0, NULL, 0, &lent.unread, &lent.beside), 1);
}

/* The first record from a date on: S's own second, the next one, and a date that is wrong; of S, of S twice, of records that are broken or cut, of no text. */
static void check_first(void)
{
    static const struct seambeacon_date its = {2006, 265, 9, 22, 14, 25, 30}, later = {2006, 265, 9, 22, 14, 25, 31},
                                        wrong = {2006, 265, 9, 22, 14, 25, GREATEST};
    const struct seambeacon_beside seconds = {.position = 18};
    of_case("the first record from a date on", 0);
    ask_first(s.bytes, s.length, &its, 0, none, 0, 0);
    ask_first(twice.bytes, twice.length, &its, 0, none, 0, 0);
    ask_first(s_broken.bytes, s_broken.length, &later, 1, none, 0, 2);
    ask_first(twice.bytes, twice.length, &later, 1, none, 0, 2);
    ask_first(cut.bytes, cut.length, &its, 3, none, 0, 0);
    ask_first(NULL, 0, &its, 1, none, 0, 0);
    ask_first(s.bytes, s.length, &wrong, 10, seconds, 0, 0);
    ask_first(NULL, 0, &wrong, 10, seconds, 0, 0);
}

/* The end of a stretch: S twice, from its start on, from inside and from its end on; behind S one that is broken, or has a misformed field; no text. */
static void check_stretch(void)
{
    of_case("the end of a stretch", 0);
    ask_stretch(twice.bytes, twice.length, 0, 0, 305);
    ask_stretch(twice.bytes, twice.length, 304, 0, 305);
    ask_stretch(twice.bytes, twice.length, 305, 0, 610);
    ask_stretch(twice.bytes, twice.length, 609, 0, 610);
    ask_stretch(twice.bytes, twice.length, 610, 1, 0);
    ask_stretch(twice.bytes, twice.length, 611, 2, 0);
    ask_stretch(twice.bytes, twice.length, GREATEST, 2, 0);
    ask_stretch(s_broken.bytes, s_broken.length, 0, 0, s_broken.length);
    ask_stretch(twice_comma.bytes, twice_comma.length, 0, 0, 305);
    ask_stretch(cut.bytes, cut.length, 0, 0, 304);
    ask_stretch(NULL, 0, 0, 1, 0);
    ask_stretch(NULL, 0, 1, 2, 0);
}

/* Refusals; a part can be given where the lines are only misread. */
static const struct {
    const struct text *text;
    size_t at, group, reply;
    struct seambeacon_beside beside;
    int given;
    struct seambeacon_part part;
} refusals[] = {
    {&s, 0, 0, 12, {0}, 0, {0, 0}},
    {&s, 0, 61, 12, {0}, 0, {0, 0}},
    {&s, 0, GREATEST, 12, {0}, 0, {0, 0}},
    {&s, GREATEST, 0, 12, {0}, 0, {0, 0}},
    {&s, 306, 61, 12, {0}, 0, {0, 0}},
    {&s, 1, 4, 4, {0}, 0, {0, 0}},
    {&s, 295, 4, 3, {0}, 0, {0, 0}},
    {&s, 305, 1, 1, {0}, 0, {0, 0}},
    {&s, 305, 4, 1, {0}, 0, {0, 0}},
    {&s, 306, 1, 2, {0}, 0, {0, 0}},
    {&s, 306, 4, 2, {0}, 0, {0, 0}},
    {&s, GREATEST, 1, 2, {0}, 0, {0, 0}},
    {&s, GREATEST, 4, 2, {0}, 0, {0, 0}},
    {&nothing, 0, 1, 1, {0}, 0, {0, 0}},
    {&cut, 0, 4, 3, {0}, 0, {0, 0}},
    {&minus_zero, 0, 4, 4, {0}, 0, {0, 0}},
    {&other_release, 0, 4, 5, {0}, 0, {0, 0}},
    {&vacant, 0, 4, 6, {.group = 63}, 0, {0, 0}},
    {&broken, 0, 4, 7, {.group = 7}, 0, {0, 0}},
    {&broken, 0, 61, 12, {0}, 0, {0, 0}},
    {&too_many_blanks, 0, 4, 8, {.line = 1}, 1, {295, 123}},
    {&second_line_long, 0, 4, 8, {.line = 2}, 1, {295, 133}},
    {&comma, 0, 4, 9, {.line = 1, .element = 1}, 1, {295, 10}},
    {&twice_comma, 0, 4, 9, {.line = 1, .element = 1}, 1, {295, 10}},
    {&second_bad, 0, 1, 9, {.line = 1, .element = 2}, 1, {244, 30}},
    {&last_of_two_bad, 0, 4, 9, {.line = 2, .element = 16}, 1, {295, 132}},
    {&wrong_day, 0, 3, 10, {.position = 7}, 1, {274, 21}},
    {&wrong_month, 0, 3, 10, {.position = 10}, 1, {274, 21}},
    {&no_year, 0, 3, 10, {.position = 3}, 1, {274, 21}},
};

static void check_refusals(void)
{
    for (size_t i = 0; i < LENGTH(refusals); i++) {
        const uint8_t *text = refusals[i].text->bytes;
        size_t length = refusals[i].text->length, at = refusals[i].at, group = refusals[i].group, reply = refusals[i].reply;
        of_case("a group that is refused", i);
        ask_read(text, length, at, group, 40, reply, refusals[i].beside, NULL);
        if (refusals[i].given) {
            ask_read(text, length, at, group, 0, 11, none, NULL);
            ask_lines(text, length, at, group, 0, none, refusals[i].part);
        } else {
            ask_read(text, length, at, group, 0, reply, refusals[i].beside, NULL);
            ask_lines(text, length, at, group, reply, refusals[i].beside, refusals[i].part);
        }
    }
    of_case("a group that is refused, into a table of its length", 0);
    ask_read(comma.bytes, comma.length, 0, 4, 1, 9, (struct seambeacon_beside){.line = 1, .element = 1}, NULL);
}

/* ---- A whole record. */

/* Refusals into a table with room, with the group that was not read; group 4 has sixteen cells in the texts of two lines. Where a group was read,
   11 comes before it. */
static const struct {
    const struct text *text;
    size_t at, cells, reply;
    struct seambeacon_beside beside;
    size_t unread;
} unread[] = {
    {&s, 1, 0, 4, {0}, 0},
    {&s, 295, 0, 3, {0}, 0},
    {&s, 305, 0, 1, {0}, 0},
    {&s, 306, 0, 2, {0}, 0},
    {&s, GREATEST, 0, 2, {0}, 0},
    {&nothing, 0, 0, 1, {0}, 0},
    {&cut, 0, 0, 3, {0}, 0},
    {&minus_zero, 0, 0, 4, {0}, 0},
    {&other_release, 0, 0, 5, {0}, 0},
    {&vacant, 0, 0, 6, {.group = 63}, 0},
    {&last_vacant, 0, 0, 6, {.group = 79}, 0},
    {&broken, 0, 0, 7, {.group = 7}, 0},
    {&too_few_first, 0, 0, 7, {.group = 1}, 0},
    {&s_broken, 305, 0, 7, {.group = 7}, 0},
    {&too_many_blanks, 0, 24, 8, {.line = 1}, 4},
    {&second_line_long, 0, 39, 8, {.line = 2}, 4},
    {&comma, 0, 24, 9, {.line = 1, .element = 1}, 4},
    {&twice_comma, 0, 24, 9, {.line = 1, .element = 1}, 4},
    {&second_bad, 0, 24, 9, {.line = 1, .element = 2}, 1},
    {&last_of_two_bad, 0, 39, 9, {.line = 2, .element = 16}, 4},
    {&wrong_day, 0, 24, 10, {.position = 7}, 3},
    {&no_year, 0, 24, 10, {.position = 3}, 3},
};

static void check_unread(void)
{
    for (size_t i = 0; i < LENGTH(unread); i++) {
        const uint8_t *text = unread[i].text->bytes;
        size_t length = unread[i].text->length, at = unread[i].at, cells = unread[i].cells;
        of_case("a whole record that is refused", i);
        ask_whole(text, length, at, 40, unread[i].reply, unread[i].beside, unread[i].unread, NULL);
        ask_whole(text, length, at, cells, unread[i].reply, unread[i].beside, unread[i].unread, NULL);
        if (cells > 0) {
            ask_whole(text, length, at, cells - 1, 11, none, 0, NULL);
            ask_whole(text, length, at, 0, 11, none, 0, NULL);
        }
    }
}

static void check_whole(void)
{
    int64_t longer[39];
    of_case("a whole record", 0);
    ask_whole_all(s.bytes, s.length, 0, all_of_s, 24);
    ask_whole_all(twice.bytes, twice.length, 305, all_of_s, 24);
    ask_whole_all(twice_comma.bytes, twice_comma.length, 305, all_of_s, 24);
    ask_whole_all(blanks.bytes, blanks.length, 0, all_of_s, 24);
    memcpy(longer, all_of_s, 23 * sizeof *longer);
    memcpy(longer + 23, sixteen, sizeof sixteen);
    ask_whole_all(two_lines.bytes, two_lines.length, 0, longer, 39);
    check_unread();
}

/* ---- Characteristics. */

static const struct {
    const struct text *text;
    size_t at, number;
    enum seambeacon_kind kind;
    int64_t value;
    size_t reply;
    struct seambeacon_beside beside;
} characteristics[] = {
    {&s, 0, 1, SEAMBEACON_VALUE, 7250, 0, {0}},
    {&s, 0, 2, SEAMBEACON_NOT_REPORTED, 0, 0, {0}},
    {&s, 0, 49, SEAMBEACON_NOT_REPORTED, 0, 0, {0}},
    {&s, 0, 0, SEAMBEACON_REFUSED, 0, 12, {0}},
    {&s, 0, 50, SEAMBEACON_REFUSED, 0, 12, {0}},
    {&s, 0, GREATEST, SEAMBEACON_REFUSED, 0, 12, {0}},
    {&s, GREATEST, 50, SEAMBEACON_REFUSED, 0, 12, {0}},
    {&s, GREATEST, 1, SEAMBEACON_REFUSED, 0, 2, {0}},
    {&s, 306, 50, SEAMBEACON_REFUSED, 0, 12, {0}},
    {&s, 306, 1, SEAMBEACON_REFUSED, 0, 2, {0}},
    {&s, 305, 1, SEAMBEACON_REFUSED, 0, 1, {0}},
    {&twice, 305, 1, SEAMBEACON_VALUE, 7250, 0, {0}},
    {&twice_comma, 0, 1, SEAMBEACON_REFUSED, 0, 9, {.line = 1, .element = 1}},
    {&twice_comma, 305, 1, SEAMBEACON_VALUE, 7250, 0, {0}},
    {&cut, 0, 1, SEAMBEACON_REFUSED, 0, 3, {0}},
    {&broken, 0, 1, SEAMBEACON_REFUSED, 0, 7, {.group = 7}},
    {&comma, 0, 1, SEAMBEACON_REFUSED, 0, 9, {.line = 1, .element = 1}},
    {&comma, 0, 2, SEAMBEACON_REFUSED, 0, 9, {.line = 1, .element = 1}},
    {&comma, 0, 49, SEAMBEACON_REFUSED, 0, 9, {.line = 1, .element = 1}},
    {&comma, 0, 50, SEAMBEACON_REFUSED, 0, 12, {0}},
    {&wrong_day, 0, 1, SEAMBEACON_VALUE, 7250, 0, {0}},
    {&no_reading, 0, 1, SEAMBEACON_NO_READING, 0, 0, {0}},
    {&below_zero, 0, 1, SEAMBEACON_VALUE, -500, 0, {0}},
    {&not_scaled, 0, 1, SEAMBEACON_NO_READING, 0, 0, {0}},
    {&above_not_scaled, 0, 1, SEAMBEACON_VALUE, 999901, 0, {0}},
    {&minus_not_scaled, 0, 1, SEAMBEACON_VALUE, -999900, 0, {0}},
    {&two_lines, 0, 16, SEAMBEACON_VALUE, 16000, 0, {0}},
    {&two_lines, 0, 17, SEAMBEACON_NOT_REPORTED, 0, 0, {0}},
};

static void check_characteristics(void)
{
    for (size_t i = 0; i < LENGTH(characteristics); i++) {
        of_case("a characteristic", i);
        ask_characteristic(characteristics[i].text->bytes, characteristics[i].text->length, characteristics[i].at, characteristics[i].number,
                           characteristics[i].reply, characteristics[i].beside, characteristics[i].kind, characteristics[i].value);
    }
}

/* ---- Writing. */

static void check_writing(void)
{
    uint16_t above[80];
    int64_t wide[24];
    of_case("writing S", 0);
    ask_write_all(s.counts, all_of_s, 24, s.bytes, s.length);
    ask_write(s.counts, 79, all_of_s, 24, 400, 4, none, NULL);
    ask_write(NULL, 0, NULL, 0, 400, 4, none, NULL);
    memcpy(above, s.counts, sizeof above);
    above[4] = 65535;
    ask_write(above, 80, all_of_s, 24, 400, 4, none, NULL);
    ask_write(other_release.counts, 80, all_of_s, 24, 400, 5, none, NULL);
    ask_write(vacant.counts, 80, all_of_s, 24, 400, 6, (struct seambeacon_beside){.group = 63}, NULL);
    ask_write(broken.counts, 80, all_of_s, 24, 400, 7, (struct seambeacon_beside){.group = 7}, NULL);
    ask_write(s.counts, 80, all_of_s, 23, 400, 14, none, NULL);
    ask_write(s.counts, 80, NULL, 0, 400, 14, none, NULL);
    memcpy(wide, all_of_s, sizeof wide);
    wide[2] = -100000;
    ask_write(s.counts, 80, wide, 24, 400, 13, (struct seambeacon_beside){.group = 1, .element = 3}, NULL);
    memcpy(wide, all_of_s, sizeof wide);
    wide[4 + 13] = '3';
    ask_write(s.counts, 80, wide, 24, 400, 10, (struct seambeacon_beside){.position = 14}, NULL);
}

/* ---- The listing. */

static void check_listing(void)
{
    static const char of_twice[] = "1 0 305 0 0 3 5\n2 305 610 0 0 3 5\nend 2 610 1 0\n";
    static const char of_broken[] = "1 0 331 7 7 4 6\nend 1 331 1 0\n", of_vacant[] = "end 0 0 6 63\n", of_nothing[] = "end 0 0 1 0\n";
    of_case("listing", 0);
    ask_list_all(twice.bytes, twice.length, (const uint8_t *)of_twice, strlen(of_twice));
    ask_list_all(twice_comma.bytes, twice_comma.length, (const uint8_t *)of_twice, strlen(of_twice));
    ask_list_all(broken.bytes, broken.length, (const uint8_t *)of_broken, strlen(of_broken));
    ask_list_all(vacant.bytes, vacant.length, (const uint8_t *)of_vacant, strlen(of_vacant));
    ask_list_all(NULL, 0, (const uint8_t *)of_nothing, strlen(of_nothing));
    ask_list(s.bytes, s.length, 0, 11, none, NULL);
    fresh();
    due.beside = none;
    answered("no output at all", seambeacon_list(rules, s.bytes, s.length, NULL, 0, &lent.beside), 11);
}

/* ---- Rewriting, and the group that was not read. */

static const struct {
    const struct text *text;
    size_t at, cells, room, reply;
    struct seambeacon_beside beside;
    size_t unread;
} rewritings[] = {
    {&s, 0, 24, 305, 0, {.next = 305, .written = 305}, 0},
    {&s, 0, 30, 320, 0, {.next = 305, .written = 305}, 0},
    {&s, 0, 23, 305, 11, {0}, 0},
    {&s, 0, 24, 304, 11, {0}, 0},
    {&s, 0, 0, 0, 11, {0}, 0},
    {&s, 1, 30, 320, 4, {0}, 0},
    {&s, 305, 30, 320, 1, {0}, 0},
    {&s, 306, 30, 320, 2, {0}, 0},
    {&s, GREATEST, 30, 320, 2, {0}, 0},
    {&twice, 305, 24, 305, 0, {.next = 610, .written = 305}, 0},
    {&blanks, 0, 24, 305, 0, {.next = 417, .written = 305}, 0},
    {&cut, 0, 30, 320, 3, {0}, 0},
    {&broken, 0, 30, 400, 7, {.group = 7}, 0},
    {&vacant, 0, 30, 400, 6, {.group = 63}, 0},
    {&comma, 0, 30, 320, 9, {.line = 1, .element = 1}, 4},
    {&second_bad, 0, 30, 320, 9, {.line = 1, .element = 2}, 1},
    {&wrong_day, 0, 30, 320, 10, {.position = 7}, 3},
};

static void check_rewriting(void)
{
    for (size_t i = 0; i < LENGTH(rewritings); i++) {
        of_case("rewriting", i);
        ask_rewrite(rewritings[i].text->bytes, rewritings[i].text->length, rewritings[i].at, rewritings[i].cells, rewritings[i].room,
                    rewritings[i].reply, rewritings[i].beside, rewritings[i].unread, s.bytes, all_of_s, LENGTH(all_of_s));
    }
}

void check_record_s(void)
{
    make_texts();
    of_case("S", 0);
    need("S has 305 bytes", s.length == 305);
    for (size_t i = 0; i < RULES * FLAGS; i++) {
        under(flags[i / FLAGS][i % FLAGS]);
        check_places();
        check_groups();
        check_no_table();
        check_first();
        check_stretch();
        check_refusals();
        check_whole();
        check_characteristics();
        check_writing();
        check_listing();
        check_rewriting();
    }
}
