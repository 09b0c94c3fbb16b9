/* R9, R365, R414: S with other line ends, under either line end and under the strict one, both asked for by several numbers. S has carriage
   returns at 120, 242, 272, 293 and 303; what is due where one is missing or a second one stands is by the rules what is due of S, at places that
   are so much nearer or further, or a refusal. S has no group 40, so what a count of it counts is the same here. */
#include "line_ends.h"
#include "questions.h"
#include "texts.h"

#define LENGTH(list) (sizeof(list) / sizeof(list)[0])

/* Either line end, and the strict one. */
enum { ENDS = 2 };

static const struct seambeacon_beside none, first_line = {.line = 1};
static const uint16_t no_counts[80];

/* Every question here is about the record that a text begins with, but for S without carriage returns behind S. */
static size_t place_in(const struct text *text)
{
    return text == &s_no_returns ? s.length : 0;
}

/* ---- Placing. */

static const struct {
    const struct text *text;
    struct {
        size_t reply, next;
    } by[ENDS];
} places[] = {
    {&s, {{0, 305}, {0, 305}}},
    {&no_returns, {{0, 300}, {4, 0}}},
    {&no_index_return, {{0, 304}, {4, 0}}},
    {&no_data_returns, {{0, 302}, {0, 302}}},
    {&blank_for_return, {{0, 305}, {0, 305}}},
    {&two_in_index, {{4, 0}, {4, 0}}},
    {&two_in_data, {{0, 306}, {0, 306}}},
    {&s_no_returns, {{0, 605}, {4, 0}}},
};

static void check_places(size_t ends)
{
    for (size_t i = 0; i < LENGTH(places); i++) {
        const struct text *text = places[i].text;
        size_t reply = places[i].by[ends].reply;
        of_case("placing with other line ends", i);
        ask_place(text->bytes, text->length, place_in(text), reply, (struct seambeacon_beside){.next = places[i].by[ends].next},
                  reply == 0 ? s.counts : no_counts);
    }
}

/* ---- Reading, and the lines of a group. A refusal is 4, or 8 of the group's first line. */

static const struct {
    const struct text *text;
    size_t group;
    const int64_t *cells;
    size_t count, by[ENDS];
    struct seambeacon_part part;
} groups[] = {
    {&s, 4, all_of_s + 23, 1, {0, 0}, {295, 10}},
    {&no_returns, 1, all_of_s, 4, {0, 4}, {242, 29}},
    {&no_returns, 2, NULL, 0, {0, 4}, {271, 0}},
    {&no_returns, 3, all_of_s + 4, 19, {0, 4}, {271, 20}},
    {&no_returns, 4, all_of_s + 23, 1, {0, 4}, {291, 9}},
    {&no_returns, 60, NULL, 0, {0, 4}, {300, 0}},
    {&no_index_return, 4, all_of_s + 23, 1, {0, 4}, {294, 10}},
    {&no_data_returns, 1, all_of_s, 4, {0, 8}, {244, 29}},
    {&no_data_returns, 2, NULL, 0, {0, 0}, {273, 0}},
    {&no_data_returns, 3, all_of_s + 4, 19, {0, 8}, {273, 20}},
    {&no_data_returns, 4, all_of_s + 23, 1, {0, 8}, {293, 9}},
    {&blank_for_return, 3, all_of_s + 4, 19, {0, 0}, {274, 21}},
    {&blank_for_return, 4, all_of_s + 23, 1, {0, 8}, {295, 10}},
    {&two_in_index, 4, NULL, 0, {4, 4}, {0, 0}},
    {&two_in_data, 3, all_of_s + 4, 19, {0, 0}, {274, 21}},
    {&two_in_data, 4, NULL, 0, {8, 8}, {295, 11}},
    {&s_no_returns, 4, all_of_s + 23, 1, {0, 4}, {596, 9}},
};

static void check_groups(size_t ends)
{
    for (size_t i = 0; i < LENGTH(groups); i++) {
        const struct text *text = groups[i].text;
        size_t at = place_in(text), group = groups[i].group, reply = groups[i].by[ends];
        of_case("a group with other line ends", i);
        if (reply == 0)
            ask_read_all(text->bytes, text->length, at, group, groups[i].cells, groups[i].count);
        else
            ask_read(text->bytes, text->length, at, group, 40, reply, reply == 8 ? first_line : none, NULL);
        if (reply == 4)
            ask_lines(text->bytes, text->length, at, group, 4, none, (struct seambeacon_part){0, 0});
        else
            ask_lines(text->bytes, text->length, at, group, 0, none, groups[i].part);
    }
}

/* ---- Characteristics. One that is refused is so by the reply of group 4. */

static const struct {
    const struct text *text;
    size_t number, by[ENDS];
    enum seambeacon_kind kind;
    int64_t value;
} characteristics[] = {
    {&no_returns, 1, {0, 4}, SEAMBEACON_VALUE, 7250},
    {&no_returns, 2, {0, 4}, SEAMBEACON_NOT_REPORTED, 0},
    {&no_data_returns, 1, {0, 8}, SEAMBEACON_VALUE, 7250},
    {&blank_for_return, 1, {0, 8}, SEAMBEACON_VALUE, 7250},
    {&blank_for_return, 49, {0, 8}, SEAMBEACON_NOT_REPORTED, 0},
    {&two_in_index, 1, {4, 4}, SEAMBEACON_REFUSED, 0},
    {&two_in_data, 1, {8, 8}, SEAMBEACON_REFUSED, 0},
    {&s_no_returns, 1, {0, 4}, SEAMBEACON_VALUE, 7250},
};

static void check_characteristics(size_t ends)
{
    for (size_t i = 0; i < LENGTH(characteristics); i++) {
        const struct text *text = characteristics[i].text;
        size_t reply = characteristics[i].by[ends];
        of_case("a characteristic with other line ends", i);
        ask_characteristic(text->bytes, text->length, place_in(text), characteristics[i].number, reply, reply == 8 ? first_line : none,
                           reply == 0 ? characteristics[i].kind : SEAMBEACON_REFUSED, reply == 0 ? characteristics[i].value : 0);
    }
}

/* ---- The listing. */

static const struct {
    const struct text *text;
    const char *by[ENDS];
} listings[] = {
    {&no_returns, {"1 0 300 0 0 3 5\nend 1 300 1 0\n", "end 0 0 4 0\n"}},
    {&no_data_returns, {"1 0 302 0 0 3 5\nend 1 302 1 0\n", "1 0 302 0 0 3 5\nend 1 302 1 0\n"}},
    {&two_in_index, {"end 0 0 4 0\n", "end 0 0 4 0\n"}},
    {&two_in_data, {"1 0 306 0 0 3 5\nend 1 306 1 0\n", "1 0 306 0 0 3 5\nend 1 306 1 0\n"}},
    {&s_no_returns, {"1 0 305 0 0 3 5\n2 305 605 0 0 3 5\nend 2 605 1 0\n", "1 0 305 0 0 3 5\nend 1 305 4 0\n"}},
};

static void check_listings(size_t ends)
{
    for (size_t i = 0; i < LENGTH(listings); i++) {
        const char *listed = listings[i].by[ends];
        of_case("listing with other line ends", i);
        ask_list_all(listings[i].text->bytes, listings[i].text->length, (const uint8_t *)listed, strlen(listed));
    }
}

/* ---- Rewriting, and reading the whole record, of which the refusals are the same. What is rewritten is S, with its carriage returns (R101). */

static const struct {
    const struct text *text;
    struct {
        size_t reply, next, unread;
    } by[ENDS];
} rewritings[] = {
    {&no_returns, {{0, 300, 0}, {4, 0, 0}}},
    {&no_index_return, {{0, 304, 0}, {4, 0, 0}}},
    {&no_data_returns, {{0, 302, 0}, {8, 0, 1}}},
    {&blank_for_return, {{0, 305, 0}, {8, 0, 4}}},
    {&two_in_index, {{4, 0, 0}, {4, 0, 0}}},
    {&two_in_data, {{8, 0, 4}, {8, 0, 4}}},
    {&s_no_returns, {{0, 605, 0}, {4, 0, 0}}},
};

static void check_rewritings(size_t ends)
{
    for (size_t i = 0; i < LENGTH(rewritings); i++) {
        const struct text *text = rewritings[i].text;
        size_t reply = rewritings[i].by[ends].reply, unread = rewritings[i].by[ends].unread;
        struct seambeacon_beside beside = reply == 8 ? first_line : none;
        of_case("rewriting with other line ends", i);
        beside.next = rewritings[i].by[ends].next;
        beside.written = reply == 0 ? s.length : 0;
        ask_rewrite(text->bytes, text->length, place_in(text), 30, 320, reply, beside, unread, s.bytes, all_of_s, LENGTH(all_of_s));
        if (reply == 0)
            ask_whole_all(text->bytes, text->length, place_in(text), all_of_s, LENGTH(all_of_s));
        else
            ask_whole(text->bytes, text->length, place_in(text), 30, reply, beside, unread, NULL);
    }
}

void check_line_ends(void)
{
    for (size_t i = 0; i < RULES * FLAGS; i++) {
        size_t rule = i / FLAGS, ends = rule == STRICT || rule == BOTH;
        under(flags[rule][i % FLAGS]);
        check_places(ends);
        check_groups(ends);
        check_characteristics(ends);
        check_listings(ends);
        check_rewritings(ends);
    }
}
