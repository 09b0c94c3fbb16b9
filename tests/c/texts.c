#include "texts.h"

struct text s, twice, twice_comma, nothing;
struct text cut, blanks, too_many_blanks, comma, second_bad;
struct text no_returns, no_index_return, no_data_returns, blank_for_return, two_in_index, two_in_data, s_no_returns;
struct text broken, s_broken, too_few_first, many_messages, letters, other_release, vacant, last_vacant, minus_zero, no_digit;
struct text wrong_day, wrong_month, no_year, no_reading, below_zero, not_scaled, above_not_scaled, minus_not_scaled;
struct text two_lines, last_of_two_bad, second_line_long;

const int64_t all_of_s[24] = {1200, 67000, -23500, 143000, 'A', 'A', '2', '0', '0', '6', '2', '6',
                              '5',  '0',   '9',    '2',    '2', '1', '4', '2', '5', '3', '0', 7250};

/* ---- Pieces. */

static void put(struct text *text, const char *bytes)
{
    memcpy(text->bytes + text->length, bytes, strlen(bytes));
    text->length += strlen(bytes);
}

static void put_line(struct text *text, const char *content)
{
    put(text, content);
    put(text, "\r\n");
}

static void put_entry(struct text *text, unsigned count)
{
    char entry[4] = "  0";
    for (size_t i = 3; i > 0 && count > 0; i--, count /= 10)
        entry[i - 1] = (char)('0' + count % 10);
    put(text, entry);
}

/* Two index lines of 40 entries. */
static void put_index(struct text *text)
{
    for (size_t g = 0; g < 80; g++) {
        put_entry(text, text->counts[g]);
        if (g == 39 || g == 79)
            put(text, "\r\n");
    }
}

/* Counts 4, 0, 19, 1, zeros, release 5; then one other. */
static void put_counts(struct text *text, size_t group, uint16_t count)
{
    static const uint16_t first[] = {4, 0, 19, 1};
    memset(text, 0, sizeof *text);
    memcpy(text->counts, first, sizeof first);
    text->counts[79] = 5;
    text->counts[group - 1] = count;
    put_index(text);
}

static void make_s(struct text *text, size_t group, uint16_t count, const char *date, const char *last)
{
    put_counts(text, group, count);
    put_line(text, "  1.200 67.000-23.500143.000");
    put_line(text, date);
    put_line(text, last);
}

static void make_twice(struct text *text, const struct text *first, const struct text *second)
{
    *text = *first;
    memcpy(text->bytes + text->length, second->bytes, second->length);
    text->length += second->length;
}

/* S with other bytes from a place on. */
static void make_altered(struct text *text, size_t at, const char *bytes)
{
    *text = s;
    memcpy(text->bytes + at, bytes, strlen(bytes));
}

static void make_followed(struct text *text, size_t many)
{
    *text = s;
    text->length -= 2;
    while (many-- > 0)
        put(text, " ");
    put(text, "\r\n");
}

/* S without the carriage returns that stand from one place up to another. */
static void make_without(struct text *text, size_t from, size_t to)
{
    *text = s;
    text->length = 0;
    for (size_t i = 0; i < s.length; i++)
        if (s.bytes[i] != '\r' || i < from || i >= to)
            text->bytes[text->length++] = s.bytes[i];
}

/* S with a second carriage return beside the one at a place. */
static void make_doubled(struct text *text, size_t at)
{
    *text = s;
    need("a carriage return stands there", s.bytes[at] == '\r');
    memcpy(text->bytes + at + 1, s.bytes + at, s.length - at);
    text->length++;
}

/* ---- The texts. */

static const char date[] = "AA20062650922142530", value[] = "   7.250";

static void make_damaged_lines(void)
{
    cut = s;
    cut.length--;
    make_followed(&blanks, 112);
    make_followed(&too_many_blanks, 113);
    make_altered(&comma, 299, ",");
    make_altered(&second_bad, 253, "x");
    make_twice(&twice_comma, &comma, &s);
}

static void make_line_ends(void)
{
    make_without(&no_returns, 0, s.length);
    make_without(&no_index_return, 242, 243);
    make_without(&no_data_returns, 244, s.length);
    make_altered(&blank_for_return, 303, " ");
    make_doubled(&two_in_index, 120);
    make_doubled(&two_in_data, 303);
    make_twice(&s_no_returns, &s, &no_returns);
}

static void make_damaged_counts(void)
{
    make_s(&broken, 11, 3, date, value);
    put_line(&broken, "   1.000   2.000   3.000");
    make_twice(&s_broken, &s, &broken);
    make_s(&too_few_first, 1, 3, date, value);
    make_s(&many_messages, 2, 3, date, value);
    make_s(&letters, 54, 2, date, value);
    put_line(&letters, "AB");
    make_s(&other_release, 80, 4, date, value);
    make_s(&vacant, 63, 7, date, value);
    make_s(&last_vacant, 79, 1, date, value);
    make_altered(&minus_zero, 12, " -0");
    make_altered(&no_digit, 12, "   ");
}

static void make_fields(void)
{
    make_s(&wrong_day, 80, 5, "AA20060600229142530", value);
    make_s(&wrong_month, 80, 5, "AA20062651322142530", value);
    make_s(&no_year, 80, 5, "AA2 062650922142530", value);
    make_s(&no_reading, 80, 5, date, "9999.000");
    make_s(&below_zero, 80, 5, date, "   -.500");
    make_s(&not_scaled, 80, 5, date, " 999.900");
    make_s(&above_not_scaled, 80, 5, date, " 999.901");
    make_s(&minus_not_scaled, 80, 5, date, "-999.900");
}

static const char fifteen[] =
    "   1.000   2.000   3.000   4.000   5.000   6.000   7.000   8.000   9.000  10.000  11.000  12.000  13.000  14.000  15.000";

static void make_two_lines(void)
{
    make_s(&two_lines, 4, 16, date, fifteen);
    put_line(&two_lines, "  16.000");
    make_s(&last_of_two_bad, 4, 16, date, fifteen);
    put_line(&last_of_two_bad, "  16,000");
    make_s(&second_line_long, 4, 16, date, fifteen);
    put_line(&second_line_long, "  16.000x");
}

void make_texts(void)
{
    make_s(&s, 80, 5, date, value);
    make_twice(&twice, &s, &s);
    make_damaged_lines();
    make_line_ends();
    make_damaged_counts();
    make_fields();
    make_two_lines();
}
