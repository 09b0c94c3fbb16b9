/* Record S (R380), and damaged texts made of it. */
#ifndef TEXTS_H
#define TEXTS_H

#include "checks.h"

struct text {
    size_t length;
    uint16_t counts[80]; /* of the record that it begins with */
    uint8_t bytes[2048];
};

extern struct text s, twice, twice_comma, nothing;
extern struct text cut, blanks, too_many_blanks, comma, second_bad;
extern struct text no_returns, no_index_return, no_data_returns, blank_for_return, two_in_index, two_in_data, s_no_returns;
extern struct text broken, s_broken, too_few_first, many_messages, letters, other_release, vacant, last_vacant, minus_zero, no_digit;
extern struct text wrong_day, wrong_month, no_year, no_reading, below_zero, not_scaled, above_not_scaled, minus_not_scaled;
extern struct text two_lines, last_of_two_bad, second_line_long;

extern const int64_t all_of_s[24]; /* S's cells, in group order */

void make_texts(void);

#endif
