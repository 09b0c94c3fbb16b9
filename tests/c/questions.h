#ifndef QUESTIONS_H
#define QUESTIONS_H

#include "checks.h"

/* R365: numbers that stand for the usual rules, for the strict line end, for entries, and for both. */
enum { USUAL, STRICT, ENTRIES, BOTH, RULES, FLAGS = 4 };
extern const uint32_t flags[RULES][FLAGS];

/* Where counts and cells are lent and no text, several numbers ask for the same as the rules do: the line end makes no difference, nor does a flag
   without a meaning, nor what a count of group 40 counts where it is 0 or 1 (R13). One of them; counts that are not 80 are refused by all. */
enum { ALIKE = 4 };
uint32_t alike(uint32_t asked, const uint16_t counts[80], size_t i);

/* Of the numbers beside a reply (R200 to R214) the one that is no element: what was written, a group, a line or a position; NULL if it has none. */
size_t *first_beside(struct seambeacon_beside *beside, size_t reply);

/* Asks the question and checks the reply, the numbers beside it and every byte of what is lent. A refusal leaves all of it as it was; the bytes and
   the cells are those that are due under 0. */
void ask_place(const uint8_t *text, size_t length, size_t at, size_t reply, struct seambeacon_beside beside, const uint16_t *counts);
void ask_read(const uint8_t *text, size_t length, size_t at, size_t group, size_t room, size_t reply, struct seambeacon_beside beside,
              const int64_t *cells);
void ask_whole(const uint8_t *text, size_t length, size_t at, size_t room, size_t reply, struct seambeacon_beside beside, size_t unread,
               const int64_t *cells);
void ask_first(const uint8_t *text, size_t length, const struct seambeacon_date *from, size_t reply, struct seambeacon_beside beside, size_t place,
               size_t passed);
void ask_stretch(const uint8_t *text, size_t length, size_t at, size_t reply, size_t next);
void ask_lines(const uint8_t *text, size_t length, size_t at, size_t group, size_t reply, struct seambeacon_beside beside,
               struct seambeacon_part part);
void ask_characteristic(const uint8_t *text, size_t length, size_t at, size_t number, size_t reply, struct seambeacon_beside beside,
                        enum seambeacon_kind kind, int64_t value);
void ask_write(const uint16_t *counts, size_t many, const int64_t *cells, size_t cell_count, size_t room, size_t reply,
               struct seambeacon_beside beside, const uint8_t *bytes);
void ask_list(const uint8_t *text, size_t length, size_t room, size_t reply, struct seambeacon_beside beside, const uint8_t *bytes);
void ask_rewrite(const uint8_t *text, size_t length, size_t at, size_t cell_room, size_t room, size_t reply, struct seambeacon_beside beside,
                 size_t unread, const uint8_t *bytes, const int64_t *cells, size_t count);

/* Into a table or an output one short (11), exact and longer; a whole record into no cell too. */
void ask_read_all(const uint8_t *text, size_t length, size_t at, size_t group, const int64_t *cells, size_t count);
void ask_whole_all(const uint8_t *text, size_t length, size_t at, const int64_t *cells, size_t count);
void ask_write_all(const uint16_t *counts, const int64_t *cells, size_t cell_count, const uint8_t *bytes, size_t count);
void ask_list_all(const uint8_t *text, size_t length, const uint8_t *bytes, size_t count);

#endif
