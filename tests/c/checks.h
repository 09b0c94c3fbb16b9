/* What the tests of the library in C share: counted checks, and lent memory of which every byte is compared afterwards. */
#ifndef CHECKS_H
#define CHECKS_H

#include "seambeacon.h"

/* Of the C library; the kit's compiler has no headers of it. */
int printf(const char *form, ...);
int sprintf(char *to, const char *form, ...);
int open(const char *path, int flags, ...);
long read(int file, void *bytes, size_t length);
int close(int file);
void *memset(void *bytes, int byte, size_t length);
void *memcpy(void *to, const void *from, size_t length);
int memcmp(const void *a, const void *b, size_t length);
size_t strlen(const char *string);
int strcmp(const char *a, const char *b);

/* ---- Checks. Each is counted, and one that fails is told with the case that it belongs to. What a test needs of its own files is told in the
   same way where it is not so, and is no check. */

void of_case(const char *name, size_t number);
void under(uint32_t flags); /* the questions that follow are asked with this as their rules */
void check(const char *what, int right);
void need(const char *what, int so);
int checks_ended(void); /* prints how many there were; 0 if none failed */

extern uint32_t rules; /* as `under` was told */

/* ---- Lent memory of a fixed size. `fresh` gives `lent` and `due` the same bytes; a test lends parts of `lent`, sets in `due` what is due,
   and `answered` compares the reply and all of both, also what stands between the parts and was not lent. */

struct lent {
    size_t before_beside;
    struct seambeacon_beside beside;
    size_t before_part;
    struct seambeacon_part part;
    size_t before_kind;
    enum seambeacon_kind kind;
    size_t before_value;
    int64_t value;
    size_t before_unread;
    size_t unread;
    size_t before_used;
    size_t used;
    size_t before_open;
    size_t open;
    size_t before_place;
    size_t place;
    size_t before_passed;
    size_t passed;
    size_t before_record;
    struct seambeacon_record record;
    size_t behind;
};

extern struct lent lent, due;

void fresh(void);
void answered(const char *question, enum seambeacon_reply reply, size_t reply_due);

/* ---- Lent memory of any size, between guards: bytes and cells. Afterwards the first ones are as due, and all others as they were. */

uint8_t *lend_bytes(size_t length);
void bytes_due(const char *question, const uint8_t *bytes, size_t count);
int64_t *lend_cells(size_t length);
void cells_due(const char *question, const int64_t *cells, size_t count);

/* ---- Files. */

struct file {
    size_t length;
    uint8_t bytes[1 << 20];
};

void read_file(struct file *file, const char *name);

#endif
