#include "checks.h"

/* ---- Checks. */

static const char *case_name = "";
static size_t case_number, checked, failed;
uint32_t rules;

void of_case(const char *name, size_t number)
{
    case_name = name;
    case_number = number;
}

void under(uint32_t flags)
{
    rules = flags;
}

void need(const char *what, int so)
{
    if (so)
        return;
    failed++;
    if (failed <= 20)
        printf("FAILED: %s, %lu, rules %lu: %s\n", case_name, (unsigned long)case_number, (unsigned long)rules, what);
}

void check(const char *what, int right)
{
    checked++;
    need(what, right);
}

int checks_ended(void)
{
    printf("%lu checks, %lu failed\n", (unsigned long)checked, (unsigned long)failed);
    return failed != 0;
}

/* ---- Lent memory of a fixed size. */

struct lent lent, due;

void fresh(void)
{
    memset(&lent, 0xA5, sizeof lent);
    memset(&due, 0xA5, sizeof due);
}

void answered(const char *question, enum seambeacon_reply reply, size_t reply_due)
{
    check(question, reply == reply_due && memcmp(&lent, &due, sizeof lent) == 0);
}

/* ---- Lent memory of any size. */

/* Counts of 999 in all groups, whatever rule they break, ask for 574,129 canonical bytes under entries, and for fewer cells. */
enum { GUARD = 16, MOST = 575000 };

static uint8_t bytes_space[GUARD + MOST + GUARD];
static int64_t cells_space[GUARD + MOST + GUARD];
static size_t bytes_lent, cells_lent;

/* What stands in the space beforehand: nothing that the library writes. */
static uint8_t byte_before(size_t i)
{
    return (uint8_t)(128 + i % 127);
}

static int64_t cell_before(size_t i)
{
    return -5000000000000000000 - (int64_t)i;
}

uint8_t *lend_bytes(size_t length)
{
    need("so many bytes can be lent", length <= MOST);
    bytes_lent = length;
    for (size_t i = 0; i < length + 2 * GUARD; i++)
        bytes_space[i] = byte_before(i);
    return bytes_space + GUARD;
}

void bytes_due(const char *question, const uint8_t *bytes, size_t count)
{
    int right = count <= bytes_lent;
    for (size_t i = 0; right && i < bytes_lent + 2 * GUARD; i++)
        right = bytes_space[i] == (i >= GUARD && i < GUARD + count ? bytes[i - GUARD] : byte_before(i));
    check(question, right);
}

int64_t *lend_cells(size_t length)
{
    need("so many cells can be lent", length <= MOST);
    cells_lent = length;
    for (size_t i = 0; i < length + 2 * GUARD; i++)
        cells_space[i] = cell_before(i);
    return cells_space + GUARD;
}

void cells_due(const char *question, const int64_t *cells, size_t count)
{
    int right = count <= cells_lent;
    for (size_t i = 0; right && i < cells_lent + 2 * GUARD; i++)
        right = cells_space[i] == (i >= GUARD && i < GUARD + count ? cells[i - GUARD] : cell_before(i));
    check(question, right);
}

/* ---- Files. */

void read_file(struct file *file, const char *name)
{
    int from = open(name, 0);
    long got = 1;
    file->length = 0;
    need("the file can be read", from >= 0);
    while (from >= 0 && got > 0 && file->length < sizeof file->bytes) {
        got = read(from, file->bytes + file->length, sizeof file->bytes - file->length);
        if (got > 0)
            file->length += (size_t)got;
    }
    need("the file is read to its end", from >= 0 && got == 0);
    if (from >= 0)
        close(from);
}
