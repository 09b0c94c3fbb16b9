/* Prints foF2 of each record of the example day from noon on, as fof2.c does of the whole day: `noon < DAY`. Ends with exit status 1 where there is
   no such record. */
#include <stdio.h>

#include "seambeacon.h"

static uint8_t text[65536];
static size_t length;

static void plot(const struct seambeacon_record *record)
{
    enum seambeacon_kind kind;
    int64_t fof2;
    struct seambeacon_beside beside;
    if (seambeacon_record_characteristic(SEAMBEACON_USUAL, text, length, record, 1, &kind, &fof2, &beside) == SEAMBEACON_DONE
        && kind == SEAMBEACON_VALUE)
        printf("%.3f\n", (double)fof2 / 1000);
}

int main(void)
{
    size_t at, passed;
    struct seambeacon_record record;
    struct seambeacon_beside beside;
    length = fread(text, 1, sizeof text, stdin);

    const struct seambeacon_date noon = {2004, 60, 2, 29, 12, 0, 0}; /* 29 February is day 60 */
    if (seambeacon_first_from(SEAMBEACON_USUAL, text, length, &noon, &at, &passed, &beside) != SEAMBEACON_DONE)
        return 1;
    for (; seambeacon_place(SEAMBEACON_USUAL, text, length, at, &record) == SEAMBEACON_DONE; at = record.beside.next)
        plot(&record);
}
