/* profile < TEXT: the profile of each record, up to the first that is not placed: a line with the record's place, then one for each height, with the
   height in km, the plasma frequency in MHz and the electron density in 1/cm3. A record is placed once, and its three groups are asked with it. */
#include <stdio.h>
#include "seambeacon.h"

static uint8_t text[65536];
static size_t length;
static int64_t panel[3][1998]; /* heights and frequencies in thousandths; of a density its digits and its exponent */

/* Groups 51, 52 and 53 of a record, which have equal counts if none of them is absent. How many points its profile has, 0 if one is absent or can't
   be read. */
static size_t read_profile(const struct seambeacon_record *record)
{
    struct seambeacon_beside beside;
    for (size_t i = 0; i < 3; i++)
        if (seambeacon_record_group(SEAMBEACON_USUAL, text, length, record, 51 + i, panel[i], 1998, &beside) != SEAMBEACON_DONE
            || beside.written == 0)
            return 0;
    return record->counts[50];
}

int main(void)
{
    struct seambeacon_record record;
    length = fread(text, 1, sizeof text, stdin);
    for (size_t at = 0; seambeacon_place(SEAMBEACON_USUAL, text, length, at, &record) == SEAMBEACON_DONE; at = record.beside.next) {
        size_t points = read_profile(&record);
        printf("record at %zu: %zu points\n", at, points);
        for (size_t i = 0; i < points; i++)
            printf("%.3f %.3f %.3fE%+d\n", (double)panel[0][i] / 1000, (double)panel[1][i] / 1000, (double)panel[2][2 * i] / 1000,
                   (int)panel[2][2 * i + 1]);
    }
    return 0;
}
