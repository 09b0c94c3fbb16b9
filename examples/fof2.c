#include <stdio.h>
#include "seambeacon.h"
int main(void) {
    static uint8_t text[65536];
    size_t length = fread(text, 1, sizeof text, stdin), at = 0; struct seambeacon_record record;
    enum seambeacon_kind kind; int64_t fof2; struct seambeacon_beside beside;
    for (; seambeacon_place(SEAMBEACON_USUAL, text, length, at, &record) == SEAMBEACON_DONE; at = record.beside.next)
        if (seambeacon_record_characteristic(SEAMBEACON_USUAL, text, length, &record, 1, &kind, &fof2, &beside) == SEAMBEACON_DONE
            && kind == SEAMBEACON_VALUE) printf("%.3f\n", (double)fof2 / 1000);
}
