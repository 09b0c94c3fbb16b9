#ifndef ENTRIES_H
#define ENTRIES_H

/* Group 40 under either rule for its count, up to the greatest count. */
void check_entries(void);

#endif
