#ifndef RECORD_S_H
#define RECORD_S_H

/* Every question on record S, S twice and damaged texts. */
void check_record_s(void);

#endif
