#ifndef DATES_H
#define DATES_H

/* Every month and day of seven years, read in record S and written. */
void check_dates(void);

#endif
