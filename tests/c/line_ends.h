/* Line ends, under the usual rules and under the strict one. */
#ifndef LINE_ENDS_H
#define LINE_ENDS_H

void check_line_ends(void);

#endif
