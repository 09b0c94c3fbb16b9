/* What a count of a group, 1 to 60, stands for under the rules (R13, R41 to R46): its lines, its cells, and the bytes of its canonical lines
   (R110). */
#ifndef FORMS_H
#define FORMS_H

#include "checks.h"

size_t lines_of(size_t group, size_t count);
size_t cells_of(size_t group, size_t count);
size_t bytes_of(size_t group, size_t count);

#endif
