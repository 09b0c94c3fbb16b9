#include "forms.h"

enum { F7, A120, A1, F8, I2, I3, I1, E11, E20, E8 };

/* R41. */
static const struct {
    uint8_t width, full, cells;
} forms[] = {
    [F7] = {7, 16, 1},
    [A120] = {120, 1, 120},
    [A1] = {1, 120, 1},
    [F8] = {8, 15, 1},
    [I2] = {2, 60, 1},
    [I3] = {3, 40, 1},
    [I1] = {1, 120, 1},
    [E11] = {11, 10, 2},
    [E20] = {20, 6, 2},
    [E8] = {8, 15, 2},
};

static const uint8_t form_of[60] = {
    F7, A120, A1, F8, I2, F7, /* groups 1 to 6 */
    F8, F8, I3, I1, F8,       /* 7 to 11, the O traces of F2, F1 and E */
    F8, F8, I3, I1, F8,
    F8, F8, I3, I1, F8,
    F8, I3, I1, F8, /* 22 to 25, their X traces */
    F8, I3, I1, F8,
    F8, I3, I1, F8,
    I3, I3, I3, E11, E11, E11, E20, I1, E11, /* 34 to 42 */
    F8, I3, I1, F8,                          /* 43 to 46, the O traces of Es and auroral E */
    F8, I3, I1, F8,
    F8, F8, E8, A1, A1, I1, E11, F8, F8, E8, /* 51 to 60 */
};

static size_t elements_of(size_t group, size_t count)
{
    if (group == 40 && (rules & SEAMBEACON_ENTRIES) != 0)
        return count == 0 ? 0 : 6 * (count - 1) + 1;
    return count;
}

size_t lines_of(size_t group, size_t count)
{
    size_t full = forms[form_of[group - 1]].full;
    return (elements_of(group, count) + full - 1) / full;
}

size_t cells_of(size_t group, size_t count)
{
    return elements_of(group, count) * forms[form_of[group - 1]].cells;
}

size_t bytes_of(size_t group, size_t count)
{
    return elements_of(group, count) * forms[form_of[group - 1]].width + 2 * lines_of(group, count);
}
