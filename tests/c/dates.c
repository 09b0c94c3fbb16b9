/* R144 to R148: every day from 1 to 31 of every month from 1 to 12, those that a month doesn't have too, with the day of the year that it would
   have, with one less and with one more. What is due comes from a calendar that goes through the year day after day. */
#include "dates.h"
#include "questions.h"
#include "texts.h"

/* R380: in S, group 3 begins at 274, and its cells behind the four of group 1; the year is at position 3. */
enum { DATE = 274, DATE_CELL = 4, LETTERS = 19, YEAR = 2 };

static const struct {
    unsigned year, february;
} years[] = {{1900, 28}, {2000, 29}, {2004, 29}, {2006, 28}, {2100, 28}, {0, 29}, {9999, 28}};

/* ---- The calendar: the number in its year of each day that there is, else 0; and of each month's first day. */

static unsigned numbers[13][32], firsts[13];

static unsigned last_of(unsigned month, unsigned february)
{
    switch (month) {
    case 2:
        return february;
    case 4:
    case 6:
    case 9:
    case 11:
        return 30;
    default:
        return 31;
    }
}

static void make_calendar(unsigned february)
{
    unsigned month = 1, day = 1, number = 1;
    memset(numbers, 0, sizeof numbers);
    while (month <= 12) {
        if (day == 1)
            firsts[month] = number;
        numbers[month][day] = number++;
        if (day == last_of(month, february)) {
            month++;
            day = 1;
        } else {
            day++;
        }
    }
    need("a year has 365 days, or 366", number == 366 + (february == 29));
}

/* ---- A record with a date. */

static struct text dated;
static int64_t cells[24];

/* So many digits from a letter of group 3 on. */
static void put_number(size_t letter, size_t digits, unsigned number)
{
    while (digits-- > 0) {
        dated.bytes[DATE + letter + digits] = (uint8_t)('0' + number % 10);
        number /= 10;
    }
}

static void make_dated(unsigned year, unsigned number, unsigned month, unsigned day)
{
    static const int64_t position[] = {1200, 67000, -23500, 143000};
    dated = s;
    put_number(YEAR, 4, year);
    put_number(YEAR + 4, 3, number);
    put_number(YEAR + 7, 2, month);
    put_number(YEAR + 9, 2, day);
    memcpy(cells, position, sizeof position);
    for (size_t i = 0; i < LETTERS; i++)
        cells[DATE_CELL + i] = dated.bytes[DATE + i];
    cells[DATE_CELL + LETTERS] = 7250;
}

static void ask_date(unsigned year, unsigned number, unsigned month, unsigned day)
{
    static const struct seambeacon_beside wrong = {.position = 7};
    int right = numbers[month][day] != 0 && numbers[month][day] == number;
    of_case("a date, as YYYYDDDMMDD", ((year * 1000ul + number) * 100 + month) * 100 + day);
    make_dated(year, number, month, day);
    ask_read(dated.bytes, dated.length, 0, 3, LETTERS, right ? 0 : 10, right ? (struct seambeacon_beside){.written = LETTERS} : wrong,
             cells + DATE_CELL);
    ask_write(s.counts, 80, cells, 24, dated.length, right ? 0 : 10, right ? (struct seambeacon_beside){.written = dated.length} : wrong,
              dated.bytes);
}

void check_dates(void)
{
    under(0);
    for (size_t i = 0; i < sizeof years / sizeof years[0]; i++) {
        of_case("the calendar of a year", years[i].year);
        make_calendar(years[i].february);
        for (unsigned month = 1; month <= 12; month++) {
            for (unsigned day = 1; day <= 31; day++) {
                unsigned number = firsts[month] - 1 + day;
                ask_date(years[i].year, number - 1, month, day);
                ask_date(years[i].year, number, month, day);
                ask_date(years[i].year, number + 1, month, day);
            }
        }
    }
}
