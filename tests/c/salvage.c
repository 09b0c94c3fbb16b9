/* What is due stands in files: what the program `salvage` prints of the same text, or what another implementation does. */
#include "salvage.h"
#include "questions.h"
#include "words.h"

static struct file text, copy;

/* The next bytes of the copy are those of the text from a place up to another; how many are copied then. */
static size_t check_copied(size_t at, size_t next, size_t before)
{
    size_t length = next - at;
    check("a record that is placed is copied", length <= copy.length - before && memcmp(copy.bytes + before, text.bytes + at, length) == 0);
    return before + length;
}

/* The next stretch of the file begins here; where it ends. From its last byte on it ends there too. */
static size_t check_left_out(size_t at)
{
    size_t place = size(), end = place + size();
    check("a stretch begins where the walk stops", place == at && end > at && end <= text.length);
    ask_stretch(text.bytes, text.length, at, 0, end);
    ask_stretch(text.bytes, text.length, end - 1, 0, end);
    return end;
}

void check_pieces(const char *name, const char *copied, const char *stretches, size_t *records, size_t *left_out)
{
    struct seambeacon_record record;
    size_t at = 0, next, all = 0;
    read_file(&text, name);
    read_file(&copy, copied);
    read_words(stretches);
    for (; seambeacon_place(rules, text.bytes, text.length, at, &record) != SEAMBEACON_END; at = next) {
        int placed = record.reply == SEAMBEACON_DONE || record.reply == SEAMBEACON_BROKEN_RULE;
        of_case(name, at);
        next = placed ? record.beside.next : check_left_out(at);
        if (placed)
            all = check_copied(at, next, all);
        ++*(placed ? records : left_out);
        if (next <= at || next > text.length)
            return;
    }
    check("nothing else is copied", all == copy.length);
    check("nothing else is left out", !more());
}
