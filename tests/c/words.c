#include "questions.h"
#include "words.h"

struct file expected;
static size_t read_to; /* how far it has been read */

void read_words(const char *name)
{
    read_file(&expected, name);
    read_to = 0;
}

int more(void)
{
    return read_to < expected.length;
}

static int word_goes_on(void)
{
    return more() && expected.bytes[read_to] > ' ';
}

int line_goes_on(void)
{
    return read_to > 0 && expected.bytes[read_to - 1] != '\n' && more();
}

void skip_line(void)
{
    while (line_goes_on())
        read_to++;
}

int word_is(const char *word)
{
    size_t n = strlen(word);
    if (expected.length - read_to <= n || memcmp(expected.bytes + read_to, word, n) != 0 || expected.bytes[read_to + n] > ' ')
        return 0;
    read_to += n + 1;
    return 1;
}

uint32_t rules_told(uint32_t otherwise)
{
    if (word_is("elements"))
        return otherwise & ~(uint32_t)SEAMBEACON_ENTRIES;
    return word_is("entries") ? otherwise | SEAMBEACON_ENTRIES : otherwise;
}

int64_t number(void)
{
    int minus = more() && expected.bytes[read_to] == '-';
    uint64_t size = 0;
    read_to += (size_t)minus;
    need("a number stands here", word_goes_on());
    while (word_goes_on())
        size = size * 10 + (uint64_t)(expected.bytes[read_to++] - '0');
    read_to++;
    return (int64_t)(minus ? 0 - size : size);
}

size_t size(void)
{
    return (size_t)number();
}

static unsigned digit(void)
{
    uint8_t byte = expected.bytes[read_to++];
    return byte < 'a' ? byte - '0' : byte - 'a' + 10u;
}

size_t hexadecimal(uint8_t *bytes, size_t most)
{
    size_t n = 0;
    if (word_goes_on() && expected.bytes[read_to] == '-')
        read_to++;
    for (; word_goes_on() && n < most; n++) {
        unsigned high = digit();
        bytes[n] = (uint8_t)(high * 16 + digit());
    }
    need("so many bytes", !word_goes_on());
    read_to++;
    return n;
}

static size_t at_most(size_t many, size_t most)
{
    need("so many numbers", many <= most);
    return many <= most ? many : most;
}

size_t numbers(int64_t *list, size_t most)
{
    size_t many = at_most(size(), most);
    for (size_t i = 0; i < many; i++)
        list[i] = number();
    return many;
}

size_t counts_given(uint16_t *counts, size_t most)
{
    size_t many = at_most(size(), most);
    for (size_t i = 0; i < many; i++)
        counts[i] = (uint16_t)number();
    return many;
}

/* ---- What several words say together. */

uint32_t rules_named(size_t i)
{
    static const char *const names[RULES] = {
        [USUAL] = "either-elements", [STRICT] = "strict-elements", [ENTRIES] = "either-entries", [BOTH] = "strict-entries"};
    for (size_t which = 0; which < RULES; which++)
        if (word_is(names[which]))
            return flags[which][i % FLAGS];
    need("a name of rules", 0);
    return SEAMBEACON_USUAL;
}

void text_named(struct file *file, const char *folder)
{
    static char name[4096];
    need("the folder's name is not too long", strlen(folder) < sizeof name - 40);
    if (strlen(folder) < sizeof name - 40)
        sprintf(name, "%s/%05lu.sao", folder, (unsigned long)size());
    read_file(file, name);
}

struct seambeacon_beside beside_told(size_t reply)
{
    struct seambeacon_beside beside = {0};
    size_t *named = first_beside(&beside, reply), first = size();
    if (named != NULL)
        *named = first;
    else
        need("no number beside this reply", first == 0);
    beside.element = size();
    return beside;
}
