/* follow BYTES: tells each record of a text that is still being written, once, as soon as the whole of it is there.

   The text comes on standard input, as from `tail -c +1 -f DAY`, and is taken in pieces of at most BYTES bytes. A record's line has its number from
   1, its place, its next place, the reply (0, or 7 where its counts break a rule) and how many bytes had come when it was told. All bytes are kept,
   and the library is asked about one place only, where the walk stands: what was told before can't become anything else (R256, R257).

   The last line says where the walk stands: waiting there, if the input ended before the next record was whole, or stopped for good, if the next
   record's index can't be one whatever comes behind it. It ends with 0 where it waits, with 1 where it has stopped for good; without such a line
   with 1 where the input can't be read or kept, or the output can't be written, and with 2 if it was started wrongly. */
#define _XOPEN_SOURCE 700
#include <stdio.h>
#include <stdlib.h>
#include <unistd.h>
#include "seambeacon.h"

static uint8_t *text; /* what has come */
static size_t length, room;
static size_t at, records; /* where the walk stands, behind so many records */

/* ---- The walk, as far as it goes by now. */

/* 1, 2 and 3 say that something is missing, which may come; every other reply is the last word about its place. */
static int may_change(enum seambeacon_reply reply)
{
    return reply == SEAMBEACON_END || reply == SEAMBEACON_BEYOND || reply == SEAMBEACON_TOO_FEW_LINES;
}

/* Goes on from where the walk stands, over every record that is whole; answers with the reply at which it stands then. */
static enum seambeacon_reply walk_on(void)
{
    struct seambeacon_record record;
    for (;;) {
        enum seambeacon_reply reply = seambeacon_place(SEAMBEACON_USUAL, text, length, at, &record);
        if (reply != SEAMBEACON_DONE && reply != SEAMBEACON_BROKEN_RULE)
            return reply;
        printf("record %zu: %zu to %zu, reply %d, after %zu bytes\n", ++records, at, record.beside.next, (int)reply, length);
        at = record.beside.next;
    }
}

/* ---- The text. */

/* The next bytes, at most so many; 0 where the input has ended, -1 where it can't be read or kept. */
static int take_piece(size_t most)
{
    ssize_t got;
    if (room - length < most) {
        uint8_t *larger = realloc(text, room = 2 * room + most);
        if (larger == NULL)
            return -1;
        text = larger;
    }
    got = read(STDIN_FILENO, text + length, most);
    if (got > 0)
        length += (size_t)got;
    return got > 0 ? 1 : (int)got;
}

/* A number of bytes from 1 to 1,000,000, in digits alone; 0 if it is none. */
static size_t read_most(const char *word)
{
    size_t number = 0;
    for (; *word >= '0' && *word <= '9' && number <= 1000000; word++)
        number = 10 * number + (size_t)(*word - '0');
    return *word == '\0' && number <= 1000000 ? number : 0;
}

/* What the system refused, on standard error. */
static int failed(void)
{
    perror("follow");
    return 1;
}

int main(int count, char **words)
{
    size_t most = count == 2 ? read_most(words[1]) : 0;
    enum seambeacon_reply reply = SEAMBEACON_END;
    int taken = 1;
    if (most == 0) {
        fprintf(stderr, "usage: follow BYTES < TEXT (at most so many bytes at a time, 1 to 1000000)\n");
        return 2;
    }
    while (may_change(reply) && (taken = take_piece(most)) > 0) {
        reply = walk_on();
        if (fflush(stdout) != 0)
            return failed();
    }
    if (taken < 0)
        return failed();
    printf("%s at %zu, reply %d, after %zu bytes\n", may_change(reply) ? "waiting" : "stopped for good", at, (int)reply, length);
    free(text);
    return fflush(stdout) != 0 ? failed() : !may_change(reply);
}
