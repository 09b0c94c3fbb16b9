/* A file of vectors, read word by word: a blank or a line feed stands behind each. */
#ifndef WORDS_H
#define WORDS_H

#include "checks.h"

extern struct file expected;

void read_words(const char *name);
int more(void);         /* the file is not at its end */
int line_goes_on(void); /* the word that was read last did not end its line */
void skip_line(void);
int word_is(const char *word); /* it is the next one, and is then read */
uint32_t rules_told(uint32_t otherwise); /* `elements` or `entries`, if it is the next word, says what a count of group 40 counts */
uint32_t rules_named(size_t i); /* by `either-elements`, `strict-elements`, `either-entries` or `strict-entries`: one of their numbers */
void text_named(struct file *file, const char *folder); /* by its number: NNNNN.sao of the folder */
struct seambeacon_beside beside_told(size_t reply); /* two numbers, of which the second is an element */
int64_t number(void);
size_t size(void);
size_t hexadecimal(uint8_t *bytes, size_t most); /* `-` for none; how many there are */
size_t numbers(int64_t *list, size_t most);      /* how many follow, then these; how many there are */
size_t counts_given(uint16_t *counts, size_t most);

#endif
