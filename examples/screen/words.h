/* Lines from the keyboard, their words, and numbers that are read strictly: the whole word, within its range. */
#ifndef SCREEN_WORDS_H
#define SCREEN_WORDS_H

#include <stdbool.h>
#include <stdint.h>

enum { LINE_ROOM = 256, MOST_WORDS = 8 };

struct words {
    char line[LINE_ROOM];
    const char *word[MOST_WORDS];
    unsigned count; /* of all words of the line, of which the first MOST_WORDS are kept */
};

/* The next line and its words; false where the input ends. A line that is too long is said, and has no words. */
bool read_words(struct words *w);

/* A word in quotes. */
void show_word(const char *word);

/* What a word is not, and what was expected instead. */
void show_wrong(const char *word, const char *what, const char *expected);

/* A number from 0 to `most`; where the word is none, that is said and the result is false. */
bool hexadecimal(const char *word, const char *what, uint64_t most, uint64_t *number);
bool decimal(const char *word, const char *what, uint64_t most, uint64_t *number);

/* Members of a bus, each a digit, as a set with a bit for each: 025, or none. */
bool members(const char *word, uint16_t *set);

#endif
