#include "words.h"

#include <ctype.h>
#include <inttypes.h>
#include <stdio.h>
#include <string.h>

/* A line without its end; what has no room is read and left out, so that the rest of a long line is not taken for another. */
static bool read_line(char line[LINE_ROOM], bool *is_whole)
{
    size_t count = 0;
    int c = getchar();
    *is_whole = true;
    if (c == EOF) {
        return false;
    }
    for (; c != EOF && c != '\n'; c = getchar()) {
        if (count == LINE_ROOM - 1) {
            *is_whole = false;
        } else {
            line[count++] = (char)(c == '\0' ? '?' : c); /* a zero would hide what follows it */
        }
    }
    line[count] = '\0';
    return true;
}

static void split(struct words *w)
{
    static const char spaces[] = " \t\r\v\f";
    w->count = 0;
    for (char *word = strtok(w->line, spaces); word != NULL; word = strtok(NULL, spaces)) {
        if (w->count < MOST_WORDS) {
            w->word[w->count] = word;
        }
        w->count++;
    }
}

bool read_words(struct words *w)
{
    bool is_whole;
    if (!read_line(w->line, &is_whole)) {
        return false;
    }
    if (!is_whole) {
        printf("this line is longer than %d characters\n", LINE_ROOM - 1);
        w->line[0] = '\0';
    }
    split(w);
    return true;
}

void show_word(const char *word)
{
    putchar('\'');
    for (; *word != '\0'; word++) {
        putchar(isprint((unsigned char)*word) ? *word : '?'); /* nothing that moves the terminal's cursor */
    }
    putchar('\'');
}

void show_wrong(const char *word, const char *what, const char *expected)
{
    show_word(word);
    printf(" is no %s: expected %s\n", what, expected);
}

/* The value of a digit, or `base` where it is none. */
static unsigned digit_of(char c, unsigned base)
{
    static const char digits[] = "0123456789ABCDEF";
    const char *found = c == '\0' ? NULL : strchr(digits, toupper((unsigned char)c));
    unsigned value = found == NULL ? base : (unsigned)(found - digits);
    return value < base ? value : base;
}

static bool number_of(const char *word, unsigned base, uint64_t most, uint64_t *number)
{
    *number = 0;
    for (const char *c = word; *c != '\0'; c++) {
        unsigned digit = digit_of(*c, base);
        if (digit == base || digit > most || *number > (most - digit) / base) {
            return false;
        }
        *number = base * *number + digit;
    }
    return *word != '\0';
}

bool hexadecimal(const char *word, const char *what, uint64_t most, uint64_t *number)
{
    char expected[64];
    bool is_number = number_of(word, 16, most, number);
    if (!is_number) {
        snprintf(expected, sizeof expected, "0 to %" PRIX64 " in hexadecimal", most);
        show_wrong(word, what, expected);
    }
    return is_number;
}

bool decimal(const char *word, const char *what, uint64_t most, uint64_t *number)
{
    char expected[64];
    bool is_number = number_of(word, 10, most, number);
    if (!is_number) {
        snprintf(expected, sizeof expected, "0 to %" PRIu64 " in decimal", most);
        show_wrong(word, what, expected);
    }
    return is_number;
}

bool members(const char *word, uint16_t *set)
{
    *set = 0;
    if (strcmp(word, "none") == 0) {
        return true;
    }
    for (const char *c = word; *c != '\0'; c++) {
        unsigned digit = digit_of(*c, 10);
        uint16_t bit = (uint16_t)(1 << digit);
        if (digit == 10 || (*set & bit) != 0) {
            show_wrong(word, "set of members", "digits, each once, as 025, or none");
            return false;
        }
        *set |= bit;
    }
    return true;
}
