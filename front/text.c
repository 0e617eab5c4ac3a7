#include "text.h"

#include <string.h>

static bool blank(char c) { return c == ' ' || c == '\t' || c == '\r'; }

/* How many characters at the front of a text are blank, or are not. */
static size_t span(struct text text, bool blanks) {
    size_t n = 0;
    while (n < text.length && blank(text.at[n]) == blanks)
        n++;
    return n;
}

static void skip(struct text *text, size_t n) {
    text->at += n;
    text->length -= n;
}

struct text next_word(struct text *rest) {
    struct text word;
    skip(rest, span(*rest, true));
    word = *rest;
    word.length = span(word, false);
    skip(rest, word.length);
    return word;
}

bool take_text(struct text *rest, const char *front) {
    size_t n = strlen(front);
    if (rest->length < n || memcmp(rest->at, front, n) != 0)
        return false;
    skip(rest, n);
    return true;
}

static char small(char c) { return c >= 'A' && c <= 'Z' ? (char)(c - 'A' + 'a') : c; }

bool is_named(struct text word, const char *name) {
    size_t i = 0;
    while (i < word.length && name[i] != '\0' && small(word.at[i]) == small(name[i]))
        i++;
    return i == word.length && name[i] == '\0';
}

int digit(char c) {
    if (c >= '0' && c <= '9')
        return c - '0';
    if (c >= 'A' && c <= 'F')
        return c - 'A' + 10;
    if (c >= 'a' && c <= 'f')
        return c - 'a' + 10;
    return -1;
}

int read_number(struct text word) {
    int number = 0;
    if (word.length < 1 || word.length > 2)
        return -1;
    for (size_t i = 0; i < word.length; i++) {
        if (word.at[i] < '0' || word.at[i] > '9')
            return -1;
        number = number * 10 + (word.at[i] - '0');
    }
    return number;
}

void add(struct octets *to, unsigned octet) {
    if (to->length < OCTETS_MAX)
        to->at[to->length++] = (uint8_t)octet;
}

bool add_word(struct octets *to, struct text word) {
    bool alone = word.length == 1;
    if (!alone && word.length % 2 == 1)
        return false;
    for (size_t i = 0; i < word.length; i += 2) {
        int high = alone ? 0 : digit(word.at[i]);
        int low = digit(word.at[alone ? i : i + 1]);
        if (high < 0 || low < 0)
            return false;
        add(to, (unsigned)(high * 16 + low));
    }
    return true;
}

bool read_octets(struct octets *to, struct text rest) {
    to->length = 0;
    for (struct text word = next_word(&rest); word.length > 0; word = next_word(&rest))
        if (!add_word(to, word))
            return false;
    return true;
}
