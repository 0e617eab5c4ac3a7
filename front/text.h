/* A line as it is typed: words, numbers, octets in hex. */
#ifndef TEXT_H
#define TEXT_H

#include <stdbool.h>
#include <stddef.h>
#include <stdint.h>

enum {
    LINE_MAX_READ = 4096,           /* characters of a key's line before its line feed */
    OCTETS_MAX = LINE_MAX_READ + 16 /* arguments of a key, and what the key adds to them */
};

/* Characters without an end mark: a part of a line. */
struct text {
    const char *at;
    size_t length;
};

struct octets {
    size_t length;
    uint8_t at[OCTETS_MAX];
};

/* Takes the next word off a text; it is empty at the end. */
struct text next_word(struct text *rest);

/* Takes a text off the front of another; false if it is not there. */
bool take_text(struct text *rest, const char *front);

/* Whether a word is a name; capitals and small letters are the same. */
bool is_named(struct text word, const char *name);

/* The value of a hex digit, or -1. */
int digit(char c);

/* The number of a word of one or two decimal digits, or -1. */
int read_number(struct text word);

/* Adds an octet; one that has no room is left out. */
void add(struct octets *to, unsigned octet);

/* Adds the octets of a word: pairs of hex digits, or one digit alone; false for another word. */
bool add_word(struct octets *to, struct text word);

/* Reads all words of a text as octets. */
bool read_octets(struct octets *to, struct text rest);

#endif
