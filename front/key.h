/* The keys: what is typed, which call it stands for, how it is told. */
#ifndef KEY_H
#define KEY_H

#include "call.h"

/* Groups of keys, for help in one breath. */
enum group { COMMANDS, MOVES, EVENTS, BENCH, SPEECH, GROUPS };

/* What is typed behind a key: octets as they are; or with their count before them modes, each of
 * which frequency 01 joins, or IDs of configuration parameters, or these and their values. */
enum form { PLAIN, WITH_FREQUENCY, IDS, IDS_AND_VALUES };

/* A few octets that a key gives by itself. */
struct few {
    uint8_t length;
    uint8_t at[5];
};

/* A key is a call with some octets given: front, then what is typed, or instead where
 * nothing is typed, then back. Of IDs as many may be typed as one likes. */
struct key {
    const char *name, *help;  /* help: how it is typed, and what it does */
    const char *typed, *does; /* the same in brief */
    enum group group;
    enum call call;
    struct few front, instead, back;
    unsigned least, most; /* octets typed */
    unsigned longer;      /* or so many, where there is another form */
    enum form form;
};

/* The profile of a bench for which none is typed, as the paper sheet's. */
#define FIRST_PROFILE {0x20, 0x04, 0x02, 0x04, 0x01}

/* The keys in the order of help, from 0 on; NULL past the last. */
const struct key *key_at(size_t i);

/* The key of a name, or NULL. */
const struct key *key_named(struct text word);

/* The octets of a key's call, or false for some that it does not take. */
bool read_arguments(struct octets *arg, const struct key *key, struct text rest);

#endif
