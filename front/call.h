/* A bench, the calls on it, and what the last of them has done. */
#ifndef CALL_H
#define CALL_H

#include <stdbool.h>
#include <stddef.h>
#include <stdint.h>

#include "nci_bench.h"
#include "text.h"

/* The calls of the sheet, then what is the front end's own. */
enum call { FRESH, POWER, COMMAND, SEND, PUSH, DOWN, CONSUME, CREDIT, AIR, REPLY, UP, REPORT, READ, RUN,
            AGAIN, OCTETS, MORE, STATE, BRIEF, FULL, CARD, HELP, QUIT };

/* The name of a call on the sheet: of FRESH to RUN. */
const char *call_name(enum call call);

/* A bench, and the buffers that its calls are lent. */
struct bench {
    uint8_t area[NCI_AREA_SIZE];
    uint8_t message[NCI_BUFFER_SIZE];
    uint8_t first[NCI_BUFFER_SIZE]; /* the packet that down or up took */
    size_t first_length;
};

/* A packet or a message, kept after the call. */
struct kept {
    size_t length;
    uint8_t at[NCI_BUFFER_SIZE];
};

/* What the word of run does not tell. */
struct press {
    bool at_host;  /* the message was handed out there; else at the controller */
    unsigned conn; /* the connection of that message */
    bool at_rest;  /* no move is left */
};

/* A call that was made, and all that is known of it. */
struct told {
    enum call call;
    struct octets arg;
    uint64_t word;
    struct kept taken;               /* the packet that down or up took; length 0 for none */
    struct kept put[NCI_WIRE_SLOTS]; /* the packets put on a wire, in their order; of run none is told */
    unsigned puts;
    struct kept message;             /* handed out, if the word says so */
    unsigned owed;                   /* of consume: credits owed on its connection afterwards */
    struct press press;              /* of run */
    struct kept state;               /* of the bench afterwards, as nci_state has it */
};

static inline bool was_taken(const struct told *t) { return nci_word_answer(t->word) == NCI_TAKEN; }

/* Keeps the first packet of a wire, which down or up is about to take. */
void keep_first(struct bench *b, unsigned wire);

/* Makes the call of t->arg, which has as many octets as the call asks for, and keeps what it did. */
void make_call(struct bench *b, struct told *t, enum call call);

#endif
