#include "call.h"

#include <string.h>

const char *call_name(enum call call) {
    static const char *const names[] = {"fresh",  "power", "command", "send", "push",   "down", "consume",
                                        "credit", "air",   "reply",   "up",   "report", "read", "run"};
    return names[call];
}

/* ---- packets on the wires */

/* Copies a packet of a wire, counted from the end, to a buffer, and gives its length; 0 for
 * one that is not there. */
static size_t copy_packet(const struct bench *b, uint8_t *out, unsigned wire, unsigned back) {
    uint64_t word = nci_packet(b->area, sizeof b->area, out, NCI_BUFFER_SIZE, (uint8_t)wire, (uint8_t)back);
    return nci_word_answer(word) == NCI_TAKEN ? nci_word_length(word) : 0;
}

void keep_first(struct bench *b, unsigned wire) {
    unsigned back = NCI_WIRE_SLOTS;
    b->first_length = 0;
    while (b->first_length == 0 && back > 0)
        b->first_length = copy_packet(b, b->first, wire, --back);
}

/* ---- the calls */

#define LENT(b) (b)->area, sizeof (b)->area, (b)->message, sizeof (b)->message

static uint64_t make(struct bench *b, enum call call, const struct octets *arg) {
    const uint8_t *a = arg->at;
    size_t n = arg->length;
    switch (call) {
    case FRESH: return nci_fresh(LENT(b), a, n);
    case POWER: return nci_power(LENT(b));
    case COMMAND: return nci_command(LENT(b), a[0], a[1], a + 2, n - 2);
    case SEND: return nci_send(LENT(b), a[0], a + 1, n - 1);
    case PUSH: return nci_push(LENT(b), a[0]);
    case DOWN: keep_first(b, NCI_WIRE_DOWN); return nci_down(LENT(b));
    case CONSUME: return nci_consume(LENT(b), a[0]);
    case CREDIT: return nci_credit(LENT(b));
    case AIR: return nci_air(LENT(b), a, n);
    case REPLY: return nci_reply(LENT(b));
    case UP: keep_first(b, NCI_WIRE_UP); return nci_up(LENT(b));
    case REPORT: return nci_report(LENT(b), a[0]);
    case READ: return nci_read(a, n);
    case RUN: return nci_run(LENT(b));
    default: return NCI_OUTSIDE_LIMIT;
    }
}

/* ---- what a call did */

static void keep(struct kept *to, const uint8_t *octets, size_t length) {
    to->length = length;
    memcpy(to->at, octets, length);
}

/* A call puts packets on one wire alone. Of run none is told: its word has moves in their place. */
static void keep_put(const struct bench *b, struct told *t) {
    unsigned wire;
    t->puts = 0;
    if (t->call == RUN)
        return;
    wire = nci_word_put_down(t->word) > 0 ? NCI_WIRE_DOWN : NCI_WIRE_UP;
    t->puts = nci_word_put_down(t->word) + nci_word_put_up(t->word);
    for (unsigned i = 0; i < t->puts; i++)
        t->put[i].length = copy_packet(b, t->put[i].at, wire, t->puts - 1 - i);
}

/* The buffer's message is kept before, since a report takes its place. */
static unsigned owed_on(struct bench *b, unsigned conn) {
    uint64_t word = nci_report(LENT(b), (uint8_t)conn);
    return nci_word_answer(word) == NCI_TAKEN ? b->message[3] : 0;
}

static void keep_state(const struct bench *b, struct kept *state) {
    uint64_t word = nci_state(b->area, sizeof b->area, state->at, sizeof state->at);
    state->length = nci_word_answer(word) == NCI_TAKEN ? nci_word_length(word) : 0;
}

/* ---- a press of run: what its word does not tell, copies of the bench do */

struct move {
    enum call call;
    uint8_t conn;
};

/* Makes the first move that is taken, in the order of run, and gives it; NULL where none is. */
static const struct move *make_move(struct bench *b) {
    static const struct move moves[] = {{UP, 0},      {DOWN, 0},    {CONSUME, 0}, {CONSUME, 2}, {CONSUME, 3},
                                        {CONSUME, 4}, {CONSUME, 5}, {CREDIT, 0},  {PUSH, 0},    {PUSH, 2},
                                        {PUSH, 3},    {PUSH, 4},    {PUSH, 5},    {REPLY, 0}};
    static struct octets arg = {.length = 1};
    for (size_t i = 0; i < sizeof moves / sizeof *moves; i++) {
        arg.at[0] = moves[i].conn;
        if (nci_word_answer(make(b, moves[i].call, &arg)) == NCI_TAKEN)
            return &moves[i];
    }
    return NULL;
}

/* The moves are made again on the bench as it was: the last of them handed the message out. The
 * packet that up took has its connection in its first octet. */
static void keep_press(struct bench *before, const struct bench *b, struct told *t) {
    const struct move *last = NULL;
    uint64_t word;
    for (unsigned i = 0; i < nci_word_moves(t->word); i++)
        last = make_move(before);
    t->press.at_host = last != NULL && last->call == UP;
    t->press.conn = last == NULL ? 0 : t->press.at_host ? before->first[0] & 0x0Fu : last->conn;
    *before = *b;
    word = nci_run(LENT(before));
    t->press.at_rest = nci_word_answer(word) == NCI_TAKEN && nci_word_moves(word) == 0;
}

/* ---- all of it */

void make_call(struct bench *b, struct told *t, enum call call) {
    static struct bench before;
    if (call == RUN)
        before = *b;
    b->first_length = 0;
    t->call = call;
    t->word = make(b, call, &t->arg);
    keep_put(b, t);
    keep(&t->taken, b->first, was_taken(t) ? b->first_length : 0);
    keep(&t->message, b->message, nci_word_length(t->word));
    t->owed = call == CONSUME && was_taken(t) ? owed_on(b, t->arg.at[0]) : 0;
    keep_state(b, &t->state);
    if (call == RUN)
        keep_press(&before, b, t);
}
