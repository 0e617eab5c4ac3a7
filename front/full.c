#include "full.h"

#include <string.h>

#include "line.h"
#include "words.h"

/* ---- what is said of a call that was taken */

enum { PAIR = 2, LOOPBACKS = 4 };

/* Whether connections 2 to 5 have one pair, or four of which each is as the next. */
static bool alike(const struct octets *profile) {
    const uint8_t *pairs = profile->at + 1;
    return profile->length < NCI_LONG_PROFILE_SIZE || memcmp(pairs, pairs + PAIR, PAIR * (LOOPBACKS - 1)) == 0;
}

/* The pairs of connections 2 to 5, each by itself. */
static void say_each(const uint8_t *pairs) {
    for (unsigned i = 0; i < LOOPBACKS; i++) {
        say("%sconnection %u: ", i > 0 ? "; " : "", 2 + i);
        say_terms(pairs[PAIR * i], pairs[PAIR * i + 1]);
    }
}

/* Pairs stand behind the control payload, and that of connection 0 is the last. */
static void say_fresh(const struct octets *profile) {
    const uint8_t *pairs = profile->at + 1, *last = profile->at + profile->length - PAIR;
    say("a new bench: control payload %u; ", profile->at[0]);
    if (alike(profile)) {
        say("connections 2 to 5: ");
        say_terms(pairs[0], pairs[1]);
    } else {
        say_each(pairs);
    }
    say("; connection 0: ");
    say_terms(last[0], last[1]);
}

static void say_message(size_t length) {
    if (length == 0) {
        say("empty message");
    } else {
        say("message of ");
        say_octets(length);
    }
}

static void say_send(unsigned conn, size_t length) {
    say_message(length);
    say(" in hand on connection %u", conn);
}

static void say_handed_out(uint64_t word) {
    if (!nci_word_handed_out(word))
        return;
    say("; ");
    say_message(nci_word_length(word));
    say(" handed out");
}

/* The reserved bits that the packet which was read has at 1, behind some words. */
static void say_rfu(const char *before, uint64_t word) {
    if (nci_word_rfu(word) == 0)
        return;
    say("%s", before);
    say_reserved(nci_word_rfu(word));
}

static struct packet kept_packet(const struct kept *kept) { return read_packet(kept->at, kept->length); }

/* The packets put on a wire, in their order. */
static void say_put(const struct told *t) {
    for (unsigned i = 0; i < t->puts; i++) {
        struct packet p = kept_packet(&t->put[i]);
        say(i > 0 ? "; " : "");
        say_packet(&p);
    }
}

/* A command's packets are its segments: the whole is what was typed. */
static void say_command(const struct told *t) {
    struct packet p = read_command(t->arg.at, t->arg.length);
    say_packet(&p);
    if (t->puts > 1)
        say(" in %u packets", t->puts);
}

/* An answer tells by itself which command was taken. Data going down has no credits: the
 * bits in their place are reserved. */
static void say_down(const struct told *t) {
    struct packet p = kept_packet(&t->taken);
    p.credits = 0;
    if (t->puts > 0) {
        say_put(t);
        say_rfu("; in the command ", t->word);
        return;
    }
    say(nci_word_dropped(t->word) ? "dropped " : p.mt == MT_DATA ? "stored " : "taken ");
    say_packet(&p);
    say_rfu("; ", t->word);
    if (p.mt == MT_DATA && (nci_word_rfu(t->word) & ~NCI_RFU_DATA_UP) != 0)
        say(", no credits go down");
}

/* A stored packet cannot be looked at; on a loopback it goes up as it is, with credits. */
static void say_consume(const struct told *t) {
    if (t->puts > 0) {
        say("looped back ");
        say_put(t);
    } else {
        say("consumed a packet of connection %u", t->arg.at[0]);
    }
    say(nci_word_dropped(t->word) ? "; dropped" : "");
    say_handed_out(t->word);
}

/* Kinds 1 to 7 put a notification, kind 8 none. */
static void say_air(const struct told *t) {
    if (t->puts > 0) {
        say_put(t);
    } else {
        say_message(t->arg.length - 1);
        say(" in hand at the endpoint");
    }
}

/* Of a credit notice entries are dropped, of all else the packet. */
static void say_up(const struct told *t) {
    struct packet p = kept_packet(&t->taken);
    if (!nci_word_dropped(t->word))
        say("read ");
    else
        say(is_credit_notice(&p) ? "dropped an entry of " : "dropped ");
    say_packet(&p);
    say_rfu("; ", t->word);
    say_handed_out(t->word);
}

static void say_read(const struct told *t) {
    struct packet p = read_packet(t->arg.at, t->arg.length);
    if (nci_word_dropped(t->word)) {
        say("dropped: ");
        say_no_packet(t->arg.at, t->arg.length);
    } else {
        say_packet(&p);
        say_rfu("; ", t->word);
    }
}

/* Where the message came out, and whether another press would make a move. */
static void say_run(const struct told *t) {
    unsigned moves = nci_word_moves(t->word);
    if (moves == 0)
        say("no moves");
    else
        say("%u move%s", moves, moves == 1 ? "" : "s");
    say(nci_word_dropped(t->word) ? "; some dropped" : "");
    say_handed_out(t->word);
    if (nci_word_handed_out(t->word))
        say(" at the %s on connection %u", t->press.at_host ? "host" : "controller", t->press.conn);
    if (t->state.length == 0)
        say("; the record is damaged");
    else
        say(t->press.at_rest ? "; at rest" : "; moves are left");
}

static void say_report(unsigned conn, const uint8_t *numbers) {
    say("connection %u: credits held %u, ", conn, numbers[0]);
    say(numbers[0] == NCI_NO_FLOW_CONTROL ? "no flow control, " : "");
    say("packets down %u, packets stored %u, ", numbers[1], numbers[2]);
    say("credits owed %u, credits up %u", numbers[3], numbers[4]);
}

static void say_taken(const struct told *t) {
    switch (t->call) {
    case FRESH: say_fresh(&t->arg); break;
    case POWER: say("both ends cold, both wires empty"); break;
    case COMMAND: say_command(t); break;
    case SEND: say_send(t->arg.at[0], t->arg.length - 1); break;
    case PUSH:
    case CREDIT:
    case REPLY: say_put(t); break;
    case DOWN: say_down(t); break;
    case CONSUME: say_consume(t); break;
    case AIR: say_air(t); break;
    case UP: say_up(t); break;
    case REPORT: say_report(t->arg.at[0], t->message.at); break;
    case READ: say_read(t); break;
    case RUN: say_run(t); break;
    default: break;
    }
}

/* ---- the line */

static void say_hex(const struct kept *kept) {
    for (size_t i = 0; i < kept->length; i++)
        say("%02X", kept->at[i]);
}

void say_full(const struct told *t) {
    unsigned answer = nci_word_answer(t->word);
    say("ev=%s ans=%u drop=%d rfu=%02X pkt=", call_name(t->call), answer, nci_word_dropped(t->word),
        nci_word_rfu(t->word));
    for (unsigned i = 0; i < t->puts; i++)
        say_hex(&t->put[i]);
    say(" msg=");
    say_hex(&t->message);
    /* - for an empty message, nothing for none */
    say(nci_word_handed_out(t->word) && t->message.length == 0 ? "-" : "");
    if (t->call == RUN)
        say(" moves=%u", nci_word_moves(t->word));
    say(" says=\"");
    if (answer == NCI_TAKEN)
        say_taken(t);
    else
        say("%u: %s", answer, nci_card(answer));
    say("\"");
}
