#include "brief.h"

#include <string.h>

#include "config.h"
#include "line.h"
#include "message.h"
#include "names.h"
#include "refusal.h"
#include "words.h"

/* ---- data: "4 octets on 2, more, 1 credit". A message that it finished takes the place of "last";
 * of one that it holds whole nothing else is said: "message of 4 on 2, 1 credit". */

static void say_message(size_t length) {
    if (length == 0)
        say("empty message");
    else
        say("message of %u", (unsigned)length);
}

static void say_end(bool more, uint64_t word) {
    if (nci_word_handed_out(word))
        say_message(nci_word_length(word));
    else
        say(more ? "more" : "last");
}

static void say_data(const struct packet *p, uint64_t word, bool with_credits) {
    bool whole = nci_word_handed_out(word) && nci_word_length(word) == p->length;
    if (whole)
        say_message(p->length);
    else
        say_count(p->length, "octet");
    say(" on ");
    say_id(p->id);
    if (!whole) {
        say(", ");
        say_end(p->more, word);
    }
    if (with_credits && p->credits > 0) {
        say(", ");
        say_count(p->credits, "credit");
    }
}

static void say_any(const struct packet *p, uint64_t word, bool with_credits) {
    if (p->mt == MT_DATA)
        say_data(p, word, with_credits);
    else
        say_control(p);
}

/* Bits of octet 1: ", reserved 7 and 6", ", reserved 7 to 2" */
static void say_bits(uint64_t word) {
    unsigned rfu = nci_word_rfu(word), high = 7, low = 0;
    if (rfu == 0)
        return;
    while ((rfu >> high & 1) == 0)
        high--;
    while ((rfu >> low & 1) == 0)
        low++;
    if (high == low) {
        say(", reserved %u", high);
    } else if (high - low > 1 && rfu == (0xFFu >> (7 - high) & 0xFFu << low)) {
        say(", reserved %u to %u", high, low);
    } else {
        say(", reserved %u", high);
        for (unsigned bit = high; bit-- > low;)
            if ((rfu >> bit & 1) != 0)
                say("%s %u", bit == low ? " and" : "", bit);
    }
}

/* ---- calls that were taken */

static struct packet put_packet(const struct told *t, unsigned i) {
    return read_packet(t->put[i].at, t->put[i].length);
}

static void say_put(const struct told *t) {
    for (unsigned i = 0; i < t->puts; i++) {
        struct packet p = put_packet(t, i);
        say(i > 0 ? ", " : "");
        say_any(&p, 0, true);
    }
}

/* "4 by 2": payload and credits. Digits one by one if there are many pairs to say. */
static void say_by(const uint8_t *pair, bool many) {
    if (many && pair[0] > 99)
        say("%u %u %u by ", pair[0] / 100, pair[0] / 10 % 10, pair[0] % 10);
    else
        say("%u by ", pair[0]);
    if (pair[1] == NCI_NO_FLOW_CONTROL)
        say("none");
    else
        say("%u", pair[1]);
}

static void say_fresh(const struct octets *profile) {
    const uint8_t *pairs = profile->at + 1, *last = profile->at + profile->length - 2;
    bool each = profile->length == NCI_LONG_PROFILE_SIZE && memcmp(pairs, pairs + 2, 6) != 0;
    say("fresh, control %u, ", profile->at[0]);
    for (unsigned i = 0; i < (each ? 4u : 1u); i++) {
        say_by(pairs + 2 * i, each);
        say(", ");
    }
    say("static ");
    say_by(last, each);
}

static void say_command(const struct told *t) {
    say("sent ");
    say_arguments(t->arg.at[0], t->arg.at[1], t->arg.at + 2, t->arg.length - 2);
    if (t->puts > 1)
        say(", %u packets", t->puts);
}

static void say_in_hand(size_t length) {
    say("in hand ");
    if (length == 0)
        say("empty message");
    else
        say_count(length, "octet");
}

static void say_down(const struct told *t) {
    struct packet p = read_packet(t->taken.at, t->taken.length);
    if (nci_word_dropped(t->word)) {
        say("dropped at controller, ");
        say_any(&p, 0, false);
    } else if (t->puts > 0) {
        say_put(t);
        say_bits(t->word);
        say(nci_word_rfu(t->word) > 0 ? " in command" : "");
    } else {
        say(p.mt == MT_DATA ? "stored " : "took ");
        say_any(&p, 0, false);
        say_bits(t->word);
    }
}

/* A packet of connection 0 cannot be seen: what it finished tells whether it was the last. */
static void say_consume(const struct told *t) {
    say(nci_word_dropped(t->word) ? "dropped run, " : "");
    if (t->puts > 0) {
        struct packet p = put_packet(t, 0);
        say("looped ");
        say_data(&p, t->word, true);
        return;
    }
    say("consumed on ");
    say_id(t->arg.at[0]);
    if (!nci_word_dropped(t->word)) {
        say(", ");
        say_end(true, t->word);
    }
    if (t->owed > 0)
        say(", %u owed", t->owed);
}

static void say_air(const struct told *t) {
    if (t->puts > 0) {
        say_put(t);
    } else {
        say_in_hand(t->arg.length - 1);
        say(" at endpoint");
    }
}

static void say_reply(const struct told *t) {
    struct packet p = put_packet(t, 0);
    say("replied ");
    say_data(&p, 0, true);
}

static void say_up(const struct told *t) {
    struct packet p = read_packet(t->taken.at, t->taken.length);
    if (!nci_word_dropped(t->word))
        say("got ");
    else
        say(is_credit_notice(&p) ? "entry dropped at host, " : "dropped at host, ");
    say_any(&p, t->word, true);
    say_bits(t->word);
}

static void say_read(const struct told *t) {
    struct packet p = read_packet(t->arg.at, t->arg.length);
    if (!nci_word_dropped(t->word)) {
        say("parsed ");
        say_any(&p, 0, true);
        say_bits(t->word);
    } else if (t->arg.length < 3) {
        say("no packet, ");
        say_count(t->arg.length, "octet");
    } else if (t->arg.at[0] >> 5 > MT_NTF) {
        say("no packet, message type %u", t->arg.at[0] >> 5);
    } else {
        say("no packet, %u missing", t->arg.at[2] - (unsigned)p.length);
    }
}

/* "ran 12 moves, at rest", "ran 7 moves, message of 9 on 2 at controller, more to run": after a message
 * moves may be left, and only "at rest" tells that none is. */
static void say_run(const struct told *t) {
    unsigned moves = nci_word_moves(t->word);
    say(moves == 0 ? "no moves" : "ran ");
    if (moves > 0)
        say_count(moves, "move");
    say(nci_word_dropped(t->word) ? ", some dropped" : "");
    if (nci_word_handed_out(t->word)) {
        say(", ");
        say_message(nci_word_length(t->word));
        say(" on ");
        say_id(t->press.conn);
        say(t->press.at_host ? " at host" : " at controller");
    }
    if (t->state.length == 0)
        say(", record damaged");
    else
        say(t->press.at_rest ? ", at rest" : ", more to run");
}

/* Numbers that are not 0, and that the rest is. */
static void say_report(const struct told *t) {
    static const char *const names[] = {"held", "down", "stored", "owed", "up"};
    const uint8_t *numbers = t->message.at;
    bool rest = false;
    say("on ");
    say_id(t->arg.at[0]);
    for (unsigned i = 0; i < NCI_REPORT_SIZE; i++) {
        if (i == 0 && numbers[0] == NCI_NO_FLOW_CONTROL)
            say(", no flow control");
        else if (numbers[i] > 0)
            say(", %u %s", numbers[i], names[i]);
        else
            rest = true;
    }
    say(rest ? ", rest 0" : "");
}

static void say_taken(const struct told *t) {
    switch (t->call) {
    case FRESH: say_fresh(&t->arg); break;
    case POWER: say("power, both ends cold"); break;
    case COMMAND: say_command(t); break;
    case SEND:
        say_in_hand(t->arg.length - 1);
        say(" on ");
        say_id(t->arg.at[0]);
        break;
    case PUSH:
        say("pushed ");
        say_put(t);
        break;
    case DOWN: say_down(t); break;
    case CONSUME: say_consume(t); break;
    case CREDIT:
        say("returned ");
        say_put(t);
        break;
    case AIR: say_air(t); break;
    case REPLY: say_reply(t); break;
    case UP: say_up(t); break;
    case REPORT: say_report(t); break;
    case READ: say_read(t); break;
    case RUN: say_run(t); break;
    default: break;
    }
}

void say_brief(const struct told *t) {
    if (was_taken(t))
        say_taken(t);
    else
        say_refusal(t);
}

/* ---- parameters that the key more goes on with */

/* The message that the line of a call is about: the command, or the first packet put, taken or read. */
static struct packet subject(const struct told *t) {
    if (t->call == COMMAND)
        return read_command(t->arg.at, t->arg.length);
    if (t->call == READ)
        return read_packet(t->arg.at, t->arg.length);
    return t->puts > 0 ? put_packet(t, 0) : read_packet(t->taken.at, t->taken.length);
}

size_t listed_in_brief(const struct told *t) {
    struct packet p = subject(t);
    return was_taken(t) && !(t->call == READ && nci_word_dropped(t->word)) ? listed_at_first(&p) : 0;
}

size_t say_listed_after(const struct told *t, size_t from) {
    struct packet p = subject(t);
    return say_listed_from(&p, from);
}
