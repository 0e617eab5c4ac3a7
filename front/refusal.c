#include "refusal.h"

#include "line.h"
#include "names.h"
#include "state.h"

/* ---- reasons that the call itself tells */

static bool is_connection(unsigned conn) { return conn == 0 || (conn >= 2 && conn <= 5); }

static const char *outside(const struct told *t) {
    switch (t->call) {
    case FRESH: return "profile outside limits";
    case COMMAND: return t->arg.length - 2 > NCI_COMMAND_MAX ? "payload too long" : "group or opcode outside";
    case SEND: return is_connection(t->arg.at[0]) ? "message too long" : "no such connection";
    case AIR: return "event outside limits";
    case READ: return "too many octets";
    default: return "no such connection";
    }
}

static const char *nothing(enum call call) {
    switch (call) {
    case PUSH: return "nothing in hand";
    case DOWN: return "down wire empty";
    case CONSUME: return "nothing stored";
    case CREDIT: return "nothing owed";
    case REPLY: return "no endpoint message";
    default: return "up wire empty";
    }
}

static const char *room(enum call call) { return call == COMMAND || call == PUSH ? "no room down" : "no room up"; }

static const char *not_open(enum call call) {
    return call == SEND || call == PUSH ? "not open at host" : "not open at controller";
}

/* ---- reasons that the state tells */

/* A found endpoint that the state takes has a type or a pair that it does not take. */
static void say_not_found(unsigned rf, unsigned type) {
    if (rf == RF_DISCOVERY)
        say("discovery takes type 2");
    else if (rf != RF_W4_ALL_DISCOVERIES)
        say_state_alone(rf);
    else
        say(type == 2 ? "pair repeated or eighth" : "pair already found");
}

/* A poll activation, or a failure, of another endpoint than the one selected. */
static void say_not_selected(const uint8_t *state) {
    if (state[NCI_STATE_RF] == RF_W4_HOST_SELECT)
        say_selection(state);
    else
        say_state_alone(state[NCI_STATE_RF]);
}

static void say_not_in_state(const struct told *t) {
    const uint8_t *state = t->state.at;
    switch (t->arg.at[0]) {
    case NCI_AIR_FOUND: say_not_found(state[NCI_STATE_RF], t->arg.at[4]); break;
    case NCI_AIR_POLL:
    case NCI_AIR_FAILED: say_not_selected(state); break;
    default: say_state_alone(state[NCI_STATE_RF]); break;
    }
}

void say_refusal(const struct told *t) {
    unsigned answer = nci_word_answer(t->word);
    say("%u, ", answer);
    switch (answer) {
    case NCI_RECORD_DAMAGED: say("record damaged"); break;
    case NCI_TOO_SHORT: say("area or buffer short"); break;
    case NCI_OUTSIDE_LIMIT: say("%s", outside(t)); break;
    case NCI_TOO_FEW_SLOTS: say("%s", room(t->call)); break;
    case NCI_UNANSWERED:
        say_pending(t->state.at);
        say(" unanswered");
        break;
    case NCI_NOT_OPEN: say("%s", not_open(t->call)); break;
    case NCI_IN_HAND: say(t->call == AIR ? "endpoint message in hand" : "message still in hand"); break;
    case NCI_NOTHING_TO_MOVE: say("%s", nothing(t->call)); break;
    case NCI_NO_CREDIT: say("no credit"); break;
    case NCI_CLOSING:
        say("push during ");
        say_pending(t->state.at);
        break;
    case NCI_NOT_IN_THIS_STATE: say_not_in_state(t); break;
    case NCI_STORE_FULL: say("store full"); break;
    case NCI_WIRES_NOT_EMPTY: say("wires not empty"); break;
    case NCI_SEND_CLOSING:
        say("send during ");
        say_pending(t->state.at);
        break;
    default: say("no answer known"); break;
    }
}
