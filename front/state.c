#include "state.h"

#include <string.h>

#include "breath.h"
#include "line.h"
#include "message.h"
#include "names.h"

/* ---- parts that refusals name too */

/* A close names its connection: another one may be closed meanwhile. */
void say_pending(const uint8_t *state) {
    const uint8_t *pending = state + NCI_STATE_PENDING;
    say_name(pending[1], pending[2]);
    if (pending[1] == 0 && pending[2] == 5) {
        say(" ");
        say_id(pending[3]);
    }
}

void say_state_alone(unsigned rf) {
    say("state ");
    say_rf(rf);
}

static void say_pair_found(unsigned id, unsigned protocol) {
    say("ID ");
    say_id(id);
    say(", ");
    say_protocol(protocol);
}

void say_selection(const uint8_t *state) {
    const uint8_t *rf = state + NCI_STATE_RF;
    if (rf[1] == 0) {
        say("none selected");
    } else {
        say("selected ");
        say_pair_found(rf[2], rf[3]);
    }
}

/* ---- the clauses, one behind the other, each with an end mark of its own */

#define CLAUSE_END ";"

static void say_rf_clauses(const uint8_t *state) {
    const uint8_t *rf = state + NCI_STATE_RF;
    if (state[NCI_STATE_PHASE] < 2)
        say(state[NCI_STATE_PHASE] == 0 ? "before reset" CLAUSE_END : "before init" CLAUSE_END);
    say_rf(rf[0]);
    if (rf[0] == RF_W4_HOST_SELECT) {
        say(CLAUSE_END);
        say_selection(state);
    } else if (rf[0] == RF_POLL_ACTIVE || rf[0] == RF_LISTEN_ACTIVE) {
        say(" ");
        say_pair_found(rf[1], rf[2]);
    }
    say(CLAUSE_END);
}

enum { CONNECTIONS = 5, AT_HOST = 1, AT_CONTROLLER = 2, IN_HAND = 4 };

/* Where a connection is open, and whether a message is in hand there, as a set of the names above. */
static unsigned marks(const uint8_t *state, unsigned place) {
    const uint8_t *of = state + NCI_STATE_CONNS + 3 * place;
    return (of[0] != 0 ? AT_HOST : 0) | (of[1] != 0 ? AT_CONTROLLER : 0) | (of[2] != 0 ? IN_HAND : 0);
}

/* "open 2 3 and 4": the connections whose marks, of those asked for, are these. No comma: it is a pause. */
static bool say_list(const uint8_t *state, const char *what, unsigned asked, unsigned wanted) {
    unsigned listed[CONNECTIONS], count = 0;
    for (unsigned place = 0; place < CONNECTIONS; place++)
        if ((marks(state, place) & asked) == wanted)
            listed[count++] = place == 0 ? 0 : place + 1;
    if (count == 0)
        return false;
    say("%s", what);
    for (unsigned i = 0; i < count; i++)
        say("%s %u", count > 1 && i + 1 == count ? " and" : "", listed[i]);
    say(CLAUSE_END);
    return true;
}

static void say_connections(const uint8_t *state) {
    enum { BOTH = AT_HOST | AT_CONTROLLER };
    bool any = say_list(state, "open", BOTH, BOTH);
    any = say_list(state, "controller only", BOTH, AT_CONTROLLER) || any;
    any = say_list(state, "host only", BOTH, AT_HOST) || any;
    if (!any)
        say("none open" CLAUSE_END);
    say_list(state, "in hand on", IN_HAND, IN_HAND);
}

static void say_wires(const uint8_t *state) {
    if (state[NCI_STATE_DOWN] + state[NCI_STATE_UP] == 0)
        say("wires empty" CLAUSE_END);
    if (state[NCI_STATE_DOWN] > 0)
        say("%u down" CLAUSE_END, state[NCI_STATE_DOWN]);
    if (state[NCI_STATE_UP] > 0)
        say("%u up" CLAUSE_END, state[NCI_STATE_UP]);
}

static void say_clauses(const uint8_t *state) {
    say_rf_clauses(state);
    if (state[NCI_STATE_PENDING] != 0) {
        say_pending(state);
        say(" unanswered" CLAUSE_END);
    }
    say_connections(state);
    if (state[NCI_STATE_ENDPOINT] != 0)
        say("endpoint in hand" CLAUSE_END);
    say_wires(state);
}

/* ---- in breaths */

static bool say_clause_of(const void *clauses, size_t number) {
    const char *from = clauses, *end;
    while ((end = strchr(from, *CLAUSE_END)) != NULL && number-- > 0)
        from = end + 1;
    if (end != NULL)
        say("%.*s", (int)(end - from), from);
    return end != NULL;
}

size_t say_state(const struct kept *state, size_t from) {
    static struct line clauses;
    struct line *line = say_to(&clauses);
    if (state->length == 0)
        say("record damaged" CLAUSE_END);
    else
        say_clauses(state->at);
    say_on(line);
    return say_breath(say_clause_of, clauses.at, from);
}
