#include "key.h"

#include "parameter.h"

enum { MANY = OCTETS_MAX };

static const struct key keys[] = {
    {"reset", "reset, or reset 0 to keep the configuration: CORE_RESET_CMD goes down",
     "reset, or reset 0", "reset command, 0 keeps the configuration", COMMANDS,
     .call = COMMAND, .front = {2, {0, 0}}, .instead = {1, {1}}, .least = 1, .most = 1},
    {"init", "init: CORE_INIT_CMD goes down",
     "init alone", "init command", COMMANDS,
     .call = COMMAND, .front = {4, {0, 1, 0, 0}}},
    {"set", "set 08 01 20 0102, IDs and values, default for no value: CORE_SET_CONFIG_CMD goes down",
     "set, ID, value or default", "set command, help parameters names IDs", COMMANDS,
     .call = COMMAND, .front = {2, {0, 2}}, .form = IDS_AND_VALUES},
    {"get", "get 08 20, IDs, or get for all parameters: CORE_GET_CONFIG_CMD goes down",
     "get, or get and IDs", "get command, help parameters names IDs", COMMANDS,
     .call = COMMAND, .front = {2, {0, 3}}, .form = IDS},
    {"create", "create: CORE_CONN_CREATE_CMD for a loopback goes down",
     "create alone", "create command for a loopback", COMMANDS,
     .call = COMMAND, .front = {4, {0, 4, 1, 0}}},
    {"close", "close 2: CORE_CONN_CLOSE_CMD for connection 2 goes down",
     "close and connection", "close command", COMMANDS,
     .call = COMMAND, .front = {2, {0, 5}}, .least = 1, .most = 1},
    {"discover", "discover, or discover 00 80, modes: RF_DISCOVER_CMD goes down",
     "discover, or discover and modes", "discover command", COMMANDS,
     .call = COMMAND, .front = {2, {1, 3}}, .instead = {2, {0x00, 0x80}}, .least = 1, .most = 127,
     .form = WITH_FREQUENCY},
    {"select", "select 1 4, ID and protocol: RF_DISCOVER_SELECT_CMD goes down",
     "select, ID, protocol", "select command", COMMANDS,
     .call = COMMAND, .front = {2, {1, 4}}, .back = {1, {1}}, .least = 2, .most = 2},
    {"deactivate", "deactivate, or deactivate 3, a type: RF_DEACTIVATE_CMD goes down",
     "deactivate, or with type", "deactivate command, 0 idle, 1 sleep, 2 sleep AF, 3 discovery", COMMANDS,
     .call = COMMAND, .front = {2, {1, 6}}, .instead = {1, {0}}, .least = 1, .most = 1},
    {"command", "command 0 4 0100, GID, OID, payload: any command goes down",
     "command, group, opcode, octets", "any command", COMMANDS,
     .call = COMMAND, .least = 2, .most = MANY},
    {"send", "send 2 48656C6C6F, connection, octets: the host has a message in hand",
     "send, connection, octets", "message in hand at host", MOVES,
     .call = SEND, .least = 1, .most = MANY},
    {"push", "push 2: the next segment of the message in hand on connection 2 goes down",
     "push and connection", "next segment goes down", MOVES,
     .call = PUSH, .least = 1, .most = 1},
    {"down", "down: the controller takes the first packet of the down wire",
     "down alone", "controller takes first packet", MOVES,
     .call = DOWN},
    {"consume", "consume 2: the controller takes the oldest stored packet of connection 2",
     "consume and connection", "controller takes oldest stored packet", MOVES,
     .call = CONSUME, .least = 1, .most = 1},
    {"credit", "credit: a notice of all credits owed goes up",
     "credit alone", "credits owed go up", MOVES,
     .call = CREDIT},
    {"up", "up: the host takes the first packet of the up wire",
     "up alone", "host takes first packet", MOVES,
     .call = UP},
    {"run", "run: up, down, consume, credit, push or reply, the first that is taken, until none is or a message is handed out",
     "run alone", "moves until a message or rest", MOVES,
     .call = RUN},
    {"found", "found 1 4 0 2, ID, protocol, mode, type, then parameters: an endpoint is found",
     "found, ID, protocol, mode, type, parameters", "endpoint found, type 2 for more", EVENTS,
     .call = AIR, .front = {1, {NCI_AIR_FOUND}}, .least = 4, .most = MANY},
    {"poll", "poll 1 4 0, ID, protocol, mode, then parameters: the controller is active in poll mode",
     "poll, ID, protocol, mode, parameters", "poll activation", EVENTS,
     .call = AIR, .front = {1, {NCI_AIR_POLL}}, .least = 3, .most = MANY},
    {"listen", "listen 1 4 80, ID, protocol, mode, then parameters: the controller is active in listen mode",
     "listen, ID, protocol, mode, parameters", "listen activation", EVENTS,
     .call = AIR, .front = {1, {NCI_AIR_LISTEN}}, .least = 3, .most = MANY},
    {"failed", "failed: the selected target fails",
     "failed alone", "selected target fails", EVENTS,
     .call = AIR, .front = {1, {NCI_AIR_FAILED}}},
    {"sleeps", "sleeps: the endpoint sleeps",
     "sleeps alone", "endpoint sleeps", EVENTS,
     .call = AIR, .front = {1, {NCI_AIR_SLEEPS}}},
    {"lost", "lost: the link is lost",
     "lost alone", "link lost", EVENTS,
     .call = AIR, .front = {1, {NCI_AIR_LOST}}},
    {"releases", "releases: the endpoint releases",
     "releases alone", "endpoint releases", EVENTS,
     .call = AIR, .front = {1, {NCI_AIR_RELEASES}}},
    {"says", "says 48656C6C6F, octets: the endpoint has a message in hand",
     "says and octets", "endpoint has message in hand", EVENTS,
     .call = AIR, .front = {1, {NCI_AIR_MESSAGE}}, .most = MANY},
    {"air", "air 01 01040002, kind, octets: any event of the air",
     "air, kind, octets", "any event", EVENTS,
     .call = AIR, .least = 1, .most = MANY},
    {"reply", "reply: the next segment of the endpoint's message goes up",
     "reply alone", "next segment of endpoint goes up", EVENTS,
     .call = REPLY},
    {"report", "report 2: the five numbers of connection 2",
     "report and connection", "its five numbers", BENCH,
     .call = REPORT, .least = 1, .most = 1},
    {"read", "read 60C603010202, octets: read as a packet going up, with its reserved bits that are at 1",
     "read and octets", "read as packet going up", BENCH,
     .call = READ, .most = MANY},
    {"power", "power: both ends cold, both wires empty, the profile kept",
     "power alone", "both ends cold", BENCH,
     .call = POWER},
    {"fresh", "fresh, or fresh 2004020401, a profile of 5 octets, or of 11, a pair for each connection: a new bench",
     "fresh, or fresh and 5 or 11 octets", "new bench", BENCH,
     .call = FRESH, .instead = {NCI_PROFILE_SIZE, FIRST_PROFILE}, .least = NCI_PROFILE_SIZE, .most = NCI_PROFILE_SIZE,
     .longer = NCI_LONG_PROFILE_SIZE},
    {"again", "again: the last answer once more",
     "again alone", "last answer once more", SPEECH,
     .call = AGAIN},
    {"octets", "octets: packets put by the last call, its message, the packet that it took, or what was typed",
     "octets alone", "packets of last call, octet by octet", SPEECH,
     .call = OCTETS},
    {"more", "more: what comes next, after octets, state, help parameters or a list of parameters",
     "more alone", "what comes next", SPEECH,
     .call = MORE},
    {"state", "state: RF state, unanswered command, connections, messages in hand, wires",
     "state alone", "RF state, command, connections, hands, wires", SPEECH,
     .call = STATE},
    {"brief", "brief: answers in few words",
     "brief alone", "answers in few words", SPEECH,
     .call = BRIEF},
    {"full", "full: answers with the fields of the sheet",
     "full alone", "answers with all fields", SPEECH,
     .call = FULL},
    {"card", "card 9: what number 9 of the card says",
     "card and number", "its line of the card", SPEECH,
     .call = CARD},
    {"help", "help names the keys, help push tells how push is typed, help parameters names those of set and get",
     "help, or help and name", "groups, keys, how one is typed, parameters", SPEECH,
     .call = HELP},
    {"quit", "quit: the end",
     "quit alone", "the end", SPEECH,
     .call = QUIT},
};

enum { KEYS = sizeof keys / sizeof *keys };

const struct key *key_at(size_t i) { return i < KEYS ? &keys[i] : NULL; }

const struct key *key_named(struct text word) {
    for (size_t i = 0; i < KEYS; i++)
        if (is_named(word, keys[i].name))
            return &keys[i];
    return NULL;
}

static void add_few(struct octets *to, const struct few *few) {
    for (size_t i = 0; i < few->length; i++)
        add(to, few->at[i]);
}

/* Whether a key takes so many octets. */
static bool takes(const struct key *key, size_t typed) {
    return (typed >= key->least && typed <= key->most) || (typed > key->most && typed == key->longer);
}

static bool read_typed(struct octets *arg, const struct key *key, struct text rest) {
    static struct octets typed;
    if (!read_octets(&typed, rest))
        return false;
    if (typed.length == 0)
        add_few(&typed, &key->instead);
    if (!takes(key, typed.length))
        return false;
    if (key->form == WITH_FREQUENCY)
        add(arg, (unsigned)typed.length);
    for (size_t i = 0; i < typed.length; i++) {
        add(arg, typed.at[i]);
        if (key->form == WITH_FREQUENCY)
            add(arg, 0x01);
    }
    add_few(arg, &key->back);
    return true;
}

/* ---- configuration parameters. A count that has no octet belongs to a payload that is too long, which
 * the bench refuses. */

/* All that there are, where none is typed. */
static bool read_ids(struct octets *arg, struct text rest) {
    size_t count = arg->length;
    const struct parameter *parameter;
    add(arg, 0);
    for (struct text word = next_word(&rest); word.length > 0; word = next_word(&rest))
        if (!add_id(arg, word))
            return false;
    if (arg->length == count + 1)
        for (size_t i = 0; (parameter = parameter_at(i)) != NULL; i++)
            add(arg, parameter->id);
    arg->at[count] = (uint8_t)(arg->length - count - 1);
    return true;
}

/* An ID, the length of its value, and the value. */
static bool add_setting(struct octets *arg, struct text id, struct text value) {
    size_t start = arg->length, length;
    if (!add_id(arg, id) || arg->length != start + 1)
        return false;
    add(arg, 0);
    if (is_named(value, "default"))
        return true;
    if (value.length == 0 || !add_word(arg, value))
        return false;
    length = arg->length - start - 2;
    arg->at[start + 1] = (uint8_t)length;
    return length <= 0xFF;
}

static bool read_settings(struct octets *arg, struct text rest) {
    size_t count = arg->length;
    unsigned settings = 0;
    add(arg, 0);
    for (struct text id = next_word(&rest); id.length > 0; id = next_word(&rest), settings++)
        if (!add_setting(arg, id, next_word(&rest)))
            return false;
    arg->at[count] = (uint8_t)settings;
    return settings > 0;
}

bool read_arguments(struct octets *arg, const struct key *key, struct text rest) {
    arg->length = 0;
    add_few(arg, &key->front);
    switch (key->form) {
    case IDS: return read_ids(arg, rest);
    case IDS_AND_VALUES: return read_settings(arg, rest);
    default: return read_typed(arg, key, rest);
    }
}
