#include "names.h"

#include "line.h"
#include "nci_bench.h"

/* ---- numbers */

/* Letters are words: A is read as an article before a word, and B, C, D and E sound alike. */
static const char *const digits[] = {"0", "1", "2",    "3",     "4",       "5",     "6",    "7",
                                     "8", "9", "alfa", "bravo", "charlie", "delta", "echo", "foxtrot"};

void say_digit(unsigned digit) { say("%s", digits[digit & 0x0F]); }

static void say_pair(unsigned octet) { say("%s %s", digits[octet >> 4 & 0x0F], digits[octet & 0x0F]); }

void say_pairs(const uint8_t *octets, size_t length) {
    for (size_t i = 0; i < length; i++) {
        say(i > 0 ? ", " : "");
        say_pair(octets[i]);
    }
}

void say_id(unsigned id) {
    if (id < 10)
        say("%u", id);
    else
        say_pair(id);
}

void say_count(size_t count, const char *one) { say("%u %s%s", (unsigned)count, one, count == 1 ? "" : "s"); }

void say_grant(unsigned credits) {
    if (credits == NCI_NO_FLOW_CONTROL)
        say("no flow control");
    else
        say_count(credits, "credit");
}

/* ---- names by their number; NULL, and numbers past the end, have none */

static void say_named(const char *const *names, size_t count, const char *other, unsigned number) {
    if (number < count && names[number] != NULL) {
        say("%s", names[number]);
    } else {
        say("%s ", other);
        say_id(number);
    }
}

#define SAY_NAMED(names, other, number) say_named(names, sizeof(names) / sizeof *(names), other, number)

/* 003, Table 129 */
void say_status(unsigned status) {
    static const char *const names[] = {"OK",           "rejected",       "frame corrupted", "failed", "not initialized",
                                        "syntax error", "semantic error", NULL,              NULL,     "invalid parameter",
                                        "size exceeded"};
    static const char *const rf[] = {"already started", "activation failed", "tear down"};
    if (status >= 0xA0 && status <= 0xA2)
        say("%s", rf[status - 0xA0]);
    else
        SAY_NAMED(names, "status", status);
}

/* 003, Table 133 */
void say_protocol(unsigned protocol) {
    static const char *const names[] = {"undetermined", "T1T", "T2T", "T3T", "ISO DEP", "NFC DEP", "T5T", "NDEF"};
    SAY_NAMED(names, "protocol", protocol);
}

bool has_mode(unsigned mode) { return mode <= 3 || mode == 6 || (mode >= 0x80 && mode <= 0x83); }

/* 003, Table 131. The letter stands last: before a word A is read as an article. V sounds as B. */
void say_mode(unsigned mode) {
    static const char *const polls[] = {"poll A", "poll B", "poll F", "poll active", NULL, NULL, "poll vicinity"};
    static const char *const listens[] = {"listen A", "listen B", "listen F", "listen active"};
    if (mode >= 0x80 && mode <= 0x83)
        say("%s", listens[mode - 0x80]);
    else
        SAY_NAMED(polls, "mode", mode);
}

/* 003, Table 80 */
void say_deactivation(unsigned type) {
    static const char *const names[] = {"to idle", "to sleep", "to sleep AF", "to discovery"};
    SAY_NAMED(names, "type", type);
}

/* 003, Table 81 */
void say_reason(unsigned reason) {
    static const char *const names[] = {"by host", "by endpoint", "by lost link"};
    SAY_NAMED(names, "reason", reason);
}

void say_follows(unsigned type) {
    static const char *const names[] = {"last", "last at limit", "more"};
    SAY_NAMED(names, "type", type);
}

/* In the order of nci_state. */
void say_rf(unsigned state) {
    static const char *const names[] = {"idle",        "discovery",     "wait all discoveries", "wait host select",
                                        "poll active", "listen active", "listen sleep"};
    SAY_NAMED(names, "RF state", state);
}
