#include "words.h"

#include "line.h"
#include "nci_bench.h"
#include "parameter.h"

struct packet read_packet(const uint8_t *octets, size_t length) {
    struct packet p = {MT_DATA, false, 0, 0, 0, octets, 0};
    if (length < 3)
        return p;
    p.mt = octets[0] >> 5;
    p.more = (octets[0] >> 4 & 1) != 0;
    p.id = octets[0] & 0x0F;
    p.oid = octets[1] & 0x3F;
    p.credits = octets[1] & 0x03;
    p.payload = octets + 3;
    p.length = octets[2] < length - 3 ? octets[2] : length - 3;
    return p;
}

struct packet read_command(const uint8_t *octets, size_t length) {
    struct packet p = {MT_CMD, false, octets[0], octets[1], 0, octets + 2, length - 2};
    return p;
}

void say_octets(size_t count) {
    say("%u octet%s", (unsigned)count, count == 1 ? "" : "s");
}

void say_terms(unsigned payload, unsigned credits) {
    say("payload %u, ", payload);
    if (credits == NCI_NO_FLOW_CONTROL)
        say("no flow control");
    else
        say("credits %u", credits);
}

/* ---- statuses (003, Table 129) */

static void say_status(unsigned status) {
    switch (status) {
    case 0x00: say("ok"); break;
    case 0x01: say("rejected"); break;
    case 0x05: say("syntax error"); break;
    case 0x06: say("semantic error"); break;
    case 0x09: say("invalid parameter"); break;
    case 0x0A: say("message size exceeded"); break;
    case 0xA0: say("discovery already started"); break;
    case 0xA1: say("target activation failed"); break;
    default: say("status %02X", status);
    }
}

/* ---- payloads: what stands behind the status ok, or in a notification. Nothing is said of
 * one that is too short. */

static void say_init(const uint8_t *p, size_t n) {
    if (n > 8)
        say(", control payload %u", p[8]);
}

static void say_created(const uint8_t *p, size_t n) {
    if (n < 4)
        return;
    say(", connection %u, ", p[3]);
    say_terms(p[1], p[2]);
}

/* A notice of the bench has an entry for each connection at most; of one that is typed no more
 * are said. */
static void say_credits(const uint8_t *p, size_t n) {
    enum { ENTRIES = 5 };
    for (size_t i = 1; i + 1 < n && i < 2 * ENTRIES; i += 2)
        say("%s %u to connection %u", i == 1 ? "" : ",", p[i + 1], p[i]);
    if (n > 2 * ENTRIES + 2)
        say(", and more");
}

static void say_error(const uint8_t *p, size_t n) {
    if (n < 1)
        return;
    say(" ");
    say_status(p[0]);
}

static void say_found(const uint8_t *p, size_t n) {
    if (n < 5)
        return;
    say(" ID %02X, protocol %02X, mode %02X, ", p[0], p[1], p[2]);
    say(p[n - 1] == 2 ? "more follows" : "last");
}

static void say_activated(const uint8_t *p, size_t n) {
    if (n < 6)
        return;
    say(" ID %02X, protocol %02X, mode %02X, ", p[0], p[2], p[3]);
    say_terms(p[4], p[5]);
}

static void say_deactivated(const uint8_t *p, size_t n) {
    static const char *const type[] = {"to idle", "to sleep", "to sleep AF", "to discovery"};
    static const char *const reason[] = {"the host asked", "the endpoint asked", "link lost"};
    if (n >= 2 && p[0] < 4 && p[1] < 3)
        say(" %s, %s", type[p[0]], reason[p[1]]);
}

/* ---- lists of configuration parameters */

enum { MOST_LISTED = 15, MOST_OF_VALUE = 15 }; /* parameters, and octets of a value, that are said */

static void say_value(const uint8_t *value, size_t length) {
    if (length > MOST_OF_VALUE) {
        say(" of ");
        say_octets(length);
        return;
    }
    say(" ");
    for (size_t i = 0; i < length; i++)
        say("%02X", value[i]);
}

/* Its name, or its ID if it has none. Then its value; what is said for a value of no octets is NULL
 * where values are not said. */
static void say_parameter(const struct listed *listed, const char *empty) {
    const struct parameter *parameter = parameter_of(listed->id);
    if (parameter != NULL)
        say("%s", parameter->name);
    else
        say("0x%02X", listed->id);
    if (empty != NULL && listed->length == 0)
        say(" %s", empty);
    else if (empty != NULL)
        say_value(listed->value, listed->length);
}

static void say_list(struct list list, const char *empty) {
    struct listed listed;
    unsigned said = 0;
    bool none = list.left == 0;
    while (said < MOST_LISTED && next_listed(&list, &listed)) {
        say(said++ > 0 ? ", " : "");
        say_parameter(&listed, empty);
    }
    say(none ? "no parameter" : "");
    if (said == MOST_LISTED && list.left > 0) {
        say(", and %u more", list.left);
    } else if (list.left > 0) {
        say("%slist cut short", said > 0 ? ", " : "");
    } else if (list.octets > 0) {
        say(", ");
        say_octets(list.octets);
        say(" to spare");
    }
}

static void say_set(const uint8_t *p, size_t n) {
    say(" ");
    say_list(list_at(p, n, true), "default");
}

static void say_get(const uint8_t *p, size_t n) {
    say(" ");
    say_list(list_at(p, n, false), NULL);
}

static void say_got(const uint8_t *p, size_t n) {
    say(", ");
    say_list(list_at(p + 1, n - 1, true), "empty");
}

static void say_not_set(const uint8_t *p, size_t n) {
    say(": ");
    say_list(list_at(p + 1, n - 1, false), NULL);
}

static void say_not_there(const uint8_t *p, size_t n) {
    say(", not available: ");
    say_list(list_at(p + 1, n - 1, true), NULL);
}

/* ---- messages (003, Table 139) that the bench knows */

static const struct message {
    unsigned gid, oid;
    const char *name;
    /* each says what stands behind the name: a command, the rest of an OK response, of one with
     * an invalid parameter, a notification */
    void (*command)(const uint8_t *, size_t), (*ok)(const uint8_t *, size_t), (*invalid)(const uint8_t *, size_t),
        (*notice)(const uint8_t *, size_t);
} messages[] = {
    {0, 0, "CORE_RESET", NULL, NULL, NULL, NULL},
    {0, 1, "CORE_INIT", NULL, say_init, NULL, NULL},
    {0, 2, "CORE_SET_CONFIG", say_set, NULL, say_not_set, NULL},
    {0, 3, "CORE_GET_CONFIG", say_get, say_got, say_not_there, NULL},
    {0, 4, "CORE_CONN_CREATE", NULL, say_created, NULL, NULL},
    {0, 5, "CORE_CONN_CLOSE", NULL, NULL, NULL, NULL},
    {0, 6, "CORE_CONN_CREDITS", NULL, NULL, NULL, say_credits},
    {0, 7, "CORE_GENERIC_ERROR", NULL, NULL, NULL, say_error},
    {1, 3, "RF_DISCOVER", NULL, NULL, NULL, say_found},
    {1, 4, "RF_DISCOVER_SELECT", NULL, NULL, NULL, NULL},
    {1, 5, "RF_INTF_ACTIVATED", NULL, NULL, NULL, say_activated},
    {1, 6, "RF_DEACTIVATE", NULL, NULL, NULL, say_deactivated},
};

/* The message of a control packet, or NULL. */
static const struct message *message_of(const struct packet *p) {
    for (size_t i = 0; i < sizeof messages / sizeof *messages; i++)
        if (messages[i].gid == p->id && messages[i].oid == p->oid)
            return &messages[i];
    return NULL;
}

bool is_credit_notice(const struct packet *p) {
    const struct message *m = message_of(p);
    return p->mt == MT_NTF && m != NULL && m->notice == say_credits;
}

/* ---- packets */

static void say_name(const struct packet *p, const struct message *m) {
    static const char *const mt[] = {"data", "CMD", "RSP", "NTF", "RFU", "RFU", "RFU", "RFU"};
    if (m != NULL)
        say("%s_%s", m->name, mt[p->mt]);
    else
        say("GID %X OID %02X %s", p->id, p->oid, mt[p->mt]);
}

static void say_segment(const struct packet *p) {
    say(", ");
    say_octets(p->length);
    say(p->more ? ", more follows" : ", last");
}

/* Behind a status that stands alone there is nothing to say. */
static void say_response(const struct packet *p, const struct message *m) {
    unsigned status = p->payload[0];
    say(" ");
    say_status(status);
    if (p->length == 1 || m == NULL)
        return;
    if (status == NCI_STATUS_OK && m->ok != NULL)
        m->ok(p->payload, p->length);
    else if (status == NCI_STATUS_INVALID_PARAM && m->invalid != NULL)
        m->invalid(p->payload, p->length);
}

static void say_control(const struct packet *p) {
    const struct message *m = message_of(p);
    say_name(p, m);
    if (p->more)
        say_segment(p);
    else if (p->mt == MT_RSP && p->length > 0)
        say_response(p, m);
    else if (p->mt == MT_CMD && m != NULL && m->command != NULL)
        m->command(p->payload, p->length);
    else if (p->mt == MT_NTF && m != NULL && m->notice != NULL)
        m->notice(p->payload, p->length);
}

void say_packet(const struct packet *p) {
    if (p->mt != MT_DATA) {
        say_control(p);
    } else {
        say("data on connection %u", p->id);
        say_segment(p);
        if (p->credits > 0)
            say(", %u credit%s", p->credits, p->credits == 1 ? "" : "s");
    }
}

void say_no_packet(const uint8_t *octets, size_t length) {
    if (length < 3)
        say("fewer than 3 octets");
    else if (octets[0] >> 5 > MT_NTF)
        say("RFU message type %u", octets[0] >> 5);
    else
        say("payload shorter than octet 2 states");
}

/* ---- reserved bits */

static unsigned count_bits(unsigned octet) {
    unsigned count = 0;
    for (; octet > 0; octet >>= 1)
        count += octet & 1;
    return count;
}

void say_reserved(unsigned rfu) {
    unsigned left = count_bits(rfu);
    bool one = left == 1;
    say("reserved bit%s", one ? "" : "s");
    for (unsigned bit = 8; bit-- > 0;) {
        if ((rfu >> bit & 1) == 0)
            continue;
        left--;
        say(" %u%s", bit, left > 1 ? "," : left == 1 ? " and" : "");
    }
    say(" of octet 1 %s at 1", one ? "is" : "are");
}
