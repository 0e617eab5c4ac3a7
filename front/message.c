#include "message.h"

#include "config.h"
#include "line.h"
#include "names.h"
#include "nci_bench.h"

/* ---- the payloads of commands. A form that is not its own is said by its length alone. */

static bool say_reset(const uint8_t *p, size_t n) {
    if (n != 1)
        return false;
    say(", type ");
    say_id(p[0]);
    return true;
}

static bool say_init(const uint8_t *p, size_t n) { return n == 2 && p[0] == 0 && p[1] == 0; }

static bool say_create(const uint8_t *p, size_t n) { return n == 2 && p[0] == 1 && p[1] == 0; }

static bool say_close(const uint8_t *p, size_t n) {
    if (n != 1)
        return false;
    say(" connection ");
    say_id(p[0]);
    return true;
}

/* A mode, and in which periods it comes: 01 is in every one. */
static void say_often(const uint8_t *pair) {
    say(", ");
    if (pair[1] != 1)
        say("every %u ", pair[1]);
    say_mode(pair[0]);
}

/* How many modes are said, so that it takes less than 12 seconds: eight if each is in every period,
 * fewer with longer words. */
static unsigned most_modes(const uint8_t *p) {
    unsigned most = 8;
    for (unsigned i = 0; i < p[0]; i++) {
        const uint8_t *pair = p + 1 + 2 * i;
        if (!has_mode(pair[0]) || pair[1] > 10)
            most = 2;
        else if (pair[1] != 1 && most > 4)
            most = 4;
    }
    return most;
}

static bool say_discover(const uint8_t *p, size_t n) {
    unsigned most;
    if (n < 1 || n != 1 + 2 * (size_t)p[0])
        return false;
    most = most_modes(p);
    if (p[0] == 0)
        say(", no mode");
    for (unsigned i = 0; i < p[0] && i < most; i++)
        say_often(p + 1 + 2 * i);
    if (p[0] > most)
        say(", %u in all", p[0]);
    return true;
}

static bool say_select(const uint8_t *p, size_t n) {
    if (n != 3)
        return false;
    say(" ID ");
    say_id(p[0]);
    say(", ");
    say_protocol(p[1]);
    if (p[2] != 1) {
        say(", interface ");
        say_id(p[2]);
    }
    return true;
}

static bool say_deactivate(const uint8_t *p, size_t n) {
    if (n != 1)
        return false;
    say(" ");
    say_deactivation(p[0]);
    return true;
}

/* ---- what stands behind an OK, and in notifications */

static bool say_inited(const uint8_t *p, size_t n) {
    if (n != 16)
        return false;
    say(", control %u", p[8]);
    return true;
}

static bool say_created(const uint8_t *p, size_t n) {
    if (n != 4)
        return false;
    say(", connection ");
    say_id(p[3]);
    say(", payload %u, ", p[1]);
    say_grant(p[2]);
    return true;
}

static bool say_was_reset(const uint8_t *p, size_t n) {
    if (n != 5)
        return false;
    say("reset notice type ");
    say_id(p[1]);
    return true;
}

/* A notice of the bench has an entry for each connection at most, and all are said. */
static unsigned most_entries(const uint8_t *p) {
    unsigned most = 5;
    for (unsigned i = 0; i < p[0]; i++)
        if (p[1 + 2 * i] > 9 || p[2 + 2 * i] > 99)
            most = 2;
    return most;
}

static bool say_notice(const uint8_t *p, size_t n) {
    unsigned most;
    if (n < 3 || n != 1 + 2 * (size_t)p[0])
        return false;
    most = most_entries(p);
    for (unsigned i = 0; i < p[0] && i < most; i++) {
        say(i > 0 ? ", " : "");
        say_count(p[2 + 2 * i], "credit");
        say(" on ");
        say_id(p[1 + 2 * i]);
    }
    if (p[0] > most)
        say(", %u in all", p[0]);
    return true;
}

static bool say_error(const uint8_t *p, size_t n) {
    if (n != 1)
        return false;
    say("error, ");
    say_status(p[0]);
    return true;
}

static void say_endpoint(unsigned id, unsigned protocol, unsigned mode) {
    say(" ID ");
    say_id(id);
    say(", ");
    say_protocol(protocol);
    say(", ");
    say_mode(mode);
}

/* Parameters are said by their number. */
static void say_parameters(unsigned count) {
    if (count > 0) {
        say(", ");
        say_count(count, "parameter");
    }
}

static bool say_found(const uint8_t *p, size_t n) {
    if (n < 5 || n != 5 + (size_t)p[3])
        return false;
    say("found");
    say_endpoint(p[0], p[1], p[2]);
    say(", ");
    say_follows(p[n - 1]);
    say_parameters(p[3]);
    return true;
}

static bool say_activated(const uint8_t *p, size_t n) {
    if (n < 11 || n != 11 + (size_t)p[6])
        return false;
    say("activated");
    say_endpoint(p[0], p[2], p[3]);
    say(", payload %u, ", p[4]);
    say_grant(p[5]);
    say_parameters(p[6]);
    return true;
}

static bool say_deactivated(const uint8_t *p, size_t n) {
    if (n != 2)
        return false;
    say("deactivated ");
    say_deactivation(p[0]);
    say(" ");
    say_reason(p[1]);
    return true;
}

/* ---- control messages, by the names of their keys */

static const struct spoken {
    unsigned gid, oid;
    const char *name;
    /* what stands behind the name, behind the status OK or invalid parameter, or is the whole; false,
     * with nothing said, for another form than its own */
    bool (*command)(const uint8_t *, size_t), (*ok)(const uint8_t *, size_t), (*invalid)(const uint8_t *, size_t),
        (*notice)(const uint8_t *, size_t);
} spoken[] = {
    {0, 0, "reset", say_reset, NULL, NULL, say_was_reset},
    {0, 1, "init", say_init, say_inited, NULL, NULL},
    {0, 2, "set", say_set, say_was_set, say_not_set, NULL},
    {0, 3, "get", say_get, say_got, say_got, NULL},
    {0, 4, "create", say_create, say_created, NULL, NULL},
    {0, 5, "close", say_close, NULL, NULL, NULL},
    {0, 6, "credits", NULL, NULL, NULL, say_notice},
    {0, 7, "error", NULL, NULL, NULL, say_error},
    {1, 3, "discover", say_discover, NULL, NULL, say_found},
    {1, 4, "select", say_select, NULL, NULL, NULL},
    {1, 5, "activated", NULL, NULL, NULL, say_activated},
    {1, 6, "deactivate", say_deactivate, NULL, NULL, say_deactivated},
};

static const struct spoken *spoken_of(unsigned gid, unsigned oid) {
    for (size_t i = 0; i < sizeof spoken / sizeof *spoken; i++)
        if (spoken[i].gid == gid && spoken[i].oid == oid)
            return &spoken[i];
    return NULL;
}

void say_name(unsigned gid, unsigned oid) {
    const struct spoken *s = spoken_of(gid, oid);
    if (s != NULL) {
        say("%s", s->name);
    } else {
        say("unknown ");
        say_digit(gid);
        say(" ");
        say_id(oid);
    }
}

static void say_length(size_t length) {
    say(", ");
    say_count(length, "octet");
}

/* What kind of packet it is stands behind the name, where no verb says so. */
static void say_command(unsigned gid, unsigned oid, const uint8_t *p, size_t n, const char *kind) {
    const struct spoken *s = spoken_of(gid, oid);
    say_name(gid, oid);
    say("%s", kind);
    if (s == NULL || s->command == NULL || !s->command(p, n))
        say_length(n);
}

void say_arguments(unsigned gid, unsigned oid, const uint8_t *payload, size_t length) {
    say_command(gid, oid, payload, length, "");
}

/* What stands behind the status; false for another form than the response's own. A status other than
 * OK may always stand alone. */
static bool say_behind(const struct packet *p) {
    const struct spoken *s = spoken_of(p->id, p->oid);
    bool is_alone = p->length == 1;
    if (p->payload[0] == NCI_STATUS_OK && s != NULL && s->ok != NULL)
        return s->ok(p->payload, p->length);
    if (p->payload[0] == NCI_STATUS_INVALID_PARAM && s != NULL && s->invalid != NULL && !is_alone)
        return s->invalid(p->payload, p->length);
    return is_alone;
}

static void say_response(const struct packet *p) {
    say_name(p->id, p->oid);
    if (p->length == 0) {
        say(" response, empty");
        return;
    }
    say(" ");
    say_status(p->payload[0]);
    if (!say_behind(p))
        say_length(p->length);
}

static void say_notification(const struct packet *p) {
    const struct spoken *s = spoken_of(p->id, p->oid);
    if (s == NULL || s->notice == NULL || !s->notice(p->payload, p->length)) {
        say_name(p->id, p->oid);
        say(" notice");
        say_length(p->length);
    }
}

/* "command part of discover, 32 octets" */
static void say_part(const struct packet *p) {
    static const char *const mt[] = {"", "command", "response", "notice"};
    say("%s part of ", mt[p->mt & 3]);
    say_name(p->id, p->oid);
    say_length(p->length);
}

void say_control(const struct packet *p) {
    if (p->more)
        say_part(p);
    else if (p->mt == MT_CMD)
        say_command(p->id, p->oid, p->payload, p->length, " command");
    else if (p->mt == MT_RSP)
        say_response(p);
    else
        say_notification(p);
}
