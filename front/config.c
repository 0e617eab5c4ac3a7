#include "config.h"

#include "breath.h"
#include "line.h"
#include "names.h"
#include "nci_bench.h"
#include "parameter.h"

/* ---- a parameter and its value */

/* A parameter without a name is said by its ID. */
static void say_named(unsigned id) {
    const struct parameter *parameter = parameter_of(id);
    if (parameter != NULL) {
        say("%s", parameter->spoken);
    } else {
        say("ID ");
        say_id(id);
    }
}

/* As it is typed, or by its length. */
static void say_value(const uint8_t *value, size_t length) {
    enum { MOST_OF_VALUE = 4 }; /* octets that are said */
    if (length == 1)
        say_id(value[0]);
    else if (length <= MOST_OF_VALUE)
        say_pairs(value, length);
    else
        say_count(length, "octet");
}

/* ---- lists */

/* A list, and what is said for a value of no octets; NULL where values are not said. */
struct told_list {
    struct list list;
    const char *empty;
};

/* Digits of an ID and of a value are kept apart. */
static bool say_listed(const void *of, size_t number) {
    const struct told_list *told = of;
    struct list list = told->list;
    struct listed listed = {0, NULL, 0};
    for (size_t i = 0; i <= number; i++)
        if (!next_listed(&list, &listed))
            return false;
    say_named(listed.id);
    if (told->empty != NULL) {
        say(parameter_of(listed.id) == NULL && listed.length > 0 ? " value " : " ");
        if (listed.length == 0)
            say("%s", told->empty);
        else
            say_value(listed.value, listed.length);
    }
    return true;
}

/* ---- messages */

static struct told_list told_list(const uint8_t *p, size_t n, bool values, const char *empty) {
    struct told_list told = {list_at(p, n, values), empty};
    return told;
}

/* The list behind a status. Of parameters that are not known the lengths are 0. */
static bool list_behind(struct told_list *told, bool of_set, const uint8_t *p, size_t n) {
    bool is_ok = n > 0 && p[0] == NCI_STATUS_OK;
    if (n < 2 || (!is_ok && p[0] != NCI_STATUS_INVALID_PARAM) || (is_ok && of_set))
        return false;
    *told = told_list(p + 1, n - 1, !of_set, is_ok ? "empty" : NULL);
    return is_ok || of_set || n == 2 + 2 * (size_t)p[1];
}

/* The list of a message, if it has one and all of it. */
static bool list_in(struct told_list *told, const struct packet *p) {
    bool of_set = p->oid == NCI_OID_SET_CONFIG, is_there = p->mt == MT_CMD;
    if (p->more || p->id != NCI_GID_CORE || (!of_set && p->oid != NCI_OID_GET_CONFIG))
        return false;
    if (p->mt == MT_CMD)
        *told = told_list(p->payload, p->length, of_set, of_set ? "default" : NULL);
    else if (p->mt == MT_RSP)
        is_there = list_behind(told, of_set, p->payload, p->length);
    return is_there && is_whole(told->list);
}

static bool say_list(unsigned mt, unsigned oid, const uint8_t *payload, size_t length) {
    struct packet p = {mt, false, NCI_GID_CORE, oid, 0, payload, length};
    struct told_list told;
    if (!list_in(&told, &p))
        return false;
    say(", ");
    if (told.list.left == 0)
        say("no parameter");
    else
        say_breath(say_listed, &told, 0);
    return true;
}

bool say_set(const uint8_t *p, size_t n) { return say_list(MT_CMD, NCI_OID_SET_CONFIG, p, n); }

bool say_get(const uint8_t *p, size_t n) { return say_list(MT_CMD, NCI_OID_GET_CONFIG, p, n); }

bool say_was_set(const uint8_t *p, size_t n) { return n == 2 && p[1] == 0; }

bool say_not_set(const uint8_t *p, size_t n) { return say_list(MT_RSP, NCI_OID_SET_CONFIG, p, n); }

bool say_got(const uint8_t *p, size_t n) { return say_list(MT_RSP, NCI_OID_GET_CONFIG, p, n); }

/* ---- what the key more says */

size_t listed_at_first(const struct packet *p) {
    static struct line unheard;
    struct told_list told;
    struct line *line;
    size_t next;
    if (!list_in(&told, p))
        return 0;
    line = say_to(&unheard);
    next = say_breath(say_listed, &told, 0);
    say_on(line);
    return next < told.list.left ? next : 0;
}

size_t say_listed_from(const struct packet *p, size_t from) {
    struct told_list told;
    return list_in(&told, p) ? say_breath(say_listed, &told, from) : from;
}

/* ---- the names */

void say_name_and_id(const struct parameter *parameter) {
    say("%s ID ", parameter->spoken);
    say_id(parameter->id);
}

static bool say_name_at(const void *of, size_t number) {
    const struct parameter *parameter = parameter_at(number);
    (void)of;
    if (parameter != NULL)
        say_name_and_id(parameter);
    return parameter != NULL;
}

size_t say_names(size_t from) { return say_breath(say_name_at, NULL, from); }
