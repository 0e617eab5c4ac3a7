#include "help.h"

#include "config.h"

/* ---- the card */

/* Whether the card has a number: there is no 13. */
static bool on_card(int number) { return number >= 0 && number <= (int)NCI_SEND_CLOSING && number != 13; }

/* The card's line for the ear: letters, digits, blanks and commas. */
static void say_card(int number) {
    say("card %d, ", number);
    for (const char *c = nci_card((unsigned)number); *c != '\0'; c++)
        if (*c != '\'' && !(*c == ',' && digit(c[1]) >= 0))
            say("%c", *c == '_' || *c == '-' ? ' ' : *c == ':' ? ',' : *c);
}

void answer_card(struct answer *a, const struct key *key, struct text rest) {
    int number = read_number(next_word(&rest));
    if (!on_card(number) || next_word(&rest).length > 0) {
        answer_untaken(a, key, "the card has numbers 0 to 12, 14 and 15");
        return;
    }
    say_to(&a->full);
    say("ev=card ans=0 says=\"%d: %s\"", number, nci_card((unsigned)number));
    say_to(&a->brief);
    say_card(number);
}

/* ---- help */

static const char *const group_names[] = {"commands", "moves", "events", "bench", "speech"};

/* The group of a name, or GROUPS. */
static enum group group_named(struct text word) {
    unsigned group = 0;
    while (group < GROUPS && !is_named(word, group_names[group]))
        group++;
    return (enum group)group;
}

/* In full all names, in brief the groups. */
static void answer_names(struct answer *a) {
    const struct key *key;
    say_to(&a->full);
    say("ev=help ans=0 says=\"");
    for (size_t i = 0; (key = key_at(i)) != NULL; i++)
        say("%s%s", i > 0 ? " " : "", key->name);
    say("\"");
    say_to(&a->brief);
    say("help");
    for (unsigned group = 0; group < GROUPS; group++)
        say("%s %s", group > 0 ? "," : "", group_names[group]);
}

static void answer_group(struct answer *a, enum group group) {
    static struct line names;
    const char *before = "";
    const struct key *key;
    say_to(&names);
    for (size_t i = 0; (key = key_at(i)) != NULL; i++) {
        if (key->group != group)
            continue;
        say("%s%s", before, key->name);
        before = ", ";
    }
    answer_text(a, "help", names.at);
}

static void answer_key(struct answer *a, const struct key *key) {
    say_to(&a->full);
    say("ev=help ans=0 says=\"%s\"", key->help);
    say_to(&a->brief);
    say("%s, %s", key->typed, key->does);
}

/* ---- help on configuration parameters */

static size_t say_names_after(const struct told *t, size_t from) {
    (void)t;
    return say_names(from);
}

/* In full all of them, in brief some, and the key more goes on. */
static void answer_parameters(struct answer *a) {
    const struct parameter *parameter;
    say_to(&a->full);
    say("ev=help ans=0 says=\"");
    for (size_t i = 0; (parameter = parameter_at(i)) != NULL; i++)
        say("%s%02X %s", i > 0 ? ", " : "", parameter->id, parameter->name);
    say("\"");
    say_to(&a->brief);
    a->rest = say_names_after;
    a->from = say_names(0);
}

static void answer_parameter(struct answer *a, const struct parameter *parameter) {
    say_to(&a->full);
    say("ev=help ans=0 says=\"%02X %s\"", parameter->id, parameter->name);
    say_to(&a->brief);
    say_name_and_id(parameter);
}

/* ---- all of it */

static void answer_asked(struct answer *a, struct text name) {
    const struct key *asked = key_named(name);
    const struct parameter *parameter = parameter_named(name);
    enum group group = group_named(name);
    if (asked != NULL)
        answer_key(a, asked);
    else if (group < GROUPS)
        answer_group(a, group);
    else if (is_named(name, "parameters"))
        answer_parameters(a);
    else if (parameter != NULL)
        answer_parameter(a, parameter);
    else
        answer_bad(a, "no such key; help names the keys", "no such key");
}

void answer_help(struct answer *a, const struct key *key, struct text rest) {
    struct text name = next_word(&rest);
    if (name.length == 0)
        answer_names(a);
    else if (next_word(&rest).length > 0)
        answer_untaken(a, key, "not understood");
    else
        answer_asked(a, name);
}
