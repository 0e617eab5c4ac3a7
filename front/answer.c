#include "answer.h"

#include "brief.h"
#include "full.h"
#include "octets.h"

void answer_call(struct answer *a, const struct told *t) {
    say_to(&a->full);
    say_full(t);
    say_to(&a->brief);
    say_brief(t);
    a->from = listed_in_brief(t);
    a->rest = a->from > 0 ? say_listed_after : say_octets_after;
}

void answer_text(struct answer *a, const char *name, const char *text) {
    say_to(&a->full);
    say("ev=%s ans=0 says=\"%s\"", name, text);
    say_to(&a->brief);
    say("%s", text);
}

void answer_part(struct answer *a, const char *name, const struct told *t, say_part *part, size_t from) {
    static struct line text;
    say_to(&text);
    a->rest = part;
    a->from = part(t, from);
    answer_text(a, name, text.at);
}

void answer_bad(struct answer *a, const char *why, const char *brief) {
    say_to(&a->full);
    say("ev=bad ans=%u says=\"%s\"", NCI_OUTSIDE_LIMIT, why);
    say_to(&a->brief);
    say("%u, bad, %s", NCI_OUTSIDE_LIMIT, brief);
}

void answer_untaken(struct answer *a, const struct key *key, const char *why) {
    say_to(&a->full);
    say("ev=bad ans=%u says=\"%s; %s\"", NCI_OUTSIDE_LIMIT, why, key->help);
    say_to(&a->brief);
    say("%u, bad, type %s", NCI_OUTSIDE_LIMIT, key->typed);
}
