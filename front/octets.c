#include "octets.h"

#include "line.h"
#include "names.h"

enum { BREATH = 8 }; /* octets that are said at once */

struct part {
    const char *label;
    const uint8_t *at;
    size_t length; /* 0 past the last part */
};

static struct part kept_part(const char *label, const struct kept *kept) {
    struct part part = {label, kept->at, kept->length};
    return part;
}

/* The parts in their order, those that are empty left out. */
static struct part part_at(const struct told *t, unsigned i) {
    struct part none = {"typed", t->arg.at, 0};
    unsigned behind = i - t->puts, messages = t->message.length > 0 ? 1 : 0;
    if (i < t->puts)
        return kept_part(nci_word_put_down(t->word) > 0 ? "down" : "up", &t->put[i]);
    if (behind == 0 && messages > 0)
        return kept_part("message", &t->message);
    if (behind == messages && t->taken.length > 0)
        return kept_part("taken", &t->taken);
    if (i == 0)
        none.length = t->arg.length;
    return none;
}

/* The part's name: its number where several packets were put, where in it the octets begin, and at
 * its beginning its length, where it is longer. */
static void say_label(const struct told *t, const struct part *part, unsigned i, size_t from) {
    say("%s", part->label);
    if (i < t->puts && t->puts > 1)
        say(" %u of %u", i + 1, t->puts);
    if (from > 0)
        say(" from octet %u", (unsigned)from);
    else if (part->length > BREATH)
        say(" length %u", (unsigned)part->length);
    say(", ");
}

size_t say_octets_after(const struct told *t, size_t said) {
    size_t from = said, count;
    unsigned i = 0;
    struct part part = part_at(t, 0);
    for (; part.length > 0 && part.length <= from; part = part_at(t, ++i))
        from -= part.length;
    if (part.length == 0) {
        say("no more");
        return said;
    }
    count = part.length - from < BREATH ? part.length - from : BREATH;
    say_label(t, &part, i, from);
    say_pairs(part.at + from, count);
    say(from + count < part.length || part_at(t, i + 1).length > 0 ? ", more" : "");
    return said + count;
}
