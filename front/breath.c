#include "breath.h"

#include "line.h"

enum {
    BREATH = 78, /* characters that are heard in 8 seconds, with the pauses between clauses */
    PAUSE = 4    /* so many characters take as long as a pause */
};

/* A clause on a line of its own. */
static bool make_clause(struct line *words, say_clause *clause, const void *of, size_t number) {
    struct line *line = say_to(words);
    bool is_there = clause(of, number);
    say_on(line);
    return is_there;
}

size_t say_breath(say_clause *clause, const void *of, size_t from) {
    static struct line words;
    size_t next = from, said = 0;
    for (; make_clause(&words, clause, of, next); next++) {
        if (said > 0 && said + words.length > BREATH) {
            say(", more");
            return next;
        }
        say("%s%s", said > 0 ? ", " : "", words.at);
        said += words.length + PAUSE;
    }
    say(said == 0 ? "no more" : "");
    return next;
}
