/* The keys of the NCI exam bench by name, one a line, for candidates who work by ear.
 *
 * Every key is answered by one line: in full, the fields of the paper sheet and the same in
 * plain words; in brief, few words made for the ear. A key stands for one call of the bench;
 * its arguments are octets in hex. docs/FRONT-ENDS.md has the keys and what a line holds,
 * docs/BY-EAR.md how the bench is worked by ear. */
#include <stdio.h>
#include <string.h>

#include "answer.h"
#include "help.h"
#include "octets.h"
#include "sheet.h"
#include "state.h"
#include "streams.h"

struct session {
    struct bench bench;
    struct told told;     /* the last call */
    struct answer answer; /* the last answer */
    bool is_brief;        /* the form that is written */
    FILE *log;            /* where calls are written as lines of the sheet, or NULL */
    const char *log_name;
    bool failed;          /* an answer, or a line of the log, is lost */
};

/* ---- answering */

static void log_call(struct session *s) {
    if (s->log == NULL || write_sheet(s->log, &s->told))
        return;
    complain("the log ", s->log_name, "written");
    s->failed = true;
}

static void call(struct session *s, enum call call, const struct octets *arg) {
    s->told.arg = *arg;
    make_call(&s->bench, &s->told, call);
    answer_call(&s->answer, &s->told);
    log_call(s);
}

static void answer_sheet(struct session *s, struct text line) {
    static struct octets arg;
    enum call which;
    if (read_sheet(line, &which, &arg))
        call(s, which, &arg);
    else
        answer_bad(&s->answer, "no line of the sheet", "no line of the sheet");
}

static size_t say_state_after(const struct told *t, size_t from) { return say_state(&t->state, from); }

static void answer_parts(struct session *s, const char *name, say_part *part, size_t from) {
    answer_part(&s->answer, name, &s->told, part, from);
}

/* Answers a key with its octets. */
static void answer_key(struct session *s, const struct key *key, const struct octets *arg) {
    switch (key->call) {
    case OCTETS: answer_parts(s, "octets", say_octets_after, 0); break;
    case MORE: answer_parts(s, "more", s->answer.rest, s->answer.from); break;
    case STATE: answer_parts(s, "state", say_state_after, 0); break;
    case QUIT: answer_text(&s->answer, "quit", "the end"); break;
    default: call(s, key->call, arg); break;
    }
}

/* ---- lines */

static void write_answer(const struct session *s) {
    printf("%s\n", s->is_brief ? s->answer.brief.at : s->answer.full.at);
}

/* The keys that leave the last answer as it is. Changing the form is answered in the new one. */
static bool is_aside(struct session *s, enum call call) {
    if (call == AGAIN) {
        write_answer(s);
    } else if (call == BRIEF || call == FULL) {
        s->is_brief = call == BRIEF;
        printf(s->is_brief ? "brief\n" : "ev=full ans=0 says=\"full\"\n");
    } else {
        return false;
    }
    return true;
}

/* Answers one line; false if it is the last. */
static bool answer_line(struct session *s, struct text line) {
    static struct octets arg;
    struct text rest = line;
    const struct key *key = key_named(next_word(&rest));
    if (line.length > LINE_MAX_READ) {
        answer_bad(&s->answer, "the line is too long", "line too long");
    } else if (is_sheet(line)) {
        answer_sheet(s, line);
    } else if (key == NULL) {
        answer_bad(&s->answer, "no such key; help names the keys", "no such key");
    } else if (key->call == CARD) {
        answer_card(&s->answer, key, rest);
    } else if (key->call == HELP) {
        answer_help(&s->answer, key, rest);
    } else if (!read_arguments(&arg, key, rest)) {
        answer_untaken(&s->answer, key, "not understood");
    } else if (is_aside(s, key->call)) {
        return true;
    } else {
        answer_key(s, key, &arg);
        write_answer(s);
        return key->call != QUIT;
    }
    write_answer(s);
    return true;
}

/* ---- the session */

/* The first call makes the bench. It is logged, so that a log which goes on after another session's
 * begins anew. */
static bool begin(struct session *s) {
    static const struct octets profile = {NCI_PROFILE_SIZE, FIRST_PROFILE};
    call(s, FRESH, &profile);
    return was_taken(&s->told) && !s->failed;
}

/* Writes what was answered, at once: it is there before the next key. */
static void flush(struct session *s) {
    if (fflush(stdout) == 0 && !ferror(stdout))
        return;
    complain("the answer", "", "written");
    s->failed = true;
}

static void close_log(struct session *s) {
    if (s->log == NULL || fclose(s->log) == 0 || s->failed)
        return;
    complain("the log ", s->log_name, "written");
    s->failed = true;
}

static bool open_log(struct session *s, const char *name) {
    s->log_name = name;
    s->log = fopen(name, "a");
    if (s->log == NULL)
        complain("the log ", name, "opened");
    return s->log != NULL;
}

/* --brief starts in brief; --log FILE writes each call at the end of FILE as a line of the sheet.
 * Gives the exit status of wrong options, or 0. */
static int read_options(struct session *s, int count, char **options) {
    for (int i = 1; i < count; i++) {
        if (strcmp(options[i], "--brief") == 0) {
            s->is_brief = true;
        } else if (strcmp(options[i], "--log") == 0 && i + 1 < count && s->log == NULL) {
            if (!open_log(s, options[++i]))
                return 1;
        } else {
            fprintf(stderr, "keys: --brief and --log FILE are all the options; keys are typed, one a line\n");
            return 2;
        }
    }
    return 0;
}

int main(int count, char **options) {
    static struct session session;
    static char written[LINE_MAX_WRITTEN];
    struct text line;
    bool more = streams_open();
    int wrong = more ? read_options(&session, count, options) : 1;
    setvbuf(stdout, written, _IOFBF, sizeof written);
    more = wrong == 0 && begin(&session);
    while (more && !session.failed && read_line(&line, &session.failed)) {
        more = answer_line(&session, line);
        flush(&session);
    }
    close_log(&session);
    return session.failed ? 1 : wrong;
}
