#define _POSIX_C_SOURCE 200112L /* fcntl: C alone cannot tell a closed output before it is lost */
#include "streams.h"

#include <errno.h>
#include <fcntl.h>
#include <string.h>
#include <unistd.h>

void complain(const char *what, const char *name, const char *cannot) {
    const char *why = strerror(errno);
    fprintf(stderr, "keys: %s%s cannot be %s: %s\n", what, name, cannot, why);
}

/* A file that is opened while one of them is closed would take its place. */
bool streams_open(void) {
    if (fcntl(STDIN_FILENO, F_GETFD) < 0) {
        complain("the input", "", "read");
        return false;
    }
    if (fcntl(STDOUT_FILENO, F_GETFD) < 0) {
        complain("the answer", "", "written");
        return false;
    }
    return true;
}

/* Keys take the carriage return for a blank, the sheet's lines do not; a BOM is part of a line. */
static void tell_form(struct text line) {
    static bool told;
    bool crlf = line.length > 0 && line.at[line.length - 1] == '\r';
    if (told || !(crlf || take_text(&line, "\xEF\xBB\xBF")))
        return;
    told = true;
    fprintf(stderr, "keys: note: lines end in CRLF, or begin with a BOM; README.md says how to convert\n");
}

bool read_line(struct text *line, bool *failed) {
    static char characters[LINE_MAX_READ + 1];
    int c = getchar();
    bool any = c != EOF;
    line->at = characters;
    line->length = 0;
    for (; c != EOF && c != '\n'; c = getchar())
        if (line->length < sizeof characters)
            characters[line->length++] = (char)c;
    if (c == EOF && ferror(stdin)) {
        complain("the input", "", "read");
        *failed = true;
        return false;
    }
    if (c == '\n')
        tell_form(*line);
    return any;
}
