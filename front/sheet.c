#include "sheet.h"

bool is_sheet(struct text line) { return take_text(&line, "ev="); }

/* Whether an air event has as many octets as its kind asks for; of a kind that is none, any. */
static bool takes_event(const struct octets *arg) {
    static const uint8_t fields[] = {1, 5, 4, 4, 1, 1, 1, 1, 1};
    unsigned kind;
    if (arg->length == 0)
        return false;
    kind = arg->at[0];
    if (kind < NCI_AIR_FOUND || kind > NCI_AIR_MESSAGE)
        return true;
    return kind < NCI_AIR_FAILED || kind == NCI_AIR_MESSAGE ? arg->length >= fields[kind] : arg->length == 1;
}

/* Whether the sheet takes so many octets for a call. */
static bool takes(enum call call, const struct octets *arg) {
    size_t n = arg->length;
    switch (call) {
    case FRESH: return n == NCI_PROFILE_SIZE || n == NCI_LONG_PROFILE_SIZE;
    case COMMAND: return n >= 2;
    case SEND: return n >= 1;
    case PUSH:
    case CONSUME:
    case REPORT: return n == 1;
    case READ: return true;
    case AIR: return takes_event(arg);
    default: return n == 0;
    }
}

/* Reads capital hex digits in pairs, to the end. */
static bool read_digits(struct octets *arg, struct text digits) {
    arg->length = 0;
    for (size_t i = 0; i < digits.length; i++)
        if (digit(digits.at[i]) < 0 || digits.at[i] >= 'a')
            return false;
    return digits.length % 2 == 0 && (digits.length == 0 || add_word(arg, digits));
}

static bool take_name(struct text *rest, enum call *call) {
    for (unsigned i = FRESH; i <= RUN; i++) {
        struct text after = *rest;
        if (take_text(&after, call_name((enum call)i)) && take_text(&after, " arg=")) {
            *call = (enum call)i;
            *rest = after;
            return true;
        }
    }
    return false;
}

bool read_sheet(struct text line, enum call *call, struct octets *arg) {
    enum { SHEET_MAX = 2100 }; /* characters */
    bool fits = line.length <= SHEET_MAX;
    return take_text(&line, "ev=") && fits && take_name(&line, call) && read_digits(arg, line) && takes(*call, arg);
}

bool write_sheet(FILE *file, const struct told *t) {
    fprintf(file, "ev=%s arg=", call_name(t->call));
    for (size_t i = 0; i < t->arg.length; i++)
        fprintf(file, "%02X", t->arg.at[i]);
    fprintf(file, "\n");
    return fflush(file) == 0 && !ferror(file);
}
