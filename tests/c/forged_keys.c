/* The worked front end with one key more, which no candidate has: `bits down C0` sets these bits in
 * octet 1 of the first packet on a wire, down or up, as if its sender had left reserved bits at 1. It
 * is answered by `ev=bits ans=0`, and ends the program where there is no packet. */
#define main keys_main
#include "../../front/keys.c"
#undef main

/* Where octet 1 of that packet lies: changed there, it is another one when it is looked at. */
static uint8_t *second_octet(struct bench *b, unsigned wire) {
    uint8_t other;
    keep_first(b, wire);
    other = (uint8_t)(b->first[1] ^ 0xFF);
    for (uint8_t *at = b->area; b->first_length > 0 && at < b->area + sizeof b->area; at++) {
        *at ^= 0xFF;
        keep_first(b, wire);
        *at ^= 0xFF;
        if (b->first[1] == other)
            return at;
    }
    return NULL;
}

static bool set_bits(struct bench *b, struct text rest) {
    static struct octets bits;
    unsigned wire = is_named(next_word(&rest), "down") ? NCI_WIRE_DOWN : NCI_WIRE_UP;
    uint8_t *at = second_octet(b, wire);
    if (at == NULL || !read_octets(&bits, rest) || bits.length != 1)
        return false;
    *at |= bits.at[0];
    printf("ev=bits ans=0\n");
    return true;
}

static bool answer(struct session *s, struct text line) {
    struct text rest = line;
    return is_named(next_word(&rest), "bits") ? set_bits(&s->bench, rest) : answer_line(s, line);
}

int main(void) {
    static struct session session;
    struct text line;
    bool more = begin(&session);
    while (more && read_line(&line, &session.failed)) {
        more = answer(&session, line);
        fflush(stdout);
    }
    return 0;
}
