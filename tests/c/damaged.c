/* Damaged benches from C, for the sanitizers and for valgrind: octets of a bench are changed
 * at random and every export is called on it, with slices of their own in the heap.
 * `damaged [CALLS] [SEED]`. A refusal changes no octet, a taken call none of the buffer past
 * its message, nci_read and nci_state none of the area, nor a press of run that makes no move; reserved
 * bits are shown only where nothing was dropped, and not by a press. A press ends, with no more moves
 * than any record has. Prints the calls made, those taken, those that showed such bits and the moves of
 * presses; returns 1 if something does not hold. */
#include "nci_bench.h"

#include <stdio.h>
#include <stdlib.h>
#include <string.h>

#define PAST 16u /* octets of the area past its end */
#define MARK 0xC3
#define MOVES 27877u /* no record has more */

static uint64_t state;
static uint8_t *area, *before, *warm, *out;
static unsigned long calls, taken, reserved, moves;

enum { RUN = 12, STATE = 13, READ = 14, FRESH = 15 }; /* of the exports by number */

static uint64_t number(void) { /* splitmix64 */
    uint64_t mixed = state += 0x9E3779B97F4A7C15u;
    mixed = (mixed ^ mixed >> 30) * 0xBF58476D1CE4E5B9u;
    mixed = (mixed ^ mixed >> 27) * 0x94D049BB133111EBu;
    return mixed ^ mixed >> 31;
}

static size_t below(size_t limit) { return (size_t)(number() % limit); }

/* Octets of exactly this length in the heap, so that reading past them is seen. */
static uint8_t *octets(size_t len) {
    uint8_t *argument = (uint8_t *)malloc(len + (len == 0));
    if (argument == NULL) abort();
    for (size_t i = 0; i < len; i++) argument[i] = (uint8_t)number();
    return argument;
}

/* Calls fresh with a profile of either length, or of one near them, mostly inside its limits. */
static uint64_t play_fresh(void) {
    static const size_t lengths[] = {0, 4, 5, 5, 5, 6, 10, 11, 11, 11, 12};
    size_t len = lengths[below(sizeof lengths / sizeof *lengths)];
    uint8_t *profile = octets(len);
    uint64_t word;
    for (size_t i = 0; i < len; i++)
        if (below(32) != 0) profile[i] = (uint8_t)(i == 0 ? 32 + below(224) : 1 + below(8));
    word = nci_fresh(area, NCI_AREA_SIZE + PAST, out, NCI_BUFFER_SIZE, profile, len);
    free(profile);
    return word;
}

/* Reads octets that are a packet, mostly, of up to 258 octets or more. */
static uint64_t play_read(void) {
    size_t len = below(4) == 0 ? below(300) : 3 + below(9);
    uint8_t *packet = octets(len);
    uint64_t word;
    if (len > 2 && below(4) != 0) packet[2] = (uint8_t)(len - 3);
    word = nci_read(packet, len);
    free(packet);
    return word;
}

/* A list of parameters, mostly of known ones with a value of one octet, of which there are
 * as many as it says or not. */
static void make_list(uint8_t *list, size_t len, int is_set) {
    static const uint8_t ids[] = {0x08, 0x09, 0x10, 0x11, 0x12, 0x13, 0x14, 0x18,
                                  0x19, 0x1A, 0x20, 0x21, 0x28, 0x2A, 0x2F, 0x68};
    if (len > 0) list[0] = (uint8_t)below(4);
    for (size_t i = 1; i < len; i++) {
        if (!is_set || i % 3 == 1)
            list[i] = ids[below(sizeof ids)];
        else
            list[i] = (uint8_t)(i % 3 == 2 ? below(8) != 0 : below(3));
    }
}

/* One of the sixteen exports. */
static uint64_t play(unsigned which) {
    static const uint8_t known[][2] = {{0, 0}, {0, 1}, {0, 2}, {0, 3}, {0, 4}, {0, 5}, {1, 3}, {1, 4}, {1, 6}};
    const uint8_t *command = known[below(sizeof known / sizeof *known)];
    size_t n = NCI_AREA_SIZE + PAST, m = NCI_BUFFER_SIZE, len = below(4) == 0 ? below(1030) : below(8);
    uint8_t conn = (uint8_t)below(7), wire = (uint8_t)below(3), back = (uint8_t)below(18), *argument = octets(len);
    uint64_t word;
    if (len > 0 && which == 8) argument[0] = (uint8_t)(1 + below(8));
    if (which == 1 && command[0] == 0 && (command[1] == 2 || command[1] == 3) && below(8) != 0)
        make_list(argument, len, command[1] == 2);
    switch (which) {
    case 0: word = nci_power(area, n, out, m); break;
    case 1: word = nci_command(area, n, out, m, command[0], command[1], argument, len); break;
    case 2: word = nci_send(area, n, out, m, conn, argument, len); break;
    case 3: word = nci_push(area, n, out, m, conn); break;
    case 4: word = nci_down(area, n, out, m); break;
    case 5: word = nci_consume(area, n, out, m, conn); break;
    case 6: word = nci_credit(area, n, out, m); break;
    case 7: word = nci_reply(area, n, out, m); break;
    case 8: word = nci_air(area, n, out, m, argument, len); break;
    case 9: word = nci_up(area, n, out, m); break;
    case 10: word = nci_report(area, n, out, m, conn); break;
    case 11: word = nci_packet(area, n, out, m, wire, back); break;
    case RUN: word = nci_run(area, n, out, m); break;
    case STATE: word = nci_state(area, n, out, m); break;
    case READ: word = play_read(); break;
    default: word = play_fresh(); break;
    }
    free(argument);
    return word;
}

/* Whether a press says what it may, where the area is the one after it. */
static int pressed(uint64_t word) {
    unsigned made = nci_word_moves(word);
    moves += made;
    return made <= MOVES && nci_word_rfu(word) == 0 && (made > 0 || memcmp(before, area, NCI_AREA_SIZE) == 0);
}

/* A call and what it may change. */
static int step(unsigned which) {
    size_t first = 0;
    uint64_t word;
    memcpy(before, area, NCI_AREA_SIZE + PAST);
    memset(out, MARK, NCI_BUFFER_SIZE);
    word = play(which);
    calls++;
    reserved += nci_word_rfu(word) != 0;
    if (nci_word_rfu(word) != 0 && nci_word_dropped(word)) return 1;
    if (which == RUN && !pressed(word)) return 1;
    if ((which == READ || which == STATE) && memcmp(before, area, NCI_AREA_SIZE + PAST) != 0) return 1;
    if (nci_word_answer(word) == NCI_TAKEN) {
        taken++;
        first = nci_word_length(word);
        if (memcmp(before + NCI_AREA_SIZE, area + NCI_AREA_SIZE, PAST) != 0) return 1;
    } else if (memcmp(before, area, NCI_AREA_SIZE + PAST) != 0) {
        return 1;
    }
    for (size_t i = first; i < NCI_BUFFER_SIZE; i++) {
        if (out[i] != MARK) return 1;
    }
    return 0;
}

/* An octet of the record, of the values behind it or of the slots becomes another one, mostly a
 * small one. */
static void damage(void) {
    size_t place = below(2) == 0 ? NCI_AREA_SIZE - 512 + below(190) : below(18576);
    area[place] = below(3) == 0 ? (uint8_t)number() : (uint8_t)below(9);
}

/* A bench with two parameters set, two loopbacks, one of them with a message in hand and a
 * packet stored, the other with one credit, and connection 0 active with a message of the
 * endpoint. */
static void warm_up(void) {
    static const uint8_t profile[] = {0x20, 4, 8, 1, 1, 255, 8, 4, 8, 4, 8};
    static const uint8_t commands[][12] = {
        {0, 0, 1, 1}, {0, 1, 2, 0, 0}, {0, 2, 9, 2, 0x08, 1, 1, 0x20, 3, 7, 8, 9},
        {0, 4, 2, 1, 0}, {0, 4, 2, 1, 0}, {1, 3, 3, 1, 0, 1}};
    static const uint8_t event[] = {2, 1, 4, 0}, message[] = {8, 1, 2, 3, 4, 5, 6, 7, 8, 9};
    size_t n = NCI_AREA_SIZE, m = NCI_BUFFER_SIZE;
    nci_fresh(area, n, out, m, profile, sizeof profile);
    for (size_t i = 0; i < sizeof commands / sizeof commands[0]; i++) {
        nci_command(area, n, out, m, commands[i][0], commands[i][1], commands[i] + 3, commands[i][2]);
        nci_down(area, n, out, m);
        while (nci_up(area, n, out, m) == NCI_TAKEN) continue;
    }
    nci_air(area, n, out, m, event, sizeof event);
    nci_up(area, n, out, m);
    nci_air(area, n, out, m, message, sizeof message);
    nci_send(area, n, out, m, 2, message, sizeof message);
    nci_push(area, n, out, m, 2);
    nci_down(area, n, out, m);
    nci_push(area, n, out, m, 2);
    nci_reply(area, n, out, m);
    memcpy(warm, area, NCI_AREA_SIZE + PAST);
}

int main(int argc, char **argv) {
    unsigned long most = argc > 1 ? strtoul(argv[1], NULL, 10) : 100000;
    int fault = 0;
    state = argc > 2 ? strtoull(argv[2], NULL, 10) : 1;
    area = octets(NCI_AREA_SIZE + PAST);
    before = octets(NCI_AREA_SIZE + PAST);
    warm = octets(NCI_AREA_SIZE + PAST);
    out = octets(NCI_BUFFER_SIZE);
    warm_up();
    while (calls < most && !fault) {
        memcpy(area, warm, NCI_AREA_SIZE + PAST);
        for (size_t i = below(4); i > 0; i--) damage();
        for (unsigned i = 0; i < 60 && !fault; i++) fault = step((unsigned)below(FRESH));
        fault = fault || step(FRESH);
    }
    printf("calls=%lu taken=%lu reserved=%lu moves=%lu fault=%d\n", calls, taken, reserved, moves, fault);
    free(area);
    free(before);
    free(warm);
    free(out);
    return fault || taken == 0 || reserved == 0 || moves == 0;
}
