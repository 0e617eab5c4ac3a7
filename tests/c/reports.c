/* What nci_report reads of the wires, as a front end in C asks it: packets that nobody wrote are put
 * in place of one that a loopback returned, and their payloads are changed. Under valgrind, with its
 * header at hand, the payloads that report does not look into may not be read at all. Prints how many
 * were so kept out of its reach and returns 0, or prints what does not hold and returns 1. */
#include "nci_bench.h"

#include <stdio.h>
#include <string.h>

#if defined __has_include
#if __has_include(<valgrind/memcheck.h>)
#include <valgrind/memcheck.h>
#endif
#endif
#ifndef VALGRIND_MAKE_MEM_NOACCESS
#define RUNNING_ON_VALGRIND 0
#define VALGRIND_MAKE_MEM_NOACCESS(at, len) ((void)(at), (void)(len))
#define VALGRIND_MAKE_MEM_DEFINED(at, len) ((void)(at), (void)(len))
#endif

static uint8_t area[NCI_AREA_SIZE], out[NCI_BUFFER_SIZE];
static unsigned kept_out;

#define BENCH area, sizeof area, out, sizeof out

/* A packet on the up wire, whether report looks into it, and its credits for 0 and for 2. */
struct forged {
    uint8_t packet[20];
    int looked_into;
    uint8_t credits[2];
};

static const struct forged all[] = {
    /* payloads that look like credits: INIT responses, discover notifications, data */
    {{0x40, 0x01, 3, 1, 2, 2}, 0, {0, 0}},
    {{0x40, 0x01, 16, 1, 2, 2, 0, 0, 0, 0, 0, 32, 0, 0, 0, 0, 1, 1, 0}, 0, {0, 0}},
    {{0x61, 0x03, 3, 1, 2, 2}, 0, {0, 0}},
    {{0x61, 0x03, 5, 1, 2, 2, 0, 2}, 0, {0, 0}},
    {{0x02, 0x00, 3, 1, 2, 2}, 0, {0, 0}},
    {{0x02, 0x03, 3, 1, 2, 2}, 0, {0, 3}},
    {{0x10, 0xFE, 3, 1, 0, 2}, 0, {2, 0}},
    {{0x40, 0x05, 1, 0}, 0, {0, 0}},
    {{0x61, 0x06, 2, 0, 0}, 0, {0, 0}},
    {{0x60, 0x26, 3, 1, 2, 2}, 0, {0, 0}},
    /* PBF 1, and a create response that has not four octets */
    {{0x50, 0x04, 4, 0, 4, 2, 2}, 0, {0, 0}},
    {{0x70, 0x06, 3, 1, 2, 2}, 0, {0, 0}},
    {{0x40, 0x04, 5, 0, 4, 2, 2, 2}, 0, {0, 0}},
    /* the three, as they are written and with spare bits set */
    {{0x60, 0x06, 3, 1, 2, 2}, 1, {0, 2}},
    {{0x60, 0xC6, 5, 2, 0, 1, 2, 8}, 1, {1, 8}},
    {{0x40, 0x04, 4, 0, 4, 2, 2}, 1, {0, 2}},
    {{0x40, 0xC4, 4, 0, 4, 2, 2}, 1, {0, 2}},
    {{0x61, 0x05, 11, 1, 1, 4, 0, 4, 3, 0, 0, 0, 0, 0}, 1, {3, 0}},
    {{0x61, 0x85, 11, 1, 1, 4, 0, 4, 3, 0, 0, 0, 0, 0}, 1, {3, 0}},
};

static int failed(const char *what, const uint8_t *packet) {
    printf("%s: %02X %02X %02X ..\n", what, packet[0], packet[1], packet[2]);
    return 1;
}

/* A command, asked, answered and read. */
static void ask(uint8_t gid, uint8_t oid, const uint8_t *payload, size_t len) {
    nci_command(BENCH, gid, oid, payload, len);
    nci_down(BENCH);
    while (nci_up(BENCH) == NCI_TAKEN) continue;
}

/* Connections 0 and 2 open with eight credits each; a packet of 2 on each wire, one credit in the
 * one that goes up. */
static void warm_up(void) {
    static const uint8_t profile[] = {0x20, 4, 8, 4, 8}, type[] = {1}, zeros[] = {0, 0}, create[] = {1, 0};
    static const uint8_t modes[] = {1, 0, 1}, poll[] = {NCI_AIR_POLL, 1, 4, 0}, message[] = {1, 2, 2};
    nci_fresh(BENCH, profile, sizeof profile);
    ask(0, 0, type, sizeof type);
    ask(0, 1, zeros, sizeof zeros);
    ask(0, 4, create, sizeof create);
    ask(1, 3, modes, sizeof modes);
    nci_air(BENCH, poll, sizeof poll);
    nci_up(BENCH);
    for (int i = 0; i < 2; i++) {
        nci_send(BENCH, 2, message, sizeof message);
        nci_push(BENCH, 2);
        if (i == 0) nci_down(BENCH);
    }
    nci_consume(BENCH, 2);
}

/* Where the last packet of a wire lies in the area: a spare bit changed there shows. */
static uint8_t *last_of(uint8_t wire) {
    uint8_t packet[NCI_PACKET_MAX];
    size_t len = nci_word_length(nci_packet(BENCH, wire, 0));
    memcpy(packet, out, len);
    for (uint8_t *at = area; at + NCI_PACKET_MAX <= area + sizeof area; at++) {
        if (memcmp(at, packet, len) != 0) continue;
        at[1] ^= 0x80;
        nci_packet(BENCH, wire, 0);
        at[1] ^= 0x80;
        if (out[1] != packet[1]) return at;
    }
    return NULL;
}

/* The five numbers of 0 and of 2, with these credits going up. */
static int told(const uint8_t *credits) {
    for (unsigned i = 0; i < 2; i++) {
        const uint8_t numbers[] = {(uint8_t)(8 - 2 * i), (uint8_t)i, 0, 0, credits[i]};
        uint64_t word = nci_report(BENCH, (uint8_t)(2 * i));
        if (nci_word_answer(word) != NCI_TAKEN || nci_word_length(word) != NCI_REPORT_SIZE) return 0;
        if (memcmp(out, numbers, sizeof numbers) != 0) return 0;
    }
    return 1;
}

/* The same numbers with the payload out of reach, and whatever stands there. */
static int unread(uint8_t *packet, const uint8_t *credits) {
    static const uint8_t others[] = {0x00, 0x01, 0x02, 0x08, 0xFF};
    size_t len = packet[2];
    int same;
    VALGRIND_MAKE_MEM_NOACCESS(packet + 3, len);
    same = told(credits);
    kept_out += RUNNING_ON_VALGRIND != 0;
    VALGRIND_MAKE_MEM_DEFINED(packet + 3, len);
    for (size_t i = 0; i < sizeof others; i++) {
        memset(packet + 3, others[i], len);
        same = same && told(credits);
    }
    return same;
}

int main(void) {
    static const uint8_t one_credit[] = {0, 1};
    uint8_t *down, *up;
    warm_up();
    down = last_of(NCI_WIRE_DOWN);
    up = last_of(NCI_WIRE_UP);
    if (down == NULL || up == NULL) {
        printf("there is no packet on each wire\n");
        return 1;
    }
    if (!unread(down, one_credit)) return failed("going down", down);
    for (size_t i = 0; i < sizeof all / sizeof *all; i++) {
        memcpy(up, all[i].packet, 3u + all[i].packet[2]);
        if (!told(all[i].credits)) return failed("forged", up);
        if (!all[i].looked_into && !unread(up, all[i].credits)) return failed("other payload", up);
    }
    printf("kept-out=%u\n", kept_out);
    return 0;
}
