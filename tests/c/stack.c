/* How much stack the library needs: every export is called on a stack of so many octets, with a
 * page below it that nobody may touch. `stack [OCTETS]`. Prints the octets that were used and
 * returns 0, or dies where the stack does not suffice. The octets for the calls of this program
 * itself, one small frame, are among them. */
#define _DEFAULT_SOURCE
#include "nci_bench.h"

#include <stdio.h>
#include <stdlib.h>
#include <string.h>
#include <sys/mman.h>
#include <ucontext.h>

#define PAGE 4096u
#define MARK 0xA7

static uint8_t area[NCI_AREA_SIZE], before[NCI_AREA_SIZE], out[NCI_BUFFER_SIZE], octets[1025];
static ucontext_t here, there;
static unsigned taken;

#define BENCH area, sizeof area, out, sizeof out

static void count(uint64_t word) { taken += nci_word_answer(word) == NCI_TAKEN; }

/* A command, asked, answered and read. */
static void ask(uint8_t gid, uint8_t oid, size_t len, uint8_t first) {
    octets[0] = first;
    count(nci_command(BENCH, gid, oid, octets, len));
    while (nci_word_answer(nci_down(BENCH)) == NCI_TAKEN) taken++;
    while (nci_up(BENCH) == NCI_TAKEN) continue;
}

/* The longest message to a connection, packet by packet. A loopback's packets return their
 * credits, so a notice is taken on connection 0 alone. */
static void move_to(uint8_t conn) {
    count(nci_send(BENCH, conn, octets, NCI_MESSAGE_MAX));
    while (nci_word_answer(nci_push(BENCH, conn)) == NCI_TAKEN) {
        count(nci_down(BENCH));
        count(nci_consume(BENCH, conn));
        count(nci_credit(BENCH));
        count(nci_report(BENCH, conn));
        count(nci_packet(BENCH, NCI_WIRE_UP, 0));
        count(nci_state(BENCH));
        count(nci_up(BENCH));
    }
}

/* Messages of the longest kind, both ways. */
static void move(void) {
    move_to(2);
    move_to(0);
    octets[0] = NCI_AIR_MESSAGE;
    count(nci_air(BENCH, octets, 1025));
    while (nci_word_answer(nci_reply(BENCH)) == NCI_TAKEN) count(nci_up(BENCH));
}

/* The same by presses. */
static void run(void) {
    count(nci_send(BENCH, 2, octets, NCI_MESSAGE_MAX));
    count(nci_send(BENCH, 0, octets, NCI_MESSAGE_MAX));
    octets[0] = NCI_AIR_MESSAGE;
    count(nci_air(BENCH, octets, 1025));
    while (nci_word_moves(nci_run(BENCH)) > 0) taken++;
}

/* The longest list of a set, one that sets all that a value has room for, and the longest response to
 * a get. */
static void configure(void) {
    ask(0, 2, 255, 127);
    octets[1] = NCI_PI_B_H_INFO;
    octets[2] = 15;
    ask(0, 2, 18, 1);
    memset(octets, NCI_PA_BAIL_OUT, 85);
    ask(0, 3, 85, 84);
    memset(octets, 0, 85);
}

static void play(void) {
    static const uint8_t unlike[] = {0x20, 1, 1, 255, 8, 100, 255, 4, 2, 3, 5}, profile[] = {0x20, 0x20, 8, 0x20, 8};
    static const uint8_t found[] = {1, 1, 4, 0, 2}, last[] = {1, 2, 4, 0, 0}, poll[] = {2, 2, 4, 0};
    count(nci_fresh(BENCH, unlike, sizeof unlike));
    count(nci_fresh(BENCH, profile, sizeof profile));
    count(nci_power(BENCH));
    memset(octets, 0, sizeof octets);
    ask(0, 0, 1, 1);
    ask(0, 1, 2, 0);
    configure();
    ask(0, 4, 2, 1);
    ask(1, 3, 1, 0);
    count(nci_air(BENCH, found, sizeof found));
    count(nci_air(BENCH, last, sizeof last));
    while (nci_up(BENCH) == NCI_TAKEN) continue;
    octets[1] = 4;
    octets[2] = 1;
    ask(1, 4, 3, 2);
    count(nci_air(BENCH, poll, sizeof poll));
    while (nci_up(BENCH) == NCI_TAKEN) continue;
    move();
    run();
    ask(0, 5, 1, 2);
    ask(1, 6, 1, 0);
    ask(15, 63, 255, 0);
    octets[0] = 1;
    count(nci_command(BENCH, 0, 0, octets, 1));
    count(nci_run(BENCH));
    octets[2] = 255;
    count(nci_read(octets, NCI_PACKET_MAX));
    memcpy(before, area, sizeof area);
    area[NCI_AREA_SIZE - 512] = 0;
    nci_down(BENCH);
}

int main(int argc, char **argv) {
    size_t size = argc > 1 ? strtoul(argv[1], NULL, 10) : 65536, pages = (size + PAGE - 1) / PAGE * PAGE;
    uint8_t *fence = (uint8_t *)mmap(NULL, PAGE + pages, PROT_NONE, MAP_PRIVATE | MAP_ANONYMOUS, -1, 0), *low;
    if (fence == MAP_FAILED || mprotect(fence + PAGE, pages, PROT_READ | PROT_WRITE) != 0) return 2;
    low = fence + PAGE;
    memset(low, MARK, pages);
    getcontext(&there);
    there.uc_stack.ss_sp = low;
    there.uc_stack.ss_size = size;
    there.uc_link = &here;
    makecontext(&there, play, 0);
    swapcontext(&here, &there);
    size_t unused = 0;
    while (unused < size && low[unused] == MARK) unused++;
    printf("stack=%zu of=%zu taken=%u\n", size - unused, size, taken);
    return taken > 200 ? 0 : 1;
}
