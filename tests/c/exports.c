/* Each export once, as a front end in C makes it: a first paper with a loopback, an
 * activation and an endpoint's message, its packets and messages to the octet; presses of
 * run; and octets that are read alone. Prints nothing and returns 0, or prints the line that does not hold
 * and returns 1. */
#include "nci_bench.h"

#include <stdio.h>
#include <string.h>

static uint8_t area[NCI_AREA_SIZE + 1];
static uint8_t out[NCI_BUFFER_SIZE];

#define HOLDS(condition)                                                  \
    do {                                                                  \
        if (!(condition)) {                                               \
            printf("%s:%d: not so: %s\n", __FILE__, __LINE__, #condition); \
            return 1;                                                     \
        }                                                                 \
    } while (0)

/* area and buffer as every call takes them */
#define BENCH area, NCI_AREA_SIZE, out, sizeof out

/* The packet put last but `back` on a wire is these octets. */
static int is_packet(unsigned wire, unsigned back, const uint8_t *octets, size_t len) {
    uint64_t word = nci_packet(BENCH, (uint8_t)wire, (uint8_t)back);
    return nci_word_answer(word) == NCI_TAKEN && nci_word_handed_out(word) && nci_word_length(word) == len &&
           memcmp(out, octets, len) == 0;
}

/* A taken call that put so many packets down and up, dropped nothing, handed out nothing and
 * met no reserved bit at 1. */
static int put(uint64_t word, unsigned down, unsigned up) {
    return nci_word_answer(word) == NCI_TAKEN && !nci_word_dropped(word) && !nci_word_handed_out(word) &&
           nci_word_put_down(word) == down && nci_word_put_up(word) == up && nci_word_rfu(word) == 0;
}

/* A taken call that handed out this message. */
static int handed(uint64_t word, const uint8_t *octets, size_t len) {
    return nci_word_answer(word) == NCI_TAKEN && nci_word_handed_out(word) && nci_word_length(word) == len &&
           memcmp(out, octets, len) == 0;
}

/* What is going on: the octets before those of connections, then these three connections. */
static int is_state(const uint8_t *first, const uint8_t *conns) {
    uint8_t all[NCI_STATE_SIZE] = {0};
    memcpy(all, first, NCI_STATE_CONNS);
    memcpy(all + NCI_STATE_CONNS, conns, 9);
    return handed(nci_state(BENCH), all, sizeof all);
}

/* Five octets, eleven that mean the same, and eleven with a pair for each: 2 is tight, 3 loose. */
static const uint8_t five[NCI_PROFILE_SIZE] = {0x20, 4, 2, 4, 1};
static const uint8_t equal[NCI_LONG_PROFILE_SIZE] = {0x20, 4, 2, 4, 2, 4, 2, 4, 2, 4, 1};
static const uint8_t unlike[NCI_LONG_PROFILE_SIZE] = {0x20, 1, 1, 255, 8, 100, 255, 4, 2, 3, 5};

/* Brings the controller up: RESET and INIT, asked, answered and read. */
static int bring_up(const uint8_t *profile, size_t len) {
    static const uint8_t type[] = {1}, zeros[] = {0, 0};
    static const uint8_t rsp[] = {0x40, 0, 1, 0}, ntf[] = {0x60, 0, 5, 2, 1, 0x20, 0, 0};
    HOLDS(nci_fresh(BENCH, profile, len) == 0);
    HOLDS(put(nci_command(BENCH, 0, 0, type, sizeof type), 1, 0));
    HOLDS(put(nci_down(BENCH), 0, 2));
    HOLDS(is_packet(NCI_WIRE_UP, 1, rsp, sizeof rsp) && is_packet(NCI_WIRE_UP, 0, ntf, sizeof ntf));
    HOLDS(put(nci_up(BENCH), 0, 0) && put(nci_up(BENCH), 0, 0));
    HOLDS(put(nci_command(BENCH, 0, 1, zeros, sizeof zeros), 1, 0));
    HOLDS(put(nci_down(BENCH), 0, 1) && put(nci_up(BENCH), 0, 0));
    return 0;
}

/* Both forms of a profile leave the same area. Another number of octets, or one of them
 * outside its limits, is refused, and the area stays. */
static int profiles(void) {
    static const size_t others[] = {1, 4, 6, 10, 12};
    static uint8_t left[NCI_AREA_SIZE];
    uint8_t given[NCI_LONG_PROFILE_SIZE + 1] = {0x20, 1, 1, 1, 1, 1, 1, 1, 1, 1, 1, 1};
    HOLDS(nci_fresh(BENCH, five, sizeof five) == 0);
    memcpy(left, area, sizeof left);
    memset(area, 0x5A, sizeof left);
    HOLDS(nci_fresh(BENCH, equal, sizeof equal) == 0 && memcmp(left, area, sizeof left) == 0);
    HOLDS(nci_fresh(BENCH, NULL, 0) == NCI_OUTSIDE_LIMIT);
    for (size_t i = 0; i < sizeof others / sizeof *others; i++)
        HOLDS(nci_fresh(BENCH, given, others[i]) == NCI_OUTSIDE_LIMIT);
    for (size_t i = 0; i < NCI_LONG_PROFILE_SIZE; i++) {
        memcpy(given, unlike, sizeof unlike);
        given[i] = 0;
        HOLDS(nci_fresh(BENCH, given, sizeof unlike) == NCI_OUTSIDE_LIMIT);
    }
    HOLDS(memcmp(left, area, sizeof left) == 0);
    return 0;
}

/* A loopback opens with the pair of its own ID: 2 to 5, each with another. */
static int create_each(void) {
    static const uint8_t create[] = {1, 0};
    for (uint8_t conn = 2; conn <= 5; conn++) {
        const uint8_t *pair = unlike + 2 * conn - 3;
        const uint8_t created[] = {0x40, 4, 4, 0, pair[0], pair[1], conn};
        HOLDS(put(nci_command(BENCH, 0, 4, create, sizeof create), 1, 0) && put(nci_down(BENCH), 0, 1));
        HOLDS(is_packet(NCI_WIRE_UP, 0, created, sizeof created) && put(nci_up(BENCH), 0, 0));
    }
    return 0;
}

/* The tight one waits for its credit while the loose one goes on. */
static int side_by_side(void) {
    static const uint8_t message[] = {0xAA, 0xBB}, first[] = {0x12, 0, 1, 0xAA}, whole[] = {3, 0, 2, 0xAA, 0xBB};
    static const uint8_t tight[] = {0, 1, 0, 0, 0}, loose[] = {7, 1, 0, 0, 0};
    HOLDS(bring_up(unlike, sizeof unlike) == 0 && create_each() == 0);
    HOLDS(put(nci_send(BENCH, 2, message, sizeof message), 0, 0));
    HOLDS(put(nci_send(BENCH, 3, message, sizeof message), 0, 0));
    HOLDS(put(nci_push(BENCH, 2), 1, 0) && is_packet(NCI_WIRE_DOWN, 0, first, sizeof first));
    HOLDS(nci_push(BENCH, 2) == NCI_NO_CREDIT);
    HOLDS(put(nci_push(BENCH, 3), 1, 0) && is_packet(NCI_WIRE_DOWN, 0, whole, sizeof whole));
    HOLDS(handed(nci_report(BENCH, 2), tight, sizeof tight) && handed(nci_report(BENCH, 3), loose, sizeof loose));
    HOLDS(nci_word_handed_out(nci_state(BENCH)) && out[NCI_STATE_PHASE] == 2 && out[NCI_STATE_DOWN] == 2);
    HOLDS(out[NCI_STATE_CONNS + 5] == 1 && out[NCI_STATE_CONNS + 8] == 0);
    return 0;
}

/* A loopback: create, send, push, down, consume, and the packet read; it returns its
 * credit. */
static int loop_back(void) {
    static const uint8_t create[] = {1, 0}, created[] = {0x40, 4, 4, 0, 4, 2, 2};
    static const uint8_t message[] = {0xAA, 0xBB}, data[] = {2, 0, 2, 0xAA, 0xBB};
    static const uint8_t back[] = {2, 1, 2, 0xAA, 0xBB}, numbers[] = {1, 0, 0, 0, 1};
    HOLDS(put(nci_command(BENCH, 0, 4, create, sizeof create), 1, 0) && put(nci_down(BENCH), 0, 1));
    HOLDS(is_packet(NCI_WIRE_UP, 0, created, sizeof created) && put(nci_up(BENCH), 0, 0));
    HOLDS(put(nci_send(BENCH, 2, message, sizeof message), 0, 0));
    HOLDS(put(nci_push(BENCH, 2), 1, 0) && is_packet(NCI_WIRE_DOWN, 0, data, sizeof data));
    HOLDS(put(nci_down(BENCH), 0, 0));
    HOLDS(handed(nci_consume(BENCH, 2), message, sizeof message));
    HOLDS(is_packet(NCI_WIRE_UP, 0, back, sizeof back));
    HOLDS(handed(nci_report(BENCH, 2), numbers, sizeof numbers));
    HOLDS(nci_credit(BENCH) == NCI_NOTHING_TO_MOVE);
    HOLDS(handed(nci_up(BENCH), message, sizeof message));
    return 0;
}

/* A message to the endpoint, for which one credit is owed. */
static int tell(void) {
    static const uint8_t message[] = {0xCC}, numbers[] = {0, 0, 0, 1, 0};
    HOLDS(put(nci_send(BENCH, 0, message, sizeof message), 0, 0) && put(nci_push(BENCH, 0), 1, 0));
    HOLDS(put(nci_down(BENCH), 0, 0) && handed(nci_consume(BENCH, 0), message, sizeof message));
    HOLDS(handed(nci_report(BENCH, 0), numbers, sizeof numbers));
    return 0;
}

/* The air: discovery, a poll activation, the endpoint's empty message. What is owed there
 * is returned by a notice first, then by the reply. */
static int speak(void) {
    static const uint8_t modes[] = {1, 0, 1}, poll[] = {NCI_AIR_POLL, 1, 4, 0}, says[] = {NCI_AIR_MESSAGE};
    static const uint8_t bare[] = {0, 1, 0}, notice[] = {0x60, 6, 3, 1, 0, 1};
    static const uint8_t active[] = {2, 4, 1, 4, 0, 0, 0, 0, 0, 0, 0, 1}, both[] = {1, 1, 0, 1, 1, 0, 0, 0, 0};
    HOLDS(put(nci_command(BENCH, 1, 3, modes, sizeof modes), 1, 0));
    HOLDS(put(nci_down(BENCH), 0, 1) && put(nci_up(BENCH), 0, 0));
    HOLDS(put(nci_air(BENCH, poll, sizeof poll), 0, 1) && put(nci_up(BENCH), 0, 0));
    HOLDS(tell() == 0 && put(nci_credit(BENCH), 0, 1));
    HOLDS(is_packet(NCI_WIRE_UP, 0, notice, sizeof notice) && put(nci_up(BENCH), 0, 0));
    HOLDS(tell() == 0 && put(nci_air(BENCH, says, sizeof says), 0, 0));
    HOLDS(is_state(active, both) && out[NCI_STATE_RF] == 4 && out[NCI_STATE_ENDPOINT] == 1);
    HOLDS(put(nci_reply(BENCH), 0, 1) && is_packet(NCI_WIRE_UP, 0, bare, sizeof bare));
    HOLDS(handed(nci_up(BENCH), bare, 0));
    return 0;
}

/* A press that made so many moves and handed out this message, and one that handed out none. */
static int ran(uint64_t word, unsigned moves, const uint8_t *octets, size_t len) {
    return handed(word, octets, len) && nci_word_moves(word) == moves && !nci_word_dropped(word) && nci_word_rfu(word) == 0;
}
static int moved(uint64_t word, unsigned moves) { return nci_word_moves(word) == moves && word == (uint64_t)moves << 32; }

/* A message of two segments on a loopback is handed out at the controller, then at the host; one
 * to the endpoint, whose credit the next press brings back; the endpoint's own; a command. At rest
 * nothing happens, and the buffer past a message keeps its octets. */
static int run_to_rest(void) {
    static const uint8_t message[] = {1, 2, 3, 4, 5}, says[] = {NCI_AIR_MESSAGE, 9}, none[] = {0};
    static uint8_t left[NCI_AREA_SIZE];
    memcpy(left, area, sizeof left);
    memset(out, 0xC3, sizeof out);
    HOLDS(nci_run(BENCH) == NCI_TAKEN && memcmp(left, area, sizeof left) == 0 && out[0] == 0xC3);
    HOLDS(put(nci_send(BENCH, 2, message, sizeof message), 0, 0));
    HOLDS(ran(nci_run(BENCH), 7, message, sizeof message) && out[sizeof message] == 0xC3);
    HOLDS(ran(nci_run(BENCH), 1, message, sizeof message) && nci_run(BENCH) == NCI_TAKEN);
    HOLDS(put(nci_send(BENCH, 0, message, 1), 0, 0) && put(nci_air(BENCH, says, sizeof says), 0, 0));
    HOLDS(ran(nci_run(BENCH), 3, message, 1) && ran(nci_run(BENCH), 4, says + 1, 1) && nci_run(BENCH) == NCI_TAKEN);
    HOLDS(put(nci_command(BENCH, NCI_GID_CORE, NCI_OID_GET_CONFIG, none, sizeof none), 1, 0) && moved(nci_run(BENCH), 2));
    HOLDS(nci_run(BENCH) == NCI_TAKEN && nci_packet(BENCH, NCI_WIRE_UP, 0) == NCI_NOTHING_TO_MOVE);
    return 0;
}

/* A packet that the controller drops, since the endpoint was released before it came, sets the flag
 * of the press that moves it. */
static int run_drops(void) {
    static const uint8_t modes[] = {1, 0, 1}, poll[] = {NCI_AIR_POLL, 1, 4, 0}, idle[] = {0}, late[] = {7};
    uint64_t word;
    HOLDS(bring_up(five, sizeof five) == 0);
    HOLDS(put(nci_command(BENCH, NCI_GID_RF, NCI_OID_DISCOVER, modes, sizeof modes), 1, 0) && moved(nci_run(BENCH), 2));
    HOLDS(put(nci_air(BENCH, poll, sizeof poll), 0, 1) && moved(nci_run(BENCH), 1));
    HOLDS(put(nci_command(BENCH, NCI_GID_RF, NCI_OID_DEACTIVATE, idle, sizeof idle), 1, 0));
    HOLDS(put(nci_send(BENCH, 0, late, sizeof late), 0, 0) && put(nci_push(BENCH, 0), 1, 0));
    word = nci_run(BENCH);
    HOLDS(nci_word_moves(word) == 4 && word == ((uint64_t)4 << 32 | 1u << 8) && nci_word_dropped(word));
    HOLDS(nci_run(BENCH) == NCI_TAKEN && nci_push(BENCH, 0) == NCI_NOT_OPEN);
    return 0;
}

/* A read that dropped the octets, and one that did not, with these reserved bits at 1. */
static int dropped(uint64_t word) { return nci_word_dropped(word) && word == (uint64_t)1 << 8; }
static int shows(uint64_t word, unsigned rfu) { return nci_word_rfu(word) == rfu && word == (uint64_t)rfu << 48; }

/* Data, a command and a notice with all bits of octet 1 at 1, and one with none of the
 * reserved; the most octets, one fewer than octet 2 states, one more. */
static int read_alone(void) {
    static const uint8_t data[] = {2, 0xFF, 0}, command[] = {0x20, 0xFF, 0}, notice[] = {0x60, 0xFF, 0, 0xAA};
    static const uint8_t plain[] = {0x60, 0x3F, 0}, type[] = {0x80, 0xFF, 0}, full[NCI_PACKET_MAX + 1] = {2, 0xFF, 0xFF};
    HOLDS(shows(nci_read(data, sizeof data), NCI_RFU_DATA_UP) && shows(nci_read(plain, sizeof plain), 0));
    HOLDS(shows(nci_read(command, sizeof command), NCI_RFU_CONTROL));
    HOLDS(shows(nci_read(notice, sizeof notice), NCI_RFU_CONTROL));
    HOLDS(dropped(nci_read(NULL, 0)) && dropped(nci_read(data, 2)) && dropped(nci_read(type, sizeof type)));
    HOLDS(dropped(nci_read(full, NCI_PACKET_MAX - 1)) && shows(nci_read(full, NCI_PACKET_MAX), NCI_RFU_DATA_UP));
    HOLDS(nci_read(full, NCI_PACKET_MAX + 1) == NCI_OUTSIDE_LIMIT);
    return 0;
}

/* A set of which one parameter is invalid, and what a get then shows, in the order asked. A value
 * that no set leaves is a damaged record. */
static int configure(void) {
    static const uint8_t set[] = {2, NCI_PF_BIT_RATE, 1, 3, NCI_PI_B_H_INFO, 2, 0xAA, 0xBB};
    static const uint8_t invalid[] = {0x40, NCI_OID_SET_CONFIG, 3, NCI_STATUS_INVALID_PARAM, 1, NCI_PF_BIT_RATE};
    static const uint8_t get[] = {2, NCI_PI_B_H_INFO, NCI_PF_BIT_RATE};
    static const uint8_t shown[] = {0x40, NCI_OID_GET_CONFIG, 9, 0, 2, NCI_PI_B_H_INFO, 2, 0xAA, 0xBB, NCI_PF_BIT_RATE, 1, 1};
    HOLDS(put(nci_command(BENCH, NCI_GID_CORE, NCI_OID_SET_CONFIG, set, sizeof set), 1, 0) && put(nci_down(BENCH), 0, 1));
    HOLDS(is_packet(NCI_WIRE_UP, 0, invalid, sizeof invalid) && put(nci_up(BENCH), 0, 0));
    HOLDS(put(nci_command(BENCH, NCI_GID_CORE, NCI_OID_GET_CONFIG, get, sizeof get), 1, 0) && put(nci_down(BENCH), 0, 1));
    HOLDS(is_packet(NCI_WIRE_UP, 0, shown, sizeof shown) && put(nci_up(BENCH), 0, 0));
    /* octet 6 of the values, which stand behind the record's 160 */
    area[NCI_AREA_SIZE - 512 + 160 + 6] = 3;
    HOLDS(nci_down(BENCH) == NCI_RECORD_DAMAGED);
    area[NCI_AREA_SIZE - 512 + 160 + 6] = 1;
    return 0;
}

/* Slices of no octets, too few octets, and what is refused for other reasons. */
static int refuse(void) {
    static const uint8_t two[] = {2};
    static const uint8_t closing[] = {2, 4, 1, 4, 0, 1, 0, 5, 2, 1, 0, 0}, in_hand[] = {1, 1, 0, 1, 1, 1, 0, 0, 0};
    HOLDS(nci_power(NULL, 0, out, sizeof out) == NCI_TOO_SHORT);
    HOLDS(nci_power(area, NCI_AREA_SIZE - 1, out, sizeof out) == NCI_TOO_SHORT);
    HOLDS(nci_power(area, NCI_AREA_SIZE, NULL, 0) == NCI_TOO_SHORT);
    HOLDS(nci_state(NULL, 0, out, sizeof out) == NCI_TOO_SHORT && nci_state(area, NCI_AREA_SIZE, NULL, 0) == NCI_TOO_SHORT);
    HOLDS(nci_run(NULL, 0, out, sizeof out) == NCI_TOO_SHORT && nci_run(area, NCI_AREA_SIZE, NULL, 0) == NCI_TOO_SHORT);
    HOLDS(nci_packet(BENCH, 2, 0) == NCI_OUTSIDE_LIMIT && nci_packet(BENCH, 0, 0) == NCI_NOTHING_TO_MOVE);
    HOLDS(nci_send(BENCH, 3, NULL, 0) == NCI_NOT_OPEN && nci_send(BENCH, 1, NULL, 0) == NCI_OUTSIDE_LIMIT);
    HOLDS(put(nci_send(BENCH, 2, NULL, 0), 0, 0) && nci_send(BENCH, 2, NULL, 0) == NCI_IN_HAND);
    HOLDS(put(nci_command(BENCH, 0, 5, two, sizeof two), 1, 0));
    HOLDS(nci_send(BENCH, 3, NULL, 0) == NCI_SEND_CLOSING && nci_push(BENCH, 2) == NCI_CLOSING);
    HOLDS(is_state(closing, in_hand) && out[NCI_STATE_PENDING] == 1 && out[NCI_STATE_UP] == 0);
    HOLDS(put(nci_power(BENCH), 0, 0) && nci_push(BENCH, 2) == NCI_NOT_OPEN);
    HOLDS(nci_fresh(BENCH, NULL, 0) == NCI_OUTSIDE_LIMIT && nci_air(BENCH, NULL, 0) == NCI_OUTSIDE_LIMIT);
    area[NCI_AREA_SIZE - 512] = 0;
    HOLDS(nci_down(BENCH) == NCI_RECORD_DAMAGED && nci_packet(BENCH, 0, 0) == NCI_RECORD_DAMAGED);
    HOLDS(nci_state(BENCH) == NCI_RECORD_DAMAGED && nci_run(BENCH) == NCI_RECORD_DAMAGED);
    HOLDS(nci_run(area, NCI_AREA_SIZE - 1, out, sizeof out) == NCI_TOO_SHORT);
    HOLDS(nci_run(area, NCI_AREA_SIZE, NULL, 0) == NCI_RECORD_DAMAGED);
    HOLDS(strcmp(nci_card(NCI_NOTHING_TO_MOVE), "there is nothing to move") == 0);
    HOLDS(strcmp(nci_card(13), "no answer of the bench") == 0 && strcmp(nci_card(16), nci_card(13)) == 0);
    HOLDS(area[NCI_AREA_SIZE] == 0x5A);
    return 0;
}

int main(void) {
    memset(area, 0x5A, sizeof area);
    return profiles() || side_by_side() || bring_up(five, sizeof five) || configure() || loop_back() || speak() ||
           run_to_rest() || refuse() || run_drops() || read_alone();
}
