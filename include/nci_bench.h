/* The NCI exam bench: a host and an NFC controller (NCI 2.0), joined by two wires
 * of sixteen packets, inside an area of octets that the caller provides.
 *
 * The area. A bench is 36,864 octets that the caller owns: a static array, a part
 * of a file in memory, anything. The last 512 of them hold the bench's record.
 * nci_fresh makes a bench of any octets. A copy of the octets is a second bench.
 *
 * The buffer. Every call on a bench takes a message buffer of at least 1,024 octets,
 * also a call that hands out nothing. One buffer serves all calls. nci_read alone takes
 * neither area nor buffer: it needs no bench.
 *
 * Slices. Octets are passed as a pointer and a length.
 *   The length is true: so many octets can be read there, and written where the
 *   parameter is not const. Nothing else is asked of a slice, and every length is
 *   taken: a slice that is too short or too long is refused, not read past.
 *   NULL goes with length 0.
 *   The slices of one call do not overlap.
 *
 * What a call changes. A call that is refused changes no octet. A call that is
 * taken changes octets among the first 36,864 of the area, and of the buffer only
 * the front that the message handed out fills. All other octets keep their values.
 *
 * Nothing is kept between calls: no pointer, no allocation, no variable. A stack of
 * 12,288 octets suffices for every call. Calls on different areas, each with its own
 * buffer, may run at the same time. Calls on one area are made one after the other,
 * and nobody else writes it meanwhile.
 *
 * What a call returns. One number of 64 bits, the word. The functions nci_word_..
 * below take it apart: the answer, the drop flag, whether a message was handed
 * out and how long it is, how many packets were put on each wire, which reserved bits
 * the packet had that was read; of nci_run how many moves it made, in place of packets.
 * The word of a refused call is the refusal's number and nothing else. The packets
 * themselves can be read with nci_packet.
 *
 * Reserved bits. A sender is to leave these bits of a packet's octet 1, the second one,
 * at 0, and no end goes by them: bits 7 and 6 of a control packet, bits 7 to 2 of data
 * going up, and all bits of data going down, where bits 1 and 0 have no credits.
 * nci_down, nci_up and nci_read show those that a sender left at 1. Calls on a bench that
 * nci_fresh made put no such packet on a wire; in other octets one may be there.
 *
 * Refusals. At each call stand the refusals that it can give, in the order in which
 * they are judged: of several that apply, the first is given. Every call but nci_fresh
 * and nci_read begins with the same three, which are not repeated below:
 *   2, if the area has fewer than 36,864 octets; its record is then not judged;
 *   1, if the record is damaged;
 *   2, if the buffer has fewer than 1,024 octets.
 *
 * Connections are named by their Conn ID: 0, the static RF connection, or 2 to 5,
 * the loopbacks that CORE_CONN_CREATE opens.
 *
 * Credits held and credits owed are an octet each, and sums are modulo 256. Calls on a
 * bench that nci_fresh made never bring them past the grant. On other octets a call may;
 * if more is then held or owed than granted, the record is damaged. */
#ifndef NCI_BENCH_H
#define NCI_BENCH_H

#include <stddef.h>
#include <stdint.h>

#ifdef __cplusplus
extern "C" {
#endif

/* ---- sizes, in octets unless another unit is said */

#define NCI_AREA_SIZE 36864u      /* a bench */
#define NCI_BUFFER_SIZE 1024u     /* least message buffer */
#define NCI_MESSAGE_MAX 1024u     /* longest data message */
#define NCI_COMMAND_MAX 255u      /* longest payload of a command */
#define NCI_PACKET_MAX 258u       /* longest packet: 3 of header, 255 of payload */
#define NCI_PROFILE_SIZE 5u       /* a profile with one pair for connections 2 to 5 */
#define NCI_LONG_PROFILE_SIZE 11u /* a profile with a pair for each of 2, 3, 4 and 5 */
#define NCI_REPORT_SIZE 5u        /* the message of nci_report */
#define NCI_PARAMETERS_MAX 32u    /* most parameter octets of an air event */
#define NCI_PACKET_CREDITS_MAX 3u /* most credits that a data packet returns, going up */
#define NCI_WIRE_SLOTS 16u        /* packets that a wire holds */
#define NCI_STORE_SLOTS 8u        /* packets that the controller stores for a connection */
#define NCI_GID_MAX 15u           /* greatest group identifier */
#define NCI_OID_MAX 63u           /* greatest opcode identifier */
#define NCI_NO_FLOW_CONTROL 255u  /* credits of a connection without flow control */

/* ---- the layout of the area */

/* Says which octet of an area is what; docs/AREA.md has the map. A front end that keeps
 * areas in files keeps this number with them. It is raised when the map or the record
 * changes: an area that was kept with another number is not to be used. */
#define NCI_LAYOUT 2u

/* ---- reserved bits of a packet's octet 1 */

#define NCI_RFU_CONTROL 0xC0u   /* of a command, a response or a notification */
#define NCI_RFU_DATA_UP 0xFCu   /* of data going up */
#define NCI_RFU_DATA_DOWN 0xFFu /* of data going down: CR is reserved too */

/* ---- answers: 0, or why a call was not taken. nci_card says each in words. */

#define NCI_TAKEN 0u
#define NCI_RECORD_DAMAGED 1u
#define NCI_TOO_SHORT 2u
#define NCI_OUTSIDE_LIMIT 3u
#define NCI_TOO_FEW_SLOTS 4u
#define NCI_UNANSWERED 5u
#define NCI_NOT_OPEN 6u
#define NCI_IN_HAND 7u
#define NCI_NOTHING_TO_MOVE 8u
#define NCI_NO_CREDIT 9u
#define NCI_CLOSING 10u
#define NCI_NOT_IN_THIS_STATE 11u
#define NCI_STORE_FULL 12u
#define NCI_WIRES_NOT_EMPTY 14u
#define NCI_SEND_CLOSING 15u

/* ---- the two wires, for nci_packet */

#define NCI_WIRE_DOWN 0u /* to the controller */
#define NCI_WIRE_UP 1u   /* to the host */

/* ---- the message of nci_state: how many octets, and where each part of it starts */

#define NCI_STATE_SIZE 27u     /* octets in all */
#define NCI_STATE_PHASE 0u     /* the controller's phase */
#define NCI_STATE_RF 1u        /* the RF state, four octets */
#define NCI_STATE_PENDING 5u   /* the unanswered command, four octets */
#define NCI_STATE_DOWN 9u      /* packets on the down wire */
#define NCI_STATE_UP 10u       /* packets on the up wire */
#define NCI_STATE_ENDPOINT 11u /* the endpoint's message in hand */
#define NCI_STATE_CONNS 12u    /* three octets for each of connections 0, 2, 3, 4, 5 */

/* ---- kinds of air events: the first octet of nci_air's event */

#define NCI_AIR_FOUND 1u
#define NCI_AIR_POLL 2u
#define NCI_AIR_LISTEN 3u
#define NCI_AIR_FAILED 4u
#define NCI_AIR_SLEEPS 5u
#define NCI_AIR_LOST 6u
#define NCI_AIR_RELEASES 7u
#define NCI_AIR_MESSAGE 8u

/* ---- the word that a call returns */

/* Its bits, for languages that cannot use the functions below:
 *   0 to 7    the answer: 0, or the refusal's number
 *   8         the drop flag
 *   9         1 if a message was handed out, also an empty one
 *   10 to 15  0
 *   16 to 31  how many octets the message has that was handed out
 *   32 to 39  packets put on the down wire
 *   40 to 47  packets put on the up wire
 *   32 to 47  of nci_run, which counts no packets: how many moves it made
 *   48 to 55  reserved bits at 1 of the packet that was read
 *   56 to 63  0 */

/* 0 if the call was taken, else the refusal's number. */
static inline unsigned nci_word_answer(uint64_t word) { return (unsigned)(word & 0xFFu); }

/* 1 if a packet was dropped, or an entry of a credit notice; else 0. */
static inline int nci_word_dropped(uint64_t word) { return (int)(word >> 8 & 1u); }

/* 1 if a message was handed out, also an empty one; else 0. It stands at the front
 * of the buffer. */
static inline int nci_word_handed_out(uint64_t word) { return (int)(word >> 9 & 1u); }

/* How many octets the message has that was handed out. */
static inline size_t nci_word_length(uint64_t word) { return (size_t)(word >> 16 & 0xFFFFu); }

/* How many packets the call put on the down wire; not for nci_run. */
static inline unsigned nci_word_put_down(uint64_t word) { return (unsigned)(word >> 32 & 0xFFu); }

/* How many packets the call put on the up wire; not for nci_run. */
static inline unsigned nci_word_put_up(uint64_t word) { return (unsigned)(word >> 40 & 0xFFu); }

/* Of nci_run, and of no other call: how many moves it made. */
static inline unsigned nci_word_moves(uint64_t word) { return (unsigned)(word >> 32 & 0xFFFFu); }

/* Of nci_down, nci_up and nci_read: the reserved bits that were at 1 in octet 1 of the
 * packet that was read, in their places. 0 if the drop flag is 1, and of all other calls. */
static inline unsigned nci_word_rfu(uint64_t word) { return (unsigned)(word >> 48 & 0xFFu); }

/* The card: what an answer says, in words. */
static inline const char *nci_card(unsigned answer) {
    switch (answer) {
    case NCI_TAKEN: return "taken";
    case NCI_RECORD_DAMAGED: return "the record is damaged: a count, place, state or size in it cannot be";
    case NCI_TOO_SHORT:
        return "the area has fewer than 36,864 octets, or the message buffer fewer than 1,024";
    case NCI_OUTSIDE_LIMIT:
        return "an argument is outside its limit, or the Conn ID is not 0, 2, 3, 4 or 5";
    case NCI_TOO_FEW_SLOTS: return "too few free slots on the wire";
    case NCI_UNANSWERED: return "a command while another one is unanswered";
    case NCI_NOT_OPEN:
        return "the connection is not open: at the host for send and push, at the controller for consume and report";
    case NCI_IN_HAND: return "a message is still in hand";
    case NCI_NOTHING_TO_MOVE: return "there is nothing to move";
    case NCI_NO_CREDIT: return "the connection is flow-controlled and no credit is left";
    case NCI_CLOSING: return "push while a RESET or a CONN_CLOSE is unanswered";
    case NCI_NOT_IN_THIS_STATE: return "the air event is not taken in this RF state";
    case NCI_STORE_FULL: return "the controller's store for this connection is full";
    case NCI_WIRES_NOT_EMPTY: return "an activation while a packet is on either wire";
    case NCI_SEND_CLOSING: return "send while a RESET or a CONN_CLOSE is unanswered";
    default: return "no answer of the bench";
    }
}

/* ---- the whole bench */

/* A new bench. The profile is eleven octets, in this order:
 *   most control payload;
 *   payload and credits of connection 2, of connection 3, of 4, of 5;
 *   payload and credits of connection 0, the static RF connection.
 * Or it is five octets, which mean four equal pairs:
 *   most control payload;
 *   payload and credits of each of 2 to 5;
 *   payload and credits of connection 0.
 * The control payload is 32 to 255, a payload 1 to 255; credits are 1 to 8, or 255 for no
 * flow control. A connection opens with the pair of its own ID. All 36,864 octets of the
 * area are written, whatever they held: of five octets the same as of the eleven that they
 * mean. Puts no packet, hands out nothing.
 * Refusals in order: 2, if the area has fewer than 36,864 octets or the buffer fewer than
 * 1,024; 3, if the profile has neither five octets nor eleven, or one of them is outside
 * its limits. */
uint64_t nci_fresh(uint8_t *area, size_t area_len, uint8_t *out, size_t out_len, const uint8_t *profile,
                   size_t profile_len);

/* Both ends are cold, both wires empty; the profile stays. Puts no packet, hands out
 * nothing. No refusal of its own. */
uint64_t nci_power(uint8_t *area, size_t area_len, uint8_t *out, size_t out_len);

/* ---- the host's keys */

/* The host sends a command: a GID of 0 to 15, an OID of 0 to 63 and a payload of at most
 * 255 octets. All its segments go on the down wire; the word says how many.
 * Two commands list configuration parameters, by the IDs NCI_PA_BAIL_OUT to
 * NCI_PACM_BIT_RATE. Their payloads, and those of their responses:
 *   CORE_SET_CONFIG_CMD  how many, then of each the ID, the length of its value, the value;
 *                        length 0 restores its default
 *   CORE_SET_CONFIG_RSP  00 00; or 09, how many are invalid, then their IDs: all others are
 *                        set; or 06 alone, and none is set, if it names one of the IDs in
 *                        another RF state than IDLE
 *   CORE_GET_CONFIG_CMD  how many, then the ID of each
 *   CORE_GET_CONFIG_RSP  00, how many, then of each the ID, the length of its value, the
 *                        value; or 09, how many are not known, then of each of those the ID
 *                        and 00; or 0A alone, if it would have more than 255 octets
 * Either response is 05 alone if the list is cut short, else 06 alone before CORE_INIT.
 * CORE_RESET of type 1, nci_power and nci_fresh restore all defaults.
 * Refusals in order: 3, if GID, OID or payload is outside its limit; 4, if the down wire
 * has too few free slots for all segments; 5, if a command is unanswered. */
uint64_t nci_command(uint8_t *area, size_t area_len, uint8_t *out, size_t out_len, uint8_t gid, uint8_t oid,
                     const uint8_t *payload, size_t payload_len);

/* A message of at most 1,024 octets is put in the host's hand for a connection. Puts no
 * packet yet: nci_push does.
 * Refusals in order: 3, if the Conn ID is not 0 or 2 to 5, or the message is too long; 15,
 * if a RESET or a CONN_CLOSE is unanswered, whatever connection it names; 6, if the
 * connection is not open at the host; 7, if a message is still in hand there. */
uint64_t nci_send(uint8_t *area, size_t area_len, uint8_t *out, size_t out_len, uint8_t conn,
                  const uint8_t *message, size_t message_len);

/* The next segment of the message in hand goes on the down wire: one packet, and one
 * credit if the connection is flow-controlled.
 * Refusals in order: 3, if the Conn ID is not 0 or 2 to 5; 4, if the down wire is full; 6,
 * if the connection is not open at the host; 8, if no message is in hand; 9, if no credit
 * is left; 10, if a RESET or a CONN_CLOSE is unanswered. */
uint64_t nci_push(uint8_t *area, size_t area_len, uint8_t *out, size_t out_len, uint8_t conn);

/* The host takes the first packet of the up wire, and the credits that a notice or a data
 * packet returns. Hands out a data message that it finishes. The drop flag is set if the
 * packet, or an entry of a credit notice, is dropped; if it is not, the word has the
 * packet's reserved bits that are at 1.
 * Refusals in order: 8, if the up wire is empty. */
uint64_t nci_up(uint8_t *area, size_t area_len, uint8_t *out, size_t out_len);

/* ---- the controller's keys */

/* The controller takes the first packet of the down wire. The last packet of a command is
 * answered: one or two packets go on the up wire. The drop flag is set if the packet is
 * dropped; if it is not, the word has the packet's reserved bits that are at 1.
 * Refusals in order: 4, if it is the last packet of a command and the up wire has fewer
 * than two free slots; 8, if the down wire is empty; 12, if it is data and the store of
 * its connection is full. */
uint64_t nci_down(uint8_t *area, size_t area_len, uint8_t *out, size_t out_len);

/* The controller takes the oldest stored packet of a connection, and owes one credit more
 * there if it is flow-controlled. Hands out a message that it finishes. On connections 2 to
 * 5 the packet also goes on the up wire, unchanged but for the two low bits of its second
 * octet: it returns so many credits of those owed, at most 3, which are then owed no longer.
 * Refusals in order: 3, if the Conn ID is not 0 or 2 to 5; 4, for 2 to 5, if the up wire is
 * full; 6, if the connection is not open at the controller; 8, if nothing is stored. */
uint64_t nci_consume(uint8_t *area, size_t area_len, uint8_t *out, size_t out_len, uint8_t conn);

/* One CORE_CONN_CREDITS_NTF with all that is owed goes on the up wire. Credits that a data
 * packet returned are owed no longer.
 * Refusals in order: 4, if the up wire is full; 8, if nothing is owed. */
uint64_t nci_credit(uint8_t *area, size_t area_len, uint8_t *out, size_t out_len);

/* The next segment of the endpoint's message goes on the up wire, on connection 0. The two
 * low bits of its second octet return credits of those owed there, at most 3.
 * Refusals in order: 4, if the up wire is full; 8, if the endpoint has no message in
 * hand. */
uint64_t nci_reply(uint8_t *area, size_t area_len, uint8_t *out, size_t out_len);

/* ---- several keys at once */

/* Run to rest. Moves are made until none is left, or until one hands a message out. Each is
 * the first of these calls that is taken:
 *   nci_up; nci_down; nci_consume for 0, 2, 3, 4, 5; nci_credit;
 *   nci_push for 0, 2, 3, 4, 5; nci_reply.
 * Area and buffer are as these calls leave them, made one after the other. Hands out what the
 * last move hands out. The drop flag is set if that of a move is. The word has the number of
 * moves, 0 at rest and at most 27,877, and counts no packets.
 * On a bench that nci_fresh made, it is at rest where nothing is handed out: the next nci_run
 * makes no move, and no message is in hand anywhere. On such a bench, where nci_down, nci_up
 * and nci_credit answer 8, and nci_consume for each connection 6 or 8, the moves until nci_run
 * makes none can be foretold: 4 for each segment in hand on 2 to 5; for each on 0, 5 with flow
 * control and 3 without; 2 for each segment of the endpoint's message.
 * On other octets a move may leave the record damaged, and is then the last. No refusal of
 * its own. */
uint64_t nci_run(uint8_t *area, size_t area_len, uint8_t *out, size_t out_len);

/* ---- the air */

/* An event of the RF field meets the controller. The event's octets, the kind first:
 *   1 found: ID 1 to 254, protocol, mode, type 0 to 2, at most 32 parameters;
 *   2 poll activation: ID, protocol, mode, parameters;
 *   3 listen activation: the same, with a mode of listening;
 *   4 target failed, 5 endpoint sleeps, 6 link lost, 7 endpoint releases: nothing more;
 *   8 endpoint message: at most 1,024 octets.
 * Modes are 00 to 03 and 06 in kinds 1 and 2, 80 to 83 (hexadecimal) in kind 3. Kinds 1 to
 * 7 put one notification on the up wire; kind 8 puts the message in the endpoint's hand.
 * Refusals in order: 3, if the kind is none of these, octets are missing or to spare, or a
 * field is outside its limit; 4, for kinds 1 to 7, if the up wire is full; 7, for kind 8,
 * if the endpoint's message is still in hand; 11, if the event is not taken in this RF
 * state; 14, for kinds 2 and 3, if a packet is on either wire. */
uint64_t nci_air(uint8_t *area, size_t area_len, uint8_t *out, size_t out_len, const uint8_t *event,
                 size_t event_len);

/* ---- what looks and changes nothing in the area */

/* Five numbers of a connection, handed out as a message of five octets: credits held by
 * the host, its packets on the down wire, packets stored, credits owed, credits on the up
 * wire, those inside data packets too. Without flow control the first is 255 and the last
 * two are 0. Of a packet on a wire the three header octets are read, and the contents of
 * credit notices, create responses and activations alone: a front end may call this for
 * each connection after every key.
 * Refusals in order: 3, if the Conn ID is not 0 or 2 to 5; 6, if the connection is not open
 * at the controller. */
uint64_t nci_report(uint8_t *area, size_t area_len, uint8_t *out, size_t out_len, uint8_t conn);

/* A packet that is on a wire, handed out as a message of 3 to 258 octets. The wire is 0,
 * down, or 1, up; back counts from the end: 0 is the packet put last, 1 the one before it.
 * After a call that put two packets up, back 1 and then back 0 are these in their order.
 * Refusals in order: 3, if the wire is over 1; 8, if the wire has no such packet. */
uint64_t nci_packet(const uint8_t *area, size_t area_len, uint8_t *out, size_t out_len, uint8_t wire,
                    uint8_t back);

/* What is going on, handed out as a message of 27 octets; the names NCI_STATE_.. say where
 * each part of it starts:
 *   0        the controller's phase: 0 before its first RESET, 1 after a RESET, 2 after INIT;
 *   1 to 4   the RF state: 0 IDLE, 1 DISCOVERY, 2 W4_ALL_DISCOVERIES, 3 W4_HOST_SELECT,
 *            4 POLL_ACTIVE, 5 LISTEN_ACTIVE, 6 LISTEN_SLEEP; then, in W4_HOST_SELECT if a
 *            selection was accepted, 1, its ID and its protocol; in POLL_ACTIVE and
 *            LISTEN_ACTIVE the ID, the protocol and the mode; else three octets 0;
 *   5 to 8   1 if a command is unanswered, then its GID, its OID, and the low four bits of
 *            its payload's first octet, 1 if the payload is empty: the Conn ID that
 *            CORE_CONN_CLOSE names; else four octets 0;
 *   9        packets on the down wire;
 *   10       packets on the up wire;
 *   11       1 if the endpoint has a message in hand;
 *   12 to 26 for each of connections 0, 2, 3, 4 and 5, in this order, three octets: 1 if it
 *            is open at the host, 1 if it is open at the controller, 1 if it is open at the
 *            host and a message is in hand there.
 * What is not so is 0. No refusal of its own. */
uint64_t nci_state(const uint8_t *area, size_t area_len, uint8_t *out, size_t out_len);

/* ---- what needs no bench */

/* Any octets are read as a packet going up, and no end takes it: a command is read as the
 * rest. The drop flag is set if they are no packet: fewer than 3 octets, an RFU message type,
 * 4 to 7, or a payload shorter than octet 2 states; octets past the payload are ignored. If
 * it is not, the word has the packet's reserved bits that are at 1. Puts no packet, hands
 * out nothing.
 * Refusals in order: 3, if there are more than 258 octets. */
uint64_t nci_read(const uint8_t *octets, size_t octets_len);

#ifdef __cplusplus
}
#endif

/* ---- the version of this header and of the library */

/* The number is 100 times the first part of the string and the second part. The first part is
 * raised when a call, its word, a number here or the record changes: a program that was built
 * with another one is built anew. It is the number in the shared object's name. The second
 * part is raised when something is added. */
#define NCI_BENCH_VERSION 201u
#define NCI_BENCH_VERSION_STRING "2.1"

/* ---- packets: the header's octets (003, 3.4) */

#define NCI_HEADER_SIZE 3u      /* octets before the payload */
#define NCI_MT_DATA 0u          /* message types: bits 7 to 5 of octet 0 */
#define NCI_MT_COMMAND 1u
#define NCI_MT_RESPONSE 2u
#define NCI_MT_NOTIFICATION 3u

/* ---- groups and opcodes of messages (003, Table 139) */

#define NCI_GID_CORE 0u
#define NCI_GID_RF 1u
#define NCI_OID_RESET 0u         /* of the group CORE */
#define NCI_OID_INIT 1u          /* of CORE */
#define NCI_OID_SET_CONFIG 2u    /* of CORE */
#define NCI_OID_GET_CONFIG 3u    /* of CORE */
#define NCI_OID_CONN_CREATE 4u   /* of CORE */
#define NCI_OID_CONN_CLOSE 5u    /* of CORE */
#define NCI_OID_CONN_CREDITS 6u  /* of CORE */
#define NCI_OID_GENERIC_ERROR 7u /* of CORE */
#define NCI_OID_DISCOVER 3u      /* of the group RF */
#define NCI_OID_SELECT 4u        /* of RF */
#define NCI_OID_ACTIVATED 5u     /* of RF */
#define NCI_OID_DEACTIVATE 6u    /* of RF */

/* ---- statuses (003, Table 129): the first octet of a response */

#define NCI_STATUS_OK 0x00u
#define NCI_STATUS_REJECTED 0x01u
#define NCI_STATUS_SYNTAX_ERROR 0x05u
#define NCI_STATUS_SEMANTIC_ERROR 0x06u
#define NCI_STATUS_INVALID_PARAM 0x09u         /* of CORE_SET_CONFIG and CORE_GET_CONFIG */
#define NCI_STATUS_MESSAGE_SIZE_EXCEEDED 0x0Au /* of CORE_GET_CONFIG */
#define NCI_STATUS_ALREADY_STARTED 0xA0u       /* discovery was started before */
#define NCI_STATUS_ACTIVATION_FAILED 0xA1u     /* in CORE_GENERIC_ERROR_NTF */

/* ---- IDs of the configuration parameters (003, Table 138), and by Tables 24 to 32 the octets
 * that a value may have, in hexadecimal digits. A value is one octet, but that of PI_B_H_INFO. */

#define NCI_PA_BAIL_OUT 0x08u        /* 00 or 01; by default 00 */
#define NCI_PA_DEVICES_LIMIT 0x09u   /* any; by default 08 */
#define NCI_PB_AFI 0x10u             /* any; by default 00 */
#define NCI_PB_BAIL_OUT 0x11u        /* 00 or 01; by default 00 */
#define NCI_PB_SENSB_REQ_PARAM 0x13u /* any; by default 00 */
#define NCI_PB_DEVICES_LIMIT 0x14u   /* any; by default 08 */
#define NCI_PF_BIT_RATE 0x18u        /* 01 or 02; by default 01 */
#define NCI_PF_BAIL_OUT 0x19u        /* 00 or 01; by default 00 */
#define NCI_PF_DEVICES_LIMIT 0x1Au   /* any; by default 08 */
#define NCI_PI_B_H_INFO 0x20u        /* 0 to 15 octets, any; by default none */
#define NCI_PI_BIT_RATE 0x21u        /* 00 to 03; by default 00 */
#define NCI_PN_NFC_DEP_PSL 0x28u     /* 00 or 01; by default 00 */
#define NCI_PN_ATR_REQ_CONFIG 0x2Au  /* any; by default 30 */
#define NCI_PV_DEVICES_LIMIT 0x2Fu   /* any; by default 08 */
#define NCI_PACM_BIT_RATE 0x68u      /* 00 to 06, 20, or 80 to FE; by default 01 */

/* ---- RF technology and mode (003, Table 131) */

#define NCI_MODE_POLL_ACTIVE 0x03u   /* from 0x00 on: NFC-A, NFC-B, NFC-F, active */
#define NCI_MODE_POLL_V 0x06u        /* NFC-V */
#define NCI_MODE_LISTEN_A 0x80u
#define NCI_MODE_LISTEN_B 0x81u
#define NCI_MODE_LISTEN_F 0x82u
#define NCI_MODE_LISTEN_ACTIVE 0x83u

/* ---- other octets of messages (003, Tables 134, 13, 66 and 79 to 81) */

#define NCI_FRAME_INTERFACE 0x01u  /* the one RF interface */
#define NCI_LOOPBACK 0x01u         /* the one destination of CORE_CONN_CREATE_CMD */
#define NCI_MORE_FOLLOW 2u         /* the last octet of RF_DISCOVER_NTF, if it is not the last */
#define NCI_TO_IDLE 0x00u          /* types of deactivation */
#define NCI_TO_SLEEP 0x01u
#define NCI_TO_SLEEP_AF 0x02u
#define NCI_TO_DISCOVERY 0x03u
#define NCI_HOST_REQUEST 0x00u     /* reasons of deactivation */
#define NCI_ENDPOINT_REQUEST 0x01u
#define NCI_LINK_LOSS 0x02u

/* ---- where fields stand in a payload, which starts behind the header, and how long it is */

/* every response; alone in CORE_GENERIC_ERROR_NTF */
#define NCI_AT_STATUS 0u
#define NCI_LENGTH_STATUS 1u

/* CORE_CONN_CREATE_CMD */
#define NCI_AT_CREATE_DESTINATION 0u
#define NCI_AT_CREATE_PARAMETERS 1u

/* RF_DISCOVER_CMD: a count, then pairs of NCI_SIZE_CONFIG octets */
#define NCI_AT_CONFIG_COUNT 0u
#define NCI_AT_CONFIG_MODE 1u
#define NCI_AT_CONFIG_FREQUENCY 2u
#define NCI_SIZE_CONFIG 2u

/* RF_DISCOVER_SELECT_CMD, behind the ID */
#define NCI_AT_SELECT_PROTOCOL 1u
#define NCI_AT_SELECT_INTERFACE 2u

/* CORE_RESET_NTF */
#define NCI_AT_RESET_TRIGGER 0u
#define NCI_AT_RESET_CONFIG 1u
#define NCI_AT_RESET_VERSION 2u
#define NCI_AT_RESET_MAKER 3u
#define NCI_LENGTH_RESET 5u

/* CORE_INIT_RSP, behind the status and four octets of features */
#define NCI_AT_INIT_CONNS 5u
#define NCI_AT_INIT_ROUTES 6u
#define NCI_AT_INIT_CONTROL 8u
#define NCI_AT_INIT_HCI 9u
#define NCI_AT_INIT_INTERFACES 13u
#define NCI_AT_INIT_INTERFACE 14u
#define NCI_AT_INIT_EXTENSIONS 15u
#define NCI_LENGTH_INIT 16u

/* CORE_CONN_CREATE_RSP, behind the status */
#define NCI_AT_CREATE_PAYLOAD 1u
#define NCI_AT_CREATE_CREDITS 2u
#define NCI_AT_CREATE_CONN 3u
#define NCI_LENGTH_CREATE 4u

/* CORE_CONN_CREDITS_NTF: a count, then entries of NCI_SIZE_ENTRY octets */
#define NCI_AT_ENTRY_COUNT 0u
#define NCI_AT_ENTRY_CONN 1u
#define NCI_AT_ENTRY_CREDITS 2u
#define NCI_SIZE_ENTRY 2u

/* RF_DISCOVER_NTF; the type stands behind the parameters, so many octets further,
 * and the length is without them */
#define NCI_AT_FOUND_ID 0u
#define NCI_AT_FOUND_PROTOCOL 1u
#define NCI_AT_FOUND_MODE 2u
#define NCI_AT_FOUND_PARAMS_LENGTH 3u
#define NCI_AT_FOUND_TYPE 4u
#define NCI_LENGTH_FOUND 5u

/* RF_INTF_ACTIVATED_NTF; what follows the parameters stands so many octets further,
 * and the length is without them */
#define NCI_AT_ACTIVATED_ID 0u
#define NCI_AT_ACTIVATED_INTERFACE 1u
#define NCI_AT_ACTIVATED_PROTOCOL 2u
#define NCI_AT_ACTIVATED_MODE 3u
#define NCI_AT_ACTIVATED_PAYLOAD 4u
#define NCI_AT_ACTIVATED_CREDITS 5u
#define NCI_AT_ACTIVATED_PARAMS_LENGTH 6u
#define NCI_AT_ACTIVATED_EXCHANGE 7u
#define NCI_AT_ACTIVATED_RATES 8u
#define NCI_LENGTH_ACTIVATED 11u

/* RF_DEACTIVATE_NTF */
#define NCI_AT_DEACTIVATE_TYPE 0u
#define NCI_AT_DEACTIVATE_REASON 1u
#define NCI_LENGTH_DEACTIVATE 2u

#endif
