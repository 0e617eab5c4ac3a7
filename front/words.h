/* NCI packets in plain words, on the line that is being said (line.h). */
#ifndef WORDS_H
#define WORDS_H

#include <stdbool.h>
#include <stddef.h>
#include <stdint.h>

enum { MT_DATA, MT_CMD, MT_RSP, MT_NTF };

struct packet {
    unsigned mt;            /* 4 to 7 are RFU */
    bool more;              /* PBF: more segments follow */
    unsigned id;            /* GID, or the Conn ID of data */
    unsigned oid;           /* of a control packet */
    unsigned credits;       /* of data: those that it returns, going up */
    const uint8_t *payload; /* a part of the octets that were read */
    size_t length;
};

/* Reads a packet. Of fewer octets than its header states it has what is there. */
struct packet read_packet(const uint8_t *octets, size_t length);

/* A command as one packet, of the octets of its call: GID, OID, payload. */
struct packet read_command(const uint8_t *octets, size_t length);

bool is_credit_notice(const struct packet *p);

/* Its name and what its payload says, as "CORE_CONN_CREATE_RSP ok, connection 2, payload 4,
 * credits 2", "CORE_SET_CONFIG_CMD PA_BAIL_OUT 01, PF_BIT_RATE default" or "data on connection 2,
 * 4 octets, more follows". Data that carries credits says so at its end, as ", 1 credit". */
void say_packet(const struct packet *p);

/* Why octets are no packet, as "fewer than 3 octets". */
void say_no_packet(const uint8_t *octets, size_t length);

/* "reserved bits 7 and 6 of octet 1 are at 1"; at least one of them is. */
void say_reserved(unsigned rfu);

/* "1 octet", "2 octets" */
void say_octets(size_t count);

/* "payload 4, credits 2", or "payload 4, no flow control" */
void say_terms(unsigned payload, unsigned credits);

#endif
