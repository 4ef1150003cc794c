/* The C interface of Soarnef, a proved authoritative DNS server core: the octets of a query in, those of its reply out.
 * It uses no files, no sockets and no clock, and allocates with malloc alone.
 *
 * A server is kept in memory of the caller: soarnef_size() octets from malloc. The caller guarantees, and nothing checks:
 *   - each pointer is not NULL, is aligned, and has as many octets or structs as its length says, also if that is 0; all of
 *     them are initialized, those of `refusal` and `reply` too;
 *   - `refusal` and `reply` do not overlap any other argument;
 *   - each bool is 0 or 1;
 *   - a server is opened before use and not used after it is closed, its memory is not touched, and it is in one call at a
 *     time, on the thread that opened it. A process forked by a single-threaded one may use its copy.
 *
 * A call that changes a server returns 0, or is refused: it returns a code below or the number of a line, and the server is
 * unchanged. If several codes apply, the first that the call's comment lists is returned, or SOARNEF_OUT_OF_MEMORY, which
 * every call that returns an int64_t may return.
 */
#ifndef SOARNEF_H
#define SOARNEF_H
#include <stdbool.h>
#include <stddef.h>
#include <stdint.h>

typedef struct soarnef soarnef;

enum {
    SOARNEF_OUT_OF_MEMORY = -1,
    SOARNEF_NO_ROOM = -2,       /* the reply does not fit the buffer */
    SOARNEF_WRONG_ADDRESS = -3, /* an address has neither 4 nor 16 octets */
    SOARNEF_WRONG_NAME = -4,    /* not a domain name with its final dot */
    SOARNEF_WRONG_TEXT = -5,    /* not UTF-8 */
    SOARNEF_WRONG_SETTING = -6, /* an unknown value, or a prefix longer than its address */
    SOARNEF_TOO_LONG = -7,      /* longer than a message can hold, or than is read */
    SOARNEF_NOT_FOUND = -8,     /* neither a zone nor a blocklist has this name */
};

/* The size of a server in octets. */
size_t soarnef_size(void);

/* Makes a server without zones, which every address may query. */
void soarnef_open(soarnef *server);

/* Frees what a server holds. Its memory is the caller's to free. */
void soarnef_close(soarnef *server);

/* Loads a zone from the text of a zone file, and replaces the zone or blocklist of this name: one record a line, OWNER
 * TTL IN TYPE RDATA, names fully qualified, no directives (RFC 1035, section 5.1); blank lines and lines that start
 * with ; are skipped. The zone needs no SOA. Primary and secondary zones are answered alike; an external zone as a
 * forwarder does, AA unset and RA set, and REFUSED unless the query has RD set. Refused: SOARNEF_WRONG_SETTING (the
 * type), SOARNEF_WRONG_TEXT, SOARNEF_WRONG_NAME (the origin), or a line, whose number, at least 1, is returned; then
 * `refusal` holds "line N: CAUSE", padded with zeros or cut. 48 octets hold every cause. */
enum { SOARNEF_PRIMARY = 0, SOARNEF_SECONDARY = 1, SOARNEF_EXTERNAL = 2 };
int64_t soarnef_add_zone(soarnef *server, uint8_t zone_type, const uint8_t *origin, size_t origin_len, const uint8_t *text,
                         size_t text_len, uint8_t *refusal, size_t refusal_len);

/* Reads a blocklist from a text, and replaces the zone or blocklist of this name: one domain name a line, alone or
 * after 0.0.0.0; other lines are skipped. It answers queries at or below `name`, where no zone is closer. Names that it
 * blocks are answered as an external zone's, with the sinkhole addresses, and with a TXT message of at most 255 octets
 * unless that is empty; other names with SERVFAIL. Refused: SOARNEF_WRONG_SETTING (the action), SOARNEF_TOO_LONG (the
 * message, or a text of 2^32 octets or more), SOARNEF_WRONG_TEXT (the text or the message), SOARNEF_WRONG_NAME. */
enum { SOARNEF_DISABLED = 0, SOARNEF_ENFORCE = 1, SOARNEF_LOG = 2 };
typedef struct soarnef_blocklist {
    uint32_t ttl;               /* of its answers, in seconds */
    uint8_t action;             /* for chains of several handlers, which these calls do not make: any of the three */
    uint8_t min_wildcard_depth; /* the least number of labels after the asterisk of a wildcard */
    bool wildcard_match;        /* *.NAME blocks all names below NAME */
    uint8_t sinkhole_ipv4[4];   /* the A record of an answer */
    uint8_t sinkhole_ipv6[16];  /* the AAAA record of an answer to a query of that type */
} soarnef_blocklist;
int64_t soarnef_add_blocklist(soarnef *server, const soarnef_blocklist *settings, const uint8_t *name, size_t name_len,
                              const uint8_t *text, size_t text_len, const uint8_t *message, size_t message_len);

/* Removes the zone or blocklist of a name. Refused: SOARNEF_WRONG_NAME, SOARNEF_NOT_FOUND. */
int64_t soarnef_remove(soarnef *server, const uint8_t *name, size_t name_len);

/* Replaces the access list. A query from a denied address is answered REFUSED. The longest prefix that matches an
 * address decides, the denied one of two as long; an address that none matches is denied only if networks of its family
 * are allowed and none are denied. An IPv4-mapped IPv6 address (::ffff:0:0/96) counts as IPv4, and no IPv6 network
 * matches it. An empty list allows all. Refused, for the first invalid network: SOARNEF_WRONG_ADDRESS,
 * SOARNEF_WRONG_SETTING (the prefix). */
typedef struct soarnef_network {
    uint8_t address[16]; /* in network order; an IPv4 address has the first 4 octets */
    uint8_t address_len; /* 4 or 16 */
    uint8_t prefix_len;  /* in bits */
    bool denied;
} soarnef_network;
int64_t soarnef_set_access(soarnef *server, const soarnef_network *networks, size_t count);

/* Sets the NSID (RFC 5001), or unsets it if `len` is 0. Refused: SOARNEF_TOO_LONG (more than 65,531 octets). */
int64_t soarnef_set_nsid(soarnef *server, const uint8_t *octets, size_t len);

/* Serves a message from an address of 4 or 16 octets (network order) and a port, over TCP (`stream`) or UDP, at a time
 * in seconds since 1970, which nothing served today uses. Returns the length of the reply at the start of `reply`; 0 if
 * there is no reply; or SOARNEF_WRONG_ADDRESS, SOARNEF_NO_ROOM, SOARNEF_OUT_OF_MEMORY. The server is unchanged. A UDP
 * reply has at most 512 octets, or the query's EDNS payload size if that is larger; a TCP reply has at most 65,535.
 * Drop UDP messages with QR set (message[2] & 0x80) first: otherwise two servers can answer each other endlessly. */
int64_t soarnef_serve(soarnef *server, const uint8_t *message, size_t message_len, const uint8_t *address, size_t address_len,
                      uint16_t port, bool stream, uint64_t now, uint8_t *reply, size_t reply_len);
#endif
