/*
 * Jespurla: the core of an address box. It answers lease queries (RFC 4388), writes them and reads
 * their replies, answers the DHCPv6 name option (RFC 4704), keeps the DNS servers that routers
 * announce (RFC 5006), and writes names into a DNS zone that several boxes share (RFC 4703). It
 * opens no sockets and keeps no state of its own.
 *
 * Every call is proved to meet its promise; docs/PROMISES.md lists the promises and docs/RULES.md
 * the rules. Every call takes every value of its arguments, returns, and reads and writes only what
 * it was lent.
 *
 * Results. A call that can refuse its input returns a struct whose first field is refusal: 0 for
 * none, or a number of jespurla_refusals.def, which has a constant JESPURLA_REFUSED_... and a text.
 * Test it before anything else of the struct. Beside a refusal the other numbers are 0, a found
 * entry and a new job are zeros, and every buffer, list, zone and job that was lent or handed in is
 * as it was before the call. Each call says below which refusals it has, in the order in which they
 * are tried: the first that applies is given.
 *
 * What a caller owes.
 *  - A pointer that goes with a length or a count points to as many octets or records, and is not
 *    null even where there are none.
 *  - A buffer that a call writes overlaps no other argument, and until the call has returned nobody
 *    else writes what it was lent or reads what it writes.
 *  - Stack enough, as follows.
 *
 * Stack. A call that takes no zone by value takes under 6 KiB itself; 16 KiB are enough for it with
 * the copies that its caller makes of names and jobs. A call that takes a zone by value takes up to
 * 104 KiB itself, and 160 KiB with the copies that its caller makes of the zone that goes in and
 * the one that comes out: give it 256 KiB. The threads of musl have 128 KiB unless told otherwise,
 * which is not enough for those: lend the zone.
 *
 * Threads. No call keeps anything from one call to the next, in memory or elsewhere, so calls may
 * run at the same time on different memory, and calls that only read may share what they read.
 * Calls that write one zone or one buffer are to be made one after the other.
 *
 * What the archive needs: memcpy, memmove and memset of a C library or of your own, and a stack. It
 * allocates nothing and reads neither clock nor files. It is for Linux on x86-64, on a processor with
 * the instructions of x86-64-v2.
 */
#ifndef JESPURLA_H
#define JESPURLA_H

#include <stddef.h>
#include <stdint.h>

#ifdef __cplusplus
extern "C" {
#endif

/*
 * The version of this header. Until 1.0.0 the second number rises where a program that uses the
 * library may have to change.
 */
#define JESPURLA_VERSION_MAJOR 0
#define JESPURLA_VERSION_MINOR 6
#define JESPURLA_VERSION_PATCH 0
#define JESPURLA_VERSION \
    (JESPURLA_VERSION_MAJOR * 65536 + JESPURLA_VERSION_MINOR * 256 + JESPURLA_VERSION_PATCH)

/* The version of the library that is linked, as a number to compare with JESPURLA_VERSION. */
uint32_t jespurla_version(void);

/* JESPURLA_REFUSED_PACKET = 1 and so on, one for each line of the list. */
enum jespurla_refusal {
#define JESPURLA_REFUSAL(number, name, text) JESPURLA_REFUSED_##name = number,
#include "jespurla_refusals.def"
#undef JESPURLA_REFUSAL
    JESPURLA_NOT_REFUSED = 0
};

/* What a refusal means, in words. */
static inline const char *jespurla_refusal_text(uint32_t refusal)
{
    switch (refusal) {
    case JESPURLA_NOT_REFUSED:
        return "not refused";
#define JESPURLA_REFUSAL(number, name, text) \
    case number: \
        return text;
#include "jespurla_refusals.def"
#undef JESPURLA_REFUSAL
    default:
        return "no such refusal";
    }
}

/* Limits, in octets where nothing else is said. */
#define JESPURLA_NAME_MAX 255              /* a full name */
#define JESPURLA_LABEL_MAX 63              /* a label of it */
#define JESPURLA_NAME_REPLY_MIN 256        /* the buffer for the answer to a name option */
#define JESPURLA_AREA_MAX 1500             /* a router's option area */
#define JESPURLA_ROUTER_LIFETIME_MAX 65535 /* a router's lifetime, in seconds */
#define JESPURLA_SERVERS_MAX 8             /* servers in the list */
#define JESPURLA_OPTION_SERVERS_MAX 3      /* addresses of one option that count */
#define JESPURLA_PACKET_MIN 240            /* a lease query or reply, at the least */
#define JESPURLA_PACKET_MAX 1500           /* a lease query or reply that is read, at the most */
#define JESPURLA_LEASE_REPLY_MIN 648       /* the buffer for a lease reply; no reply is longer */
#define JESPURLA_LEASE_QUERY_MIN 501       /* the buffer to write a lease query; none is longer */
#define JESPURLA_LEASES_MAX 256            /* records in the lease table */
#define JESPURLA_HARDWARE_MAX 16           /* a hardware address */
#define JESPURLA_CLIENT_ID_MAX 64          /* a client id in the lease table */
#define JESPURLA_QUERY_CLIENT_ID_MAX 255   /* a client id in a lease query that is written */
#define JESPURLA_RELAY_MAX 64              /* relay agent information in the lease table */
#define JESPURLA_REPLY_ADDRESSES_MAX 63    /* addresses in option 92 of a reply */
#define JESPURLA_DHCID_LENGTH 35           /* a DHCID */
#define JESPURLA_NAMES_MAX 64              /* names in a zone */
#define JESPURLA_NAME_ADDRESSES_MAX 4      /* addresses that a name has of each family */
#define JESPURLA_REQUESTS_MAX 6            /* requests that an add sends */

/*
 * A moment on the clock, in seconds: 0 to JESPURLA_LATEST. Where it is an expiry it may also be
 * JESPURLA_NEVER. Any other number breaks the form of the record that holds it. From when the
 * seconds count is the caller's choice; the server list refuses a clock that goes back, so it wants
 * one that is never set back.
 */
typedef struct {
    uint64_t seconds;
} jespurla_moment;

#define JESPURLA_LATEST UINT64_C(0xffffffffffff)
#define JESPURLA_NEVER UINT64_MAX

/* A span of seconds: how long, where a moment says when. No call takes one for the other. */
typedef struct {
    uint32_t seconds;
} jespurla_span;

/* ---- The DHCPv6 name option (RFC 4704) */

/* The bits of its flags octet. A client asks for S or N; the answer says what the server does. */
#define JESPURLA_FLAG_S 1 /* the server updates the name's address */
#define JESPURLA_FLAG_O 2 /* in an answer alone: the server overrides the client's wish for S */
#define JESPURLA_FLAG_N 4 /* the server updates nothing */

typedef struct {
    uint32_t refusal;
    uint32_t flags; /* the flags octet of the answer: 0, S, O or N */
} jespurla_flag_answer;

/*
 * The flag decision.
 *
 * flags: the client's flags octet; bits above N are not looked at.
 * honour_s, honour_n: whether S, or N, may be honoured: 0 is no, any other number yes.
 *
 * The rule: the answer starts with no bit. Where the client sets N and N may be honoured, it is N.
 * Where the client sets S and S may be honoured, it is S; where it sets S and S may not, it is O,
 * since the server has overridden the client's wish. In every other case it stays without a bit.
 * Refusals: 10 O is set, or S and N both.
 */
jespurla_flag_answer jespurla_flag_decision(uint8_t flags, uint8_t honour_s, uint8_t honour_n);

typedef struct {
    uint32_t refusal;
    uint32_t length; /* how many octets stand at the front of reply, the flags octet among them */
} jespurla_name_answer;

/*
 * The server's answer to a name option.
 *
 * value, value_length: the option's value: a flags octet and then a name.
 * suffix, suffix_length: what completes a partial name; a full name.
 * honour_s, honour_n: as above.
 * reply, reply_length: where the answer goes; at least JESPURLA_NAME_REPLY_MIN octets.
 *
 * The rule: a name is labels of 1 to 63 octets, each behind its length. It is full where a 0 ends
 * it and nothing follows, at most 255 octets in all; partial where the field ends behind a label,
 * at most 254; anything else, a lone 0 among it, is malformed. The answer is the flags octet of the
 * decision above and the name: a full name octet for octet, a partial one with the suffix behind
 * it. The octets of reply past the answer keep their values.
 * Refusals: 14 reply too short; 10 value empty, or its flags refused; 11 suffix not a full name; 12
 * name empty; 11 name malformed; 13 completed name over 255 octets.
 * A server that gets 10 to 13 for the client's option sends its reply without a name option, or
 * asks its own configuration for a name where the name was empty (12). A suffix that is not full is
 * refused with 11 for every client: jespurla_zone_check_lent tests it beforehand.
 */
jespurla_name_answer jespurla_name_option_answer(const uint8_t *value, size_t value_length,
                                                 const uint8_t *suffix, size_t suffix_length,
                                                 uint8_t honour_s, uint8_t honour_n,
                                                 uint8_t *reply, size_t reply_length);

/* ---- The DNS servers that routers announce (RFC 5006) */

/*
 * A server: an IPv6 address, the expiry that the option which last named it gave it, and the router
 * moment, up to which the router that sent this option said that it would be there. It is in use up
 * to the earlier of the two, that moment included.
 */
typedef struct {
    uint8_t address[16];
    jespurla_moment expiry; /* a moment, or JESPURLA_NEVER */
    jespurla_moment router; /* a moment: every router's lifetime ends */
} jespurla_server;

/*
 * The servers, the preferred one first, and the last accepted clock. A list of zeros is empty, at
 * clock 0. Entries past the count are not looked at, and are zero in a list that a call made.
 */
typedef struct {
    jespurla_server entries[JESPURLA_SERVERS_MAX];
    size_t count;
    jespurla_moment clock;
} jespurla_server_list_state;

typedef struct {
    uint32_t refusal;
    jespurla_server_list_state list; /* the next list; beside a refusal the one handed in */
} jespurla_server_list_answer;

/*
 * The list after a router's option area has come in. An empty area only drops what has expired.
 *
 * list: the list as the call before returned it.
 * clock: now.
 * router_lifetime: for how long from now the router says that it is there, at most
 * JESPURLA_ROUTER_LIFETIME_MAX seconds: the Router Lifetime of its advertisement, octets 6 and 7 of
 * the message. A router that says goodbye sends 0.
 * area, area_length: the options of the same advertisement, one behind the other.
 *
 * The rule: first every server goes for which the earlier of its two moments is less than the
 * clock: at that moment it is still there, a second later it is gone. Then the options act in turn.
 * One acts where its Type is 25 and its Length, in units of 8 octets, is odd and at least 3; of its
 * addresses the first three count, and all have its Lifetime. Other options do nothing. Where the
 * Lifetime is 0, or the router lifetime, an address is taken off the list, if it is there. With any
 * others an address that is there gets the expiry clock + Lifetime (at most JESPURLA_LATEST, and
 * JESPURLA_NEVER where the Lifetime is all ones) and the router moment clock + router_lifetime (at
 * most JESPURLA_LATEST), and keeps its place. One that is not there, also one that went just before
 * since it had expired, is put in with these two: ahead of all servers that this option did not put
 * in, behind those that it did. Where the list has eight already, the one whose earlier moment is
 * the first is dropped to make room (of several the one furthest back). A server that the area does
 * not name keeps its moments, whatever the router lifetime is.
 *
 * When a server goes: the smaller number of its expiry and its router moment is the last second at
 * which it is in use. A router that was unplugged says nothing more, so a host also calls with an
 * empty area, when that second of some server has passed or from time to time: every server goes
 * whose last second has passed, also one that an option named for good. An empty area names no
 * server, so there any router lifetime within its limit does, and none changes anything.
 *
 * Refusals: 31 list with a count over 8, two entries of one address, an expiry that is neither a
 * moment nor never, a router moment that is no moment, or a clock above JESPURLA_LATEST; 15 clock
 * above JESPURLA_LATEST or behind the list's; 15 router lifetime above
 * JESPURLA_ROUTER_LIFETIME_MAX; 16 area over JESPURLA_AREA_MAX octets, or with an option of Length
 * 0 or one past the end. The area is tested whole before anything of it is applied. A host that
 * gets 16 drops the advertisement.
 */
jespurla_server_list_answer jespurla_server_list(jespurla_server_list_state list,
                                                 jespurla_moment clock,
                                                 jespurla_span router_lifetime,
                                                 const uint8_t *area, size_t area_length);

/* ---- Lease queries (RFC 4388) */

#define JESPURLA_LEASE_FREE 0
#define JESPURLA_LEASE_LEASED 1

/*
 * A record of the lease table. It is active where its state is leased and its expiry is never or
 * later than now: at the very moment of its expiry it is not.
 */
typedef struct {
    jespurla_moment last;                  /* the last transaction */
    jespurla_moment expiry;                /* a moment, or JESPURLA_NEVER */
    uint8_t chaddr[JESPURLA_HARDWARE_MAX]; /* the hardware address: zeros from hlen on */
    uint8_t id[JESPURLA_CLIENT_ID_MAX];    /* the client id; from idlen on not looked at */
    uint8_t relay[JESPURLA_RELAY_MAX];     /* relay information; from relaylen on not looked at */
    uint32_t address;                      /* as a number: 10.0.0.1 is 0x0a000001 */
    uint8_t state;                         /* JESPURLA_LEASE_FREE or JESPURLA_LEASE_LEASED */
    uint8_t htype;                         /* 0 where hlen is 0 */
    uint8_t hlen;                          /* 0 to 16 */
    uint8_t idlen;                         /* 0, or 2 to 64 */
    uint8_t relaylen;                      /* 0 to 64 */
} jespurla_lease;

/* The kinds of reply. */
#define JESPURLA_LEASEUNASSIGNED 11
#define JESPURLA_LEASEUNKNOWN 12
#define JESPURLA_LEASEACTIVE 13

typedef struct {
    uint32_t refusal;
    uint32_t kind;
    uint32_t length; /* how many octets stand at the front of reply */
} jespurla_lease_answer;

/*
 * The reply to a DHCPv4 lease query.
 *
 * clock: now.
 * table, count: the lease table, at most JESPURLA_LEASES_MAX records, addresses nonzero and
 * strictly rising. It is only read, and not at all where the count is above that.
 * server: this server's address, as a number.
 * query, query_length: the packet, as UDP carries it, from op on.
 * reply, reply_length: where the reply goes, as UDP is to carry it to the query's giaddr; at least
 * JESPURLA_LEASE_REPLY_MIN octets.
 *
 * The rule: a query has one key. A ciaddr that is not zero asks by address. A hardware key, which
 * is there where any octet of htype, hlen or chaddr is not zero, asks by client: the one with the
 * same htype, hlen and first hlen octets of chaddr. A client id (option 61) asks by client too; one
 * over JESPURLA_CLIENT_ID_MAX octets is nobody's.
 *  - By address: LEASEACTIVE where the address has an active record, LEASEUNASSIGNED where it has a
 *    record that is not active, LEASEUNKNOWN where it has none.
 *  - By client: LEASEACTIVE where the client has an active lease, about the one with the latest
 *    last transaction (of several the lowest address); else LEASEUNKNOWN. Never LEASEUNASSIGNED.
 * The giaddr takes no part in the choice, and option 52 is not followed.
 * The reply has op 2 and copies xid, flags and giaddr; ciaddr, htype, hlen and chaddr are those of
 * the active lease, and in any other reply those of the query. Its options, in this order: 53, the
 * kind; 54, the server's address; of an active lease 51, the seconds left (all ones for never, at
 * most one less for any other), 61 and 82, the client id and the relay information if there are
 * any, 91, the seconds since the last transaction (0 where that lies ahead, at most all ones), and,
 * by client with two or more active leases, 92, their addresses, the latest first, at most 63; 255.
 * Of 51, 61, 82 and 91 a query that has option 55, the parameter request list (RFC 2132), gets only
 * those that it lists, in the order above, and none that the lease lacks. 53, 54, 92 and 255 are
 * sent as without it, and any other code in the list, or one that stands there twice, changes
 * nothing. The octets of reply past it keep their values.
 * Refusals: 15 clock above JESPURLA_LATEST; 9 the table breaks its form; 8 reply too short; 1
 * packet under JESPURLA_PACKET_MIN or over JESPURLA_PACKET_MAX octets, or a wrong cookie; 2 op not
 * 1; 3 options past the end, no end option, 53, 55 or 61 twice, or 55 empty; 4 option 53 absent,
 * not one octet or not 10; 5 giaddr zero; 6 not exactly one key; 7 hardware key with hlen 0 or
 * above 16, or a client id of 0 or 1 octets.
 * A server that gets 1 to 7 drops the packet and sends nothing; 8, 9 and 15 are about its own
 * memory and clock.
 */
jespurla_lease_answer jespurla_lease_query(jespurla_moment clock,
                                           const jespurla_lease *table, size_t count,
                                           uint32_t server,
                                           const uint8_t *query, size_t query_length,
                                           uint8_t *reply, size_t reply_length);

/* ---- Asking: lease queries written, and their replies read (RFC 4388) */

typedef struct {
    uint32_t refusal;
    uint32_t length; /* how many octets stand at the front of query */
} jespurla_query_answer;

/*
 * A lease query, for whoever asks a server: by an address, by a client's hardware address, or by a
 * client id.
 *
 * xid: the number by which the reply is known, best one that nobody guesses, and another for each
 * query that awaits a reply.
 * giaddr: the asker's address, as a number, to which the server sends the reply.
 * address: the address that is asked about, as a number.
 * htype, chaddr, chaddr_length: the type of the hardware (1 is Ethernet) and the hardware address,
 * 1 to JESPURLA_HARDWARE_MAX octets.
 * id, id_length: the client id, 2 to JESPURLA_QUERY_CLIENT_ID_MAX octets.
 * query, query_length: where the query goes, as UDP is to carry it to the server; at least
 * JESPURLA_LEASE_QUERY_MIN octets.
 *
 * The rule: the query has op 1, the xid and the giaddr. By address the ciaddr is the address; by
 * hardware htype is the type, hlen the number of octets and chaddr these octets, with zeros behind
 * them. All other fields before the cookie are zero. Then come the cookie and the options: 53 with
 * 10, a lease query; by client id 61, the id; 255. The octets of query past it keep their values.
 * jespurla_lease_query takes every query that is written here, with this one key, and leaves
 * nothing out of its reply, since the query has no option 55. A client id of over
 * JESPURLA_CLIENT_ID_MAX octets is written, and that server answers LEASEUNKNOWN.
 * Refusals: 19 giaddr zero; 19 address zero, hardware address of no octets or over
 * JESPURLA_HARDWARE_MAX, or client id of under 2 octets or over JESPURLA_QUERY_CLIENT_ID_MAX; 32
 * query under JESPURLA_LEASE_QUERY_MIN octets, also where this query would fit.
 * A program that gets 19 sends nothing and tells whoever asked that there can be no such query; 32
 * is about its own memory.
 */
jespurla_query_answer jespurla_query_by_address(uint32_t xid, uint32_t giaddr, uint32_t address,
                                                uint8_t *query, size_t query_length);

jespurla_query_answer jespurla_query_by_hardware(uint32_t xid, uint32_t giaddr, uint8_t htype,
                                                 const uint8_t *chaddr, size_t chaddr_length,
                                                 uint8_t *query, size_t query_length);

jespurla_query_answer jespurla_query_by_client_id(uint32_t xid, uint32_t giaddr,
                                                  const uint8_t *id, size_t id_length,
                                                  uint8_t *query, size_t query_length);

/*
 * What stands in a reply. Its two times are spans: how long the lease has still to run, and how
 * long ago the last transaction was, counted from when the server wrote the reply. A LEASEACTIVE
 * may lack either, so look at has_left and has_since first: of a time that is absent both numbers
 * are 0.
 */
typedef struct {
    uint32_t refusal;
    uint32_t kind;       /* one of the kinds of reply */
    uint32_t address;    /* the ciaddr: the address leased, or the one that was asked about */
    uint32_t has_left;   /* 1 where the seconds left are there, else 0 */
    jespurla_span left;  /* all ones: without end */
    uint32_t has_since;  /* 1 where the seconds since the last transaction are there, else 0 */
    jespurla_span since;
    uint32_t count;      /* of addresses */
    uint32_t addresses[JESPURLA_REPLY_ADDRESSES_MAX]; /* as numbers; zeros from count on */
    uint8_t chaddr[JESPURLA_HARDWARE_MAX];            /* all 16 octets of the reply's field */
    uint8_t htype;
    uint8_t hlen; /* how many octets of chaddr count, at most 16 */
} jespurla_lease_reading;

/*
 * What stands in the reply to a lease query.
 *
 * xid: that of the query.
 * reply, reply_length: the packet, as UDP carried it, from op on. It is only read.
 *
 * The rule: the kind is that of option 53; address, htype, hlen and chaddr are the fields of these
 * names, address that of ciaddr. Of LEASEACTIVE left is option 51 and since option 91, each absent
 * where its option is, and addresses are those of option 92 in its order, none where it is absent:
 * the active leases of a client that has two or more, the latest first, the one of address among
 * them. LEASEUNASSIGNED and LEASEUNKNOWN have neither time and no addresses. Every reply of
 * jespurla_lease_query is read back with the values that it was written from. A LEASEACTIVE of that
 * call lacks a time exactly where its query had a list, option 55, without it.
 * Refusals: 20 a malformed reply; 21 its xid is not that of the query. A reply is malformed where
 * it has under JESPURLA_PACKET_MIN or over JESPURLA_PACKET_MAX octets, or a wrong cookie; where its
 * options run past the end, lack the end option, or have 53 or 61 twice; where its op is not 2 or
 * its hlen above 16; or by one of these options:
 *  - 53: must be there once, with one octet, 11 to 13;
 *  - 54: must be there once, with 4 octets;
 *  - 51 and 91, of LEASEACTIVE alone: may each be there once, with 4 octets;
 *  - 61, of LEASEACTIVE alone: may be there once, with 2 to 64 octets;
 *  - 82, of LEASEACTIVE alone: may be there once, with 1 to 64 octets;
 *  - 92, of LEASEACTIVE alone: may be there once, with 8 to 252 octets, a multiple of 4.
 * In the other two kinds the options of LEASEACTIVE are not looked at, but that 61 twice is
 * malformed there too. The order of options does not matter, nor does any other option, 55 among
 * them; option 52 is not followed.
 * A program that gets 20 or 21 drops the packet and goes on waiting for its reply, for as long as
 * it would have waited without it: whoever can send to it can send such packets.
 */
jespurla_lease_reading jespurla_lease_reply_read(uint32_t xid, const uint8_t *reply,
                                                 size_t reply_length);

/* ---- A DNS zone, and what stands in it */

/*
 * Every struct of a zone is made of octets alone, so it has no gaps: an entry has 374 octets and a
 * zone 23,936. Wherever a zone is kept, lend it: the calls whose names end in _lent,
 * jespurla_zone_find and jespurla_zone_same take a pointer and the size, copy no zone and need
 * little stack. The others take the zone by value and hand the next one back.
 */

/*
 * A domain name as it stands in a message; octets from length on are not looked at. Names are equal
 * where they are the same with the letters A to Z of ASCII folded (RFC 4343): octets 65 to 90 count
 * as 97 to 122, so that Oboe and oboe are one name, and every other octet counts as itself, also
 * those above 127. Every call on a zone compares names in this way.
 */
typedef struct {
    uint8_t octets[JESPURLA_NAME_MAX];
    uint8_t length;
} jespurla_name;

/* A DHCID (RFC 4701), opaque here. */
typedef struct {
    uint8_t octets[JESPURLA_DHCID_LENGTH];
} jespurla_dhcid;

/* An address of family 4 (its first 4 octets; the others are not looked at) or 6 (all 16). */
typedef struct {
    uint8_t octets[16];
} jespurla_address;

/* At most four addresses of a family, no two equal; items from count on are not looked at. */
typedef struct {
    uint8_t items[JESPURLA_NAME_ADDRESSES_MAX][4];
    uint8_t count;
} jespurla_set4;

typedef struct {
    uint8_t items[JESPURLA_NAME_ADDRESSES_MAX][16];
    uint8_t count;
} jespurla_set6;

#define JESPURLA_FREE 0   /* a free place: nothing else in the entry is looked at */
#define JESPURLA_STATIC 1 /* a static name, which nobody owns: its dhcid is not looked at */
#define JESPURLA_HELD 2   /* a name held by its dhcid */

typedef struct {
    uint8_t kind;
    jespurla_name name;
    jespurla_dhcid dhcid;
    jespurla_set4 v4;
    jespurla_set6 v6;
} jespurla_entry;

/*
 * A zone of zeros is empty. Which place a name has does not matter, and freed places serve again. A
 * zone breaks its form where an entry has a kind not listed, a name that is not full, a count over
 * 4 or two equal addresses, or where two names are equal, also those that differ only in the case
 * of letters. A name keeps the octets that it was first written with for as long as it stands.
 * No request makes a static name or changes one: the caller writes its entry into a free place.
 */
typedef struct {
    jespurla_entry entries[JESPURLA_NAMES_MAX];
} jespurla_zone;

/* Families of addresses, and policies: what becomes of a name's other addresses. */
#define JESPURLA_FAMILY_4 4
#define JESPURLA_FAMILY_6 6
#define JESPURLA_KEEP_OTHERS 0   /* other addresses stay */
#define JESPURLA_ONE_OF_FAMILY 1 /* no other address of this family stays */
#define JESPURLA_ONLY_THIS 2     /* no other address stays */

typedef struct {
    uint32_t refusal;
    jespurla_entry entry; /* zeros where the name is absent, and beside a refusal */
} jespurla_find_answer;

/*
 * What stands at a name.
 *
 * zone, length: the zone and its size, sizeof(jespurla_zone). It is only read.
 * name: a full name.
 *
 * The rule: entry is a copy, octet for octet, of the one entry that has the name, in whatever
 * letters; its kind tells a static name from a held one, and its name is spelled as in the zone.
 * Where the name is absent, entry is zeros, of kind JESPURLA_FREE.
 * Refusals: 17 the length is not that of a zone, or the zone breaks its form; 11 a name that is not
 * full.
 */
jespurla_find_answer jespurla_zone_find(const jespurla_zone *zone, size_t length,
                                        jespurla_name name);

typedef struct {
    uint32_t refusal;
    uint32_t same; /* 1 or 0 */
} jespurla_same_answer;

/*
 * Whether two zones mean the same. memcmp says that they differ where only places differ, the case
 * of letters in names, or octets that are not looked at.
 *
 * left, left_length, right, right_length: the zones and their sizes. They are only read, and may be
 * one and the same.
 *
 * The rule: same is 1 exactly if both have the same names, in whatever letters, with the same owner
 * at each (a static name has none) and the same addresses of each family, in whatever order.
 * Refusals: 17 a length is not that of a zone, or one of the zones breaks its form.
 */
jespurla_same_answer jespurla_zone_same(const jespurla_zone *left, size_t left_length,
                                        const jespurla_zone *right, size_t right_length);

typedef struct {
    uint32_t refusal;
} jespurla_check_answer;

/*
 * The check alone, for a caller that sends no request: the refusal that a request with these would
 * get. Where there is no policy, pass 0. By value, and on a zone that is lent and only read.
 *
 * Refusals: 17 the zone breaks its form or, lent, the length is not that of a zone; 18 a family or
 * policy not listed; 11 a name that is not full.
 */
jespurla_check_answer jespurla_zone_check(jespurla_zone zone, jespurla_name name, uint8_t family,
                                          uint8_t policy);

jespurla_check_answer jespurla_zone_check_lent(const jespurla_zone *zone, size_t length,
                                               jespurla_name name, uint8_t family, uint8_t policy);

/* ---- The requests of RFC 4703, each tested and done at once */

/* The answers: the response codes of RFC 2136, and one of our own. */
#define JESPURLA_NOERROR 0
#define JESPURLA_NXDOMAIN 3
#define JESPURLA_YXDOMAIN 6
#define JESPURLA_YXRRSET 7
#define JESPURLA_NXRRSET 8
#define JESPURLA_NO_ROOM 256

typedef struct {
    uint32_t refusal;
    uint32_t answer;
} jespurla_request_answer;

typedef struct {
    uint32_t refusal;
    uint32_t answer;
    jespurla_zone zone; /* the zone after the request; beside a refusal the very one handed in */
} jespurla_answered;

/*
 * zone, length: the zone and its size; a request changes it where it lies. By value, the zone as
 * the call before returned it.
 * name: a full name. dhcid: who asks.
 * family, address: the address that is added or deleted.
 * policy: of B alone.
 *
 * Refusals of each: 17 the zone breaks its form or, lent, the length is not that of a zone; 18 a
 * family or policy not listed; 11 a name that is not full. 17 is about the caller's own memory: the
 * zone was damaged by something else and is to be restored, since no call changes it any more; 18
 * and 11 are about this request alone.
 *
 * What changes: a request that does not answer NOERROR changes nothing. Names, owners and addresses
 * are afterwards those of the rule below, and the zone keeps its form; which place a new name gets
 * is left open. A name that stands keeps its octets, whatever letters the request has. At most one
 * entry of a lent zone is written, and no octet of another changes. Where by the rule nothing
 * changes, every octet of the zone keeps its value: a request that does not succeed, an address to
 * delete that is not there, an address to add that is there with no other to delete.
 */

/* A: adds an absent name, in the octets of the request, held by the DHCID, with the address. A name
 * that was deleted has the new octets. YXDOMAIN where the name is there; NO_ROOM where it would be
 * the 65th. */
jespurla_request_answer jespurla_request_a_lent(jespurla_zone *zone, size_t length,
                                                jespurla_name name, jespurla_dhcid dhcid,
                                                uint8_t family, jespurla_address address);

jespurla_answered jespurla_request_a(jespurla_zone zone, jespurla_name name, jespurla_dhcid dhcid,
                                     uint8_t family, jespurla_address address);

/* B: at a name that the DHCID holds, deletes by policy, then adds the address unless it is there.
 * NXDOMAIN where the name is absent; NXRRSET where it is static or held by another; NO_ROOM where
 * after the deletes the address would be the fifth of its family. */
jespurla_request_answer jespurla_request_b_lent(jespurla_zone *zone, size_t length,
                                                jespurla_name name, jespurla_dhcid dhcid,
                                                uint8_t family, jespurla_address address,
                                                uint8_t policy);

jespurla_answered jespurla_request_b(jespurla_zone zone, jespurla_name name, jespurla_dhcid dhcid,
                                     uint8_t family, jespurla_address address, uint8_t policy);

/* The first remove request: at a name that the DHCID holds, deletes the address if it is there; the
 * name stays. NXRRSET where the DHCID does not hold the name. */
jespurla_request_answer jespurla_request_remove_address_lent(jespurla_zone *zone, size_t length,
                                                             jespurla_name name,
                                                             jespurla_dhcid dhcid, uint8_t family,
                                                             jespurla_address address);

jespurla_answered jespurla_request_remove_address(jespurla_zone zone, jespurla_name name,
                                                  jespurla_dhcid dhcid, uint8_t family,
                                                  jespurla_address address);

/* The second remove request: deletes a name that the DHCID holds and that has no address. NXRRSET
 * where the DHCID does not hold the name, YXRRSET where it does and an address is left. The family
 * must be one that is listed; the address is not looked at. */
jespurla_request_answer jespurla_request_remove_name_lent(jespurla_zone *zone, size_t length,
                                                          jespurla_name name, jespurla_dhcid dhcid,
                                                          uint8_t family, jespurla_address address);

jespurla_answered jespurla_request_remove_name(jespurla_zone zone, jespurla_name name,
                                               jespurla_dhcid dhcid, uint8_t family,
                                               jespurla_address address);

/* ---- Jobs of RFC 4703: requests sent one step at a time */

/*
 * The stages of a job, and where an answer leads it. The steps of several boxes may be mixed on one
 * zone in any way.
 *
 * An add gives a name an address. It sends A first.
 *   before A:  NOERROR ends it done; YXDOMAIN leads to before B; NO_ROOM ends it no room.
 *   before B:  NOERROR ends it done; NXDOMAIN leads back to before A, or, where it was the sixth
 *              request, ends it gave up; NXRRSET ends it conflict; NO_ROOM ends it no room.
 * A remove takes an address away, and the name with the last one.
 *   before its first request:   NOERROR leads to before the second; NXRRSET ends it not ours.
 *   before its second request:  NOERROR ends it gone; anything else ends it kept.
 *
 * After conflict the name is somebody else's: the player gets another, or is told. No room and gave
 * up have changed nothing, and a fresh job may be sent later.
 *
 * An add's count is at most 6 and, on a zone that only steps of jobs change, at most 2 + 2r, r being
 * how often its name was deleted between the add's first request and its last. So a count of 3 or 4
 * says there that the name was deleted in between, 5 or 6 that it was twice, gave up that it was
 * three times, or more often each (docs/DEMAND-3.md).
 */
#define JESPURLA_ADD_BEFORE_A 1
#define JESPURLA_ADD_BEFORE_B 2
#define JESPURLA_ADD_DONE 3
#define JESPURLA_ADD_CONFLICT 4
#define JESPURLA_ADD_NO_ROOM 5
#define JESPURLA_ADD_GAVE_UP 6
#define JESPURLA_REMOVE_BEFORE_FIRST 11
#define JESPURLA_REMOVE_BEFORE_SECOND 12
#define JESPURLA_REMOVE_NOT_OURS 13
#define JESPURLA_REMOVE_GONE 14
#define JESPURLA_REMOVE_KEPT 15

typedef struct {
    uint8_t stage;  /* one of the above */
    uint8_t count;  /* the requests that an add has sent; of a remove not looked at */
    uint8_t family;
    uint8_t policy; /* of a remove not looked at */
    jespurla_name name;
    jespurla_dhcid dhcid;
    jespurla_address address;
} jespurla_job;

typedef struct {
    uint32_t refusal;
    jespurla_job job; /* beside a refusal zeros, which no step takes */
} jespurla_new_job;

/*
 * A fresh add, or a fresh remove, that has sent nothing yet.
 *
 * name, dhcid, family, address, policy: what its requests will have. The job has them as they were
 * handed in, the stage JESPURLA_ADD_BEFORE_A or JESPURLA_REMOVE_BEFORE_FIRST, and count 0; a remove
 * has policy 0.
 *
 * Refusals: 18 a family or policy not listed; 11 a name that is not full.
 */
jespurla_new_job jespurla_new_add(jespurla_name name, jespurla_dhcid dhcid, uint8_t family,
                                  jespurla_address address, uint8_t policy);

jespurla_new_job jespurla_new_remove(jespurla_name name, jespurla_dhcid dhcid, uint8_t family,
                                     jespurla_address address);

/*
 * Whether a job has ended: 1 where its stage is done, conflict, no room, gave up, not ours, gone or
 * kept, and 0 at any other. Only the stage is looked at.
 */
uint8_t jespurla_job_has_ended(jespurla_job job);

typedef struct {
    uint32_t refusal;
    jespurla_job job; /* the job after the step; beside a refusal the very one handed in */
} jespurla_step_answer;

typedef struct {
    uint32_t refusal;
    jespurla_zone zone; /* the zone after the step; beside a refusal the very one handed in */
    jespurla_job job;   /* and so the job */
} jespurla_stepped;

/*
 * One step of a job: the one request that its stage asks for, tested and done at once on the zone,
 * and where the answer leads the job: of the job only stage and count change. A job that has ended
 * comes back as it is, and so does the zone. On a lent zone, and by value; steps of both kinds may
 * be mixed on one zone.
 *
 * zone, length: the zone and its size, whoever wrote it last.
 * job: the job as a new job call or its own last step returned it.
 *
 * Refusals: 17 the zone breaks its form or, lent, the length is not that of a zone; 18 a stage,
 * family or policy not listed, or a count that the stage can't have; 11 a name that is not full.
 * What changes is what the request changes, as above. Of all the steps together: however the steps
 * of any jobs are mixed, some order of the whole jobs, adds without room and those that gave up
 * left out, ends with the same names, owners and addresses and the same answer to every add: the
 * jobs are serializable (docs/DEMAND-3.md). In that order a job that ended before another sent its
 * first request stands before it. The order may leave a name in other letters.
 */
jespurla_step_answer jespurla_job_step_lent(jespurla_zone *zone, size_t length, jespurla_job job);

jespurla_stepped jespurla_job_step(jespurla_zone zone, jespurla_job job);

#ifdef __cplusplus
}
#endif

#endif
