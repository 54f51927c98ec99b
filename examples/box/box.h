/* What the files of the example share. */
#ifndef BOX_H
#define BOX_H

#include "jespurla.h"
#include "table.h"

/* The parts of the example, in the order in which they are shown. */
void show_name_options(void);
void show_server_list(void);
void show_lease_queries(void);
void show_written_queries(void);
void show_requests(void);
void show_lookups(void);
void show_jobs(void);
void show_by_value(void);

/* messages.c: the octets of one message, as they come from the network. There is room for one octet
 * more than the library takes: a message that is too long must be seen to be so. Cut off at the
 * limit, it might pass for another. */
typedef struct {
    uint8_t octets[JESPURLA_PACKET_MAX + 1];
    size_t length;
} message;

void read_from(const char *folder);
message read_message(const char *file);

/* refusals.c: a refusal as a number, a name and a text; it does not end the line. */
void print_refusal(uint32_t refusal);
/* Ends the program where the call was refused: for what is wrong in the box itself. */
void stop_if_refused(const char *call, uint32_t refusal);

/* words.c: values in words. None of these ends the line. */
uint32_t number_at(const uint8_t *octets);
void print_count(unsigned long count, const char *what);
void print_name(const uint8_t *name, size_t length);
void print_hex(const uint8_t *octets, size_t length);
void print_hardware(const uint8_t *octets, size_t length);
void print_address4(const uint8_t *octets);
void print_number4(uint32_t address);
void print_address6(const uint8_t *octets);

/* reply.c: the name of a reply's kind, and a reply field by field. */
const char *kind_text(uint32_t kind);
void print_reply(const uint8_t *reply, size_t length);

/* zone.c: what the parts about a zone have in common. */
jespurla_name name_of(const char *labels);
jespurla_dhcid dhcid_of(char client);
const char *answer_text(uint32_t answer);
const char *stage_text(uint8_t stage);
/* A line of what was found at a name; an entry that is found is a copy of the one in the zone, and
 * its name is printed as it is spelled there. */
void print_entry(jespurla_name name, const jespurla_entry *entry);
/* Looks the name up in the zone and prints that line. */
void print_found(const jespurla_zone *zone, jespurla_name name);

#endif
