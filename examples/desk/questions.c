/* Questions as they are typed, and the queries that ask them. */
#include "desk.h"

#include <arpa/inet.h>
#include <ctype.h>
#include <string.h>

#define ETHERNET 1
#define DESK UINT32_C(0x7f000001) /* 127.0.0.1, where the desk is */

/* The value of a hexadecimal digit. */
static uint8_t digit(char c)
{
    return (uint8_t)(isdigit((unsigned char)c) ? c - '0' : tolower((unsigned char)c) - 'a' + 10);
}

/* Whether two hexadecimal digits stand there, and behind them the end or a colon. */
static int is_octet(const char *text)
{
    return isxdigit((unsigned char)text[0]) && isxdigit((unsigned char)text[1]) &&
           (text[2] == '\0' || (text[2] == ':' && text[3] != '\0'));
}

/* Octets in hexadecimal with colons between them. */
static int read_hardware(const char *text, question *asked)
{
    size_t count = 0;

    while (count < sizeof asked->chaddr && is_octet(text)) {
        asked->chaddr[count++] = (uint8_t)(digit(text[0]) << 4 | digit(text[1]));
        text += text[2] == ':' ? 3 : 2;
    }
    asked->chaddr_length = count;
    return *text == '\0';
}

static int read_address(const char *text, question *asked)
{
    struct in_addr address;

    if (inet_pton(AF_INET, text, &address) != 1)
        return 0;
    asked->address = ntohl(address.s_addr);
    return 1;
}

/* What stands behind the name of a key and an equals sign; null where another name stands there. */
static const char *behind(const char *name, const char *argument)
{
    size_t length = strlen(name);
    int is_named = strncmp(argument, name, length) == 0 && argument[length] == '=';
    return is_named ? argument + length + 1 : NULL;
}

int read_question(const char *argument, question *asked)
{
    *asked = (question){ .by = BY_CLIENT_ID };
    asked->text = behind("client", argument);
    if (asked->text != NULL)
        return 1;
    asked->by = BY_HARDWARE;
    asked->text = behind("hardware", argument);
    if (asked->text != NULL)
        return read_hardware(asked->text, asked);
    asked->by = BY_ADDRESS;
    asked->text = behind("address", argument);
    return asked->text != NULL && read_address(asked->text, asked);
}

jespurla_query_answer write_query(const question *asked, uint32_t xid,
                                  uint8_t query[JESPURLA_LEASE_QUERY_MIN])
{
    const size_t room = JESPURLA_LEASE_QUERY_MIN;

    switch (asked->by) {
    case BY_ADDRESS:
        return jespurla_query_by_address(xid, DESK, asked->address, query, room);
    case BY_HARDWARE:
        return jespurla_query_by_hardware(xid, DESK, ETHERNET, asked->chaddr, asked->chaddr_length,
                                          query, room);
    default:
        return jespurla_query_by_client_id(xid, DESK, (const uint8_t *)asked->text,
                                           strlen(asked->text), query, room);
    }
}
