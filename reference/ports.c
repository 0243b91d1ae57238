/* The port store with ages (document 01, "Ports and ages"). */
#include "mvb_ref.h"

#include <string.h>

enum { MOST_PORTS = 256, ADDRESSES = 4096, NONE = -1 };

static int is_process_data(unsigned f_code)
{
    return f_code <= 4;
}

int ref_table_good(const struct ref_port *port, size_t ports)
{
    if (ports > MOST_PORTS)
        return 0;
    for (size_t i = 0; i < ports; i++) {
        if (port[i].address >= ADDRESSES || !is_process_data(port[i].f_code))
            return 0;
        if (i > 0 && port[i - 1].address >= port[i].address)
            return 0;
    }
    return 1;
}

static size_t port_bytes(struct ref_port port)
{
    return ref_data_bits(port.f_code) / 8;
}

/* Where port i begins in the store: behind all ports before it. */
static size_t port_begins(const struct ref_port *port, size_t i)
{
    size_t bytes = 0;
    for (size_t before = 0; before < i; before++)
        bytes += port_bytes(port[before]);
    return bytes;
}

/* The record with that address, or NONE. */
static int port_of(struct ref_ports lent, unsigned address)
{
    for (size_t i = 0; i < lent.ports; i++)
        if (lent.port[i].address == address)
            return (int)i;
    return NONE;
}

/* What every call checks of what it is lent: 13, then 4. */
static int check_lent(struct ref_ports lent, int takes_store, int takes_ages)
{
    if (!ref_table_good(lent.port, lent.ports))
        return REF_TABLE;
    if (takes_store && lent.store_bytes < port_begins(lent.port, lent.ports))
        return REF_TOO_SHORT;
    if (takes_ages && lent.ages < lent.ports)
        return REF_TOO_SHORT;
    return REF_ACCEPTED;
}

/* Finds the port that a word names: 14, 15, 16, then 17. */
static int find_by_word(struct ref_ports lent, uint16_t word, int want_sink, size_t *found)
{
    unsigned f_code = word / 4096;
    if (!is_process_data(f_code))
        return REF_NOT_PROCESS_DATA;
    int i = port_of(lent, word % 4096);
    if (i == NONE)
        return REF_NO_PORT;
    if (lent.port[i].f_code != f_code)
        return REF_OTHER_F_CODE;
    if ((lent.port[i].sink != 0) != want_sink)
        return REF_SINK_SOURCE;
    *found = (size_t)i;
    return REF_ACCEPTED;
}

/* Finds the port that an address names: 15, then 17. */
static int find_by_address(struct ref_ports lent, uint16_t address, int want_sink, size_t *found)
{
    int i = port_of(lent, address);
    if (i == NONE)
        return REF_NO_PORT;
    if ((lent.port[i].sink != 0) != want_sink)
        return REF_SINK_SOURCE;
    *found = (size_t)i;
    return REF_ACCEPTED;
}

int ref_port_arrive(struct ref_ports lent, uint16_t word, const uint8_t *frame, size_t len)
{
    uint8_t data[32];
    size_t i = 0, count = 0;
    int refusal = check_lent(lent, 1, 1);
    if (refusal == REF_ACCEPTED)
        refusal = find_by_word(lent, word, 1, &i);
    if (refusal == REF_ACCEPTED)
        refusal = ref_slave_read(lent.port[i].f_code, frame, len, data, sizeof data, &count);
    if (refusal != REF_ACCEPTED)
        return refusal;
    memcpy(lent.store + port_begins(lent.port, i), data, count);
    lent.age[i] = 0;
    return REF_ACCEPTED;
}

int ref_port_answer(struct ref_ports lent, uint16_t word, uint8_t *out, size_t room,
                    size_t *count)
{
    size_t i = 0;
    int refusal = check_lent(lent, 1, 0);
    if (refusal == REF_ACCEPTED)
        refusal = find_by_word(lent, word, 0, &i);
    if (refusal != REF_ACCEPTED)
        return refusal;
    return ref_slave_write(lent.port[i].f_code, lent.store + port_begins(lent.port, i),
                           port_bytes(lent.port[i]), out, room, count);
}

int ref_port_read(struct ref_ports lent, uint16_t address, uint8_t *out, size_t room,
                  size_t *count, uint16_t *age)
{
    size_t i = 0;
    int refusal = check_lent(lent, 1, 1);
    if (refusal == REF_ACCEPTED)
        refusal = find_by_address(lent, address, 1, &i);
    if (refusal == REF_ACCEPTED && room < port_bytes(lent.port[i]))
        refusal = REF_TOO_SHORT;
    if (refusal != REF_ACCEPTED)
        return refusal;
    *count = port_bytes(lent.port[i]);
    *age = lent.age[i];
    memcpy(out, lent.store + port_begins(lent.port, i), *count);
    return REF_ACCEPTED;
}

int ref_port_fill(struct ref_ports lent, uint16_t address, const uint8_t *data, size_t len)
{
    size_t i = 0;
    int refusal = check_lent(lent, 1, 0);
    if (refusal == REF_ACCEPTED)
        refusal = find_by_address(lent, address, 0, &i);
    if (refusal == REF_ACCEPTED && len != port_bytes(lent.port[i]))
        refusal = REF_WRONG_LENGTH;
    if (refusal != REF_ACCEPTED)
        return refusal;
    memcpy(lent.store + port_begins(lent.port, i), data, len);
    return REF_ACCEPTED;
}

int ref_port_tick(struct ref_ports lent)
{
    int refusal = check_lent(lent, 0, 1);
    for (size_t i = 0; refusal == REF_ACCEPTED && i < lent.ports; i++)
        if (lent.port[i].sink != 0 && lent.age[i] < 65535)
            lent.age[i]++;
    return refusal;
}
