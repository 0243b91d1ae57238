/* A simulated line: process data of four ports, a device status, and devices that have an event. Two or more that
 * speak at once leave a damaged frame. */
#include "line.h"

#include "mvb.h"

#include <string.h>

enum { DEVICES = 8 };

static uint16_t events[DEVICES];
static unsigned event_count, asked, sent;
static uint16_t silent = 65535;

void line_event(uint16_t device)
{
    events[event_count++] = device;
}

void line_silence(uint16_t address)
{
    silent = address;
}

void line_send(const uint8_t *master, size_t master_bytes, const uint8_t *slave, size_t slave_bytes)
{
    uint8_t data[MVB_MOST_DATA];
    uint32_t word = mvb_master_read(master, master_bytes);
    if (MVB_REFUSED(word))
        return;
    uint32_t count = mvb_slave_read((uint8_t)(word >> 12), slave, slave_bytes, data, sizeof data);
    sent += !MVB_REFUSED(count);
}

unsigned line_sent(void)
{
    return sent;
}

/* Process data: the address, and behind it how often the line was asked. */
static size_t process_data(unsigned f_code, uint16_t address, uint8_t *heard)
{
    uint8_t data[MVB_MOST_DATA] = {(uint8_t)(address >> 8), (uint8_t)address, (uint8_t)(asked >> 8), (uint8_t)asked};
    if (address == silent)
        return 0;
    return mvb_slave_write((uint8_t)f_code, data, (size_t)2 << f_code, heard, LINE_ROOM);
}

/* The group {M, C} that an event request asks (001, 8.3): M free high bits, the low bits C. */
static int asks_for(uint16_t word, uint16_t device)
{
    unsigned f_code = word >> 12, low = 0;
    if (f_code == 14)
        low = 12;
    else if (f_code == 13)
        for (low = 11; word >> low & 1; low--)
            ;
    unsigned mask = (1u << low) - 1;
    return (device & mask) == (word & mask);
}

/* Each device with an event whose group is asked sends the word that reads its message. */
static size_t event_answer(uint16_t word, uint8_t *heard)
{
    size_t length = 0;
    unsigned speakers = 0;
    for (unsigned i = 0; i < event_count; i++)
        if (asks_for(word, events[i]) && speakers++ == 0)
            length = mvb_master_write((uint16_t)(12 << 12 | events[i]), heard, LINE_ROOM);
    if (speakers > 1)
        heard[2] ^= 0x5A;
    return length;
}

/* A device sends its message and has no event any more. */
static size_t message(uint16_t device, uint8_t *heard)
{
    uint8_t data[MVB_MOST_DATA] = {0};
    for (unsigned i = 0; i < event_count; i++)
        if (events[i] == device) {
            events[i] = events[--event_count];
            data[0] = (uint8_t)(device >> 8);
            data[1] = (uint8_t)device;
            return mvb_slave_write(12, data, sizeof data, heard, LINE_ROOM);
        }
    return 0;
}

size_t line_ask(const uint8_t *master, size_t length, uint8_t heard[LINE_ROOM])
{
    uint32_t word = mvb_master_read(master, length);
    if (MVB_REFUSED(word))
        return 0;
    unsigned f_code = word >> 12;
    uint16_t address = (uint16_t)(word & 4095);
    size_t count = 0;
    asked++;
    if (f_code <= 4)
        count = process_data(f_code, address, heard);
    else if (f_code == 12)
        count = message(address, heard);
    else if (f_code == 15)
        count = mvb_slave_write(15, (const uint8_t *)"\x01\x00", 2, heard, LINE_ROOM);
    else
        count = event_answer((uint16_t)word, heard);
    if (f_code <= 4 && asked == 500 && count > 0)
        heard[0] ^= 0x10; /* a disturbed frame */
    return count;
}
