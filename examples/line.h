/* The line as the administrator sees it. A control unit puts its line chip here; line.c simulates a small train. */
#ifndef LINE_H
#define LINE_H

#include <stddef.h>
#include <stdint.h>

enum { LINE_ROOM = 48 };

/* Sends a Master Frame and listens: the bytes of the Slave Frame that came, none for silence. */
size_t line_ask(const uint8_t *master, size_t length, uint8_t heard[LINE_ROOM]);

/* Sends a Master Frame, and behind it the Slave Frame of a source of our own. */
void line_send(const uint8_t *master, size_t master_bytes, const uint8_t *slave, size_t slave_bytes);

/* How many telegrams of our own sources the others took. */
unsigned line_sent(void);

/* Lets devices have an event, and a device fall silent. For the simulation alone. */
void line_event(uint16_t device);
void line_silence(uint16_t address);

#endif
