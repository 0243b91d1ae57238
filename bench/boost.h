/* The check sequence by Boost.CRC: crc_optimal of seven bits, then the parity. */
#ifndef BOOST_H
#define BOOST_H

#include <stddef.h>
#include <stdint.h>

#ifdef __cplusplus
extern "C"
#endif
uint32_t boost_check_of(const uint8_t *block, size_t length);

#endif
