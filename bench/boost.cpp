// The check sequence by Boost.CRC, and the parity that it does not know.
#include "boost.h"

#include <boost/crc.hpp>

extern "C" uint32_t boost_check_of(const uint8_t *block, size_t length)
{
    boost::crc_optimal<7, 0x65, 0, 0, false, false> remainder;
    remainder.process_bytes(block, length);
    unsigned check = static_cast<unsigned>(remainder.checksum()) << 1;
    unsigned ones = check;
    for (size_t i = 0; i < length; i++)
        ones ^= block[i];
    check |= static_cast<unsigned>(__builtin_parity(ones));
    return static_cast<uint8_t>(~check);
}
