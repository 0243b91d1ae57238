/* The C peer behind the face of include/mvb.h: the same calls, named peer_*. Compiled with AS_MVB the names are mvb_*,
 * so that the peer is held to the second program by the same comparison as the library. */
#ifndef PEER_H
#define PEER_H

#include "mvb.h"

#ifdef AS_MVB
#define PEER(name) mvb_##name
#else
#define PEER(name) peer_##name
#endif

#define FACE PEER
#include "../tests/compare/face.h"
#undef FACE

/* The check sequence of a block of 8 bytes by eight tables of 256 bytes instead of one. */
uint32_t PEER(check_by_eight_tables)(const uint8_t *block, size_t length);

#endif
