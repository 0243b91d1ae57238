/* The second program behind the face of include/mvb.h: the same calls, the same answers, named second_*.
 * Compiled with AS_MVB the names are mvb_*, so that a program written for the library links it in its place. */
#ifndef SECOND_H
#define SECOND_H

#include "mvb.h"

#ifdef AS_MVB
#define SECOND(name) mvb_##name
#else
#define SECOND(name) second_##name
#endif

#define FACE SECOND
#include "face.h"
#undef FACE

#endif
