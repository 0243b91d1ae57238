/* The search over a known set. */
#include "compare.h"

#include "seeded.h"

enum { FACES = 1, DEVICES = 4096 };

static struct face faces[FACES] = {
    {.name = "mvb_search", .answers = 1u << 0 | 1u << 1 | 1u << 4},
};

static unsigned any_set(uint8_t set[512])
{
    unsigned shared = one_in(2) ? below(13) : 0;
    unsigned most = 4096u >> shared;
    unsigned k = below(one_in(4) ? most + 1 : (most < 20 ? most : 20) + 1);
    uint32_t x = chance() | 1;
    seeded_set(set, one_in(64) ? most : k, shared, &x);
    k = 0;
    for (unsigned a = 0; a < DEVICES; a++)
        k += set[a / 8] >> a % 8 & 1;
    return k;
}

static void turn(void)
{
    static uint8_t set[1024];
    unsigned k = any_set(set);
    size_t length = one_in(16) ? about(MVB_SET_BYTES, sizeof set) : MVB_SET_BYTES;
    size_t places = about(k, DEVICES + 8);
    uint16_t before = (uint16_t)chance();
    calling(&faces[0]);
    struct lent *lent = lend("set", set, length, 1);
    struct lent *out = lend_room("out", places, 2);
    struct lent *requests = lend_out("requests", &before, 1, 2);
    answers(mvb_search(lent->ours, length, out->ours, places, requests->ours),
            second_search(lent->second, length, out->second, places, requests->second));
}

const struct topic search_topic = {"search", faces, FACES, turn, 20000};
