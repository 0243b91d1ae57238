/* compare SEED                a gate run: so many turns of each topic, and every answer of every function seen
 * compare SEED TOPIC          the same of one topic
 * compare SEED for SECONDS    all topics in turn until the time is over */
#include "compare.h"

#include "report.h"

#include <stdio.h>
#include <stdlib.h>
#include <string.h>
#include <time.h>

enum { GATE_SECONDS = 1200, TURNS_AT_ONCE = 64 };

static const struct topic *const topics[] = {
    &frames_topic,
    &timing_topic,
    &rounds_topic,
    &search_topic,
    &lists_topic,
    &ports_topic,
};

enum { TOPICS = sizeof topics / sizeof topics[0] };

static struct {
    uint64_t seed, turn;
    const char *topic;
} origin;

void print_origin(void)
{
    printf("  seed %llu, topic %s, turn %llu\n", (unsigned long long)origin.seed, origin.topic,
           (unsigned long long)origin.turn);
}

/* A topic's number, from its name. */
static uint64_t number_of(const char *name)
{
    uint64_t number = 0;
    for (; *name != 0; name++)
        number = 31 * number + (unsigned char)*name;
    return number;
}

/* Turn t of a topic follows from the seed, the topic and t alone. */
static void take_turns(const struct topic *topic, uint64_t first, uint64_t count)
{
    uint64_t start = (origin.seed << 40) + (number_of(topic->name) << 20);
    origin.topic = topic->name;
    for (origin.turn = first; origin.turn < first + count; origin.turn++) {
        chance_from((start ^ origin.turn) * UINT64_C(0xD1342543DE82EF95));
        topic->turn();
    }
}

static double seconds_now(void)
{
    struct timespec t;
    clock_gettime(CLOCK_MONOTONIC, &t);
    return (double)t.tv_sec + 1e-9 * (double)t.tv_nsec;
}

/* Prints what a function was asked and answered. Returns whether it gave each of its answers. */
static int print_face(const struct face *face)
{
    int all = 1;
    printf("  %-18s %9llu calls, %llu accepted", face->name, (unsigned long long)face->calls,
           (unsigned long long)face->seen[0]);
    for (unsigned n = 1; n < MOST_REFUSALS; n++)
        if (face->seen[n] > 0)
            printf(", refusal %u: %llu", n, (unsigned long long)face->seen[n]);
    printf("\n");
    for (unsigned n = 0; n < MOST_REFUSALS; n++)
        if ((face->seen[n] > 0) != (face->answers >> n & 1)) {
            printf("  %s: answer %u %s\n", face->name, n, face->seen[n] > 0 ? "is none of its own" : "was never seen");
            all = 0;
        }
    return all;
}

static int print_topic(const struct topic *topic, double seconds)
{
    int all = 1;
    printf("%s: no difference in %.1f s\n", topic->name, seconds);
    for (size_t i = 0; i < topic->face_count; i++)
        all &= print_face(&topic->faces[i]);
    return all;
}

/* Of all topics, or of the one with that name. */
static int gate_run(const char *name)
{
    int all = 1;
    for (size_t i = 0; i < TOPICS; i++) {
        if (name != NULL && strcmp(topics[i]->name, name) != 0)
            continue;
        double start = seconds_now();
        take_turns(topics[i], 0, topics[i]->gate_turns);
        all &= print_topic(topics[i], seconds_now() - start);
        fflush(stdout);
    }
    return all;
}

static void run_for(double seconds)
{
    double end = seconds_now() + seconds, spent[TOPICS] = {0};
    uint64_t turns[TOPICS] = {0};
    for (size_t i = 0; seconds_now() < end; i = (i + 1) % TOPICS) {
        double until = seconds_now() + 0.1;
        while (seconds_now() < until) {
            take_turns(topics[i], turns[i], TURNS_AT_ONCE);
            turns[i] += TURNS_AT_ONCE;
        }
        spent[i] += seconds_now() - until + 0.1;
    }
    for (size_t i = 0; i < TOPICS; i++)
        print_topic(topics[i], spent[i]);
}

int main(int argc, char **argv)
{
    if (argc < 2 || argc > 4) {
        fprintf(stderr, "usage: compare SEED [TOPIC | for SECONDS]\n");
        return 2;
    }
    origin.seed = strtoull(argv[1], NULL, 10);
    if (argc < 4) {
        watch(GATE_SECONDS);
        return gate_run(argc == 3 ? argv[2] : NULL) ? 0 : 1;
    }
    double seconds = strtod(argv[3], NULL);
    watch((unsigned)seconds + 120);
    run_for(seconds);
    return 0;
}
