/* A server with many cards, in threads that share nothing: each has its own cards, and there is no lock. Each card gets a packet in three parts, out of
   order; a part goes to another card each time, so that a state is out of the processor's cache when its turn comes.
   Run: cc -O2 -pthread -I c examples/many.c crates/abi/out/libabi.a -o many && ./many CARDS THREADS */
#define _POSIX_C_SOURCE 200809L
#include <pthread.h>
#include <stdio.h>
#include <stdlib.h>
#include <string.h>
#include <time.h>
#include "skelmarix.h"

enum { SLOTS = 2, PARTS = 3, PACKET = 390 };

/* All that a server keeps of a card. It is stored and brought back whole. */
struct card {
    uint8_t state[SKM_STATE_OCTETS];
    uint8_t cells[SLOTS * SKM_SLOT_OCTETS];
};

struct shard {
    pthread_t thread;
    unsigned long cards, packets, refused;
    double seconds;
};

static uint8_t packet[PACKET], parts[PARTS][SKM_USER_DATA_OCTETS];
static skm_size lengths[PARTS];

/* Whether an output has the packet that was sent. */
static int whole(const uint8_t *out, const skm_size taken[4]) {
    return taken[0] == SKM_PACKET && taken[3] == PACKET && !memcmp(out, packet, PACKET);
}

static double seconds_now(void) {
    struct timespec t;
    clock_gettime(CLOCK_MONOTONIC, &t);
    return (double)t.tv_sec + (double)t.tv_nsec / 1e9;
}

static void *serve(void *given) {
    static const int order[PARTS] = {1, 2, 0};
    struct shard *shard = given;
    struct card *cards = calloc(shard->cards, sizeof *cards);
    uint8_t out[SKM_PACKET_OCTETS];
    skm_size taken[4];
    if (!cards) return NULL;
    for (unsigned long i = 0; i < shard->cards; i++) skm_fresh_with(cards[i].state, SKM_COMMAND, SLOTS);
    shard->seconds = seconds_now();
    for (int k = 0; k < PARTS; k++)
        for (unsigned long i = 0; i < shard->cards; i++) {
            struct card *c = &cards[i];
            shard->refused += 0 != skm_take_message(c->state, 0, parts[order[k]], lengths[order[k]], c->cells, sizeof c->cells, out, sizeof out, taken);
            shard->packets += (unsigned long)whole(out, taken);
        }
    shard->seconds = seconds_now() - shard->seconds;
    free(cards);
    return NULL;
}

int main(int argc, char **argv) {
    unsigned long cards = argc > 1 ? strtoul(argv[1], NULL, 10) : 100000, threads = argc > 2 ? strtoul(argv[2], NULL, 10) : 1, packets = 0, refused = 0;
    static const uint8_t fields[SKM_COMMAND_FIELDS] = {0};
    static uint8_t out[SKM_PACKET_OCTETS], data[PACKET - 16];
    struct shard *shards = calloc(threads, sizeof *shards);
    skm_size length, part[2];
    double most = 0;
    if (!shards || skm_build_command(fields, fields, 0, data, sizeof data, out, sizeof out, &length)) return 1;
    memcpy(packet, out, PACKET);
    for (uint32_t k = 0; k < PARTS; k++) {
        if (skm_write_message(SKM_COMMAND, 8, 42, k + 1, packet, PACKET, parts[k], sizeof parts[k], part)) return 1;
        lengths[k] = part[1];
    }
    for (unsigned long t = 0; t < threads; t++) {
        shards[t].cards = cards / threads;
        if (pthread_create(&shards[t].thread, NULL, serve, &shards[t])) return 1;
    }
    for (unsigned long t = 0; t < threads; t++) {
        pthread_join(shards[t].thread, NULL);
        packets += shards[t].packets, refused += shards[t].refused;
        if (shards[t].seconds > most) most = shards[t].seconds;
    }
    printf("%lu cards, %lu threads: %lu packets, %lu refused, %.3f s, %.0f ns a call and thread\n", cards, threads, packets, refused, most,
           most * 1e9 / (double)(cards / threads * PARTS));
    return packets != cards / threads * threads;
}
