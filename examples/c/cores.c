/* Seals frames in two threads: one thread plans each frame in a slot, the others do the work of the cipher, and the
 * frames leave in the order of their plans. It prints the frames that would be transmitted. Each run needs a new key.
 */
#define _DEFAULT_SOURCE
#include "macsec.h"
#include <pthread.h>
#include <stdio.h>
#include <stdlib.h>
#include <string.h>

enum { SLOTS = 4, WORKERS = 2, FRAMES = 6 };

/* A frame that is under way. The lock guards `planned`, `taken` and `sealed`. */
struct way {
    macsec_slot slot;
    bool planned, taken, sealed;
    uint8_t out[MACSEC_FRAME_MAX];
    size_t length;
};

static struct way ways[SLOTS];
static macsec_key keys[WORKERS]; /* a key for each thread */
static bool ends;
static pthread_mutex_t lock = PTHREAD_MUTEX_INITIALIZER;
static pthread_cond_t changed = PTHREAD_COND_INITIALIZER;

static void must(uint32_t status) {
    if (status != MACSEC_OK) {
        fprintf(stderr, "cores: %s\n", macsec_status_name(status));
        exit(1);
    }
}

/* A slot that waits for its job, which this thread then has alone. */
static struct way *taken_way(void) {
    for (int i = 0; i < SLOTS; i++) {
        if (ways[i].planned && !ways[i].taken) {
            ways[i].taken = true;
            return &ways[i];
        }
    }
    return NULL;
}

static void *worker(void *key) {
    pthread_mutex_lock(&lock);
    while (!ends) {
        struct way *it = taken_way();
        if (it == NULL) {
            pthread_cond_wait(&changed, &lock);
            continue;
        }
        pthread_mutex_unlock(&lock);
        must(macsec_seal_job(&it->slot, key, it->out, sizeof it->out, &it->length));
        pthread_mutex_lock(&lock);
        it->sealed = true;
        pthread_cond_broadcast(&changed);
    }
    pthread_mutex_unlock(&lock);
    return NULL;
}

/* Plans a client frame in a slot that is free, and shows it to the workers. */
static void plan(macsec_endpoint *a, struct way *it, const uint8_t *frame, size_t length) {
    macsec_planned planned;
    must(macsec_plan_send(a, &it->slot, frame, length, &planned));
    if (!planned.job)
        exit(1); /* protected alone: no frame leaves in clear */
    pthread_mutex_lock(&lock);
    it->planned = true;
    it->taken = it->sealed = false;
    pthread_cond_broadcast(&changed);
    pthread_mutex_unlock(&lock);
}

/* Waits until the frame of a slot is sealed, and transmits it. */
static void transmit(struct way *it) {
    pthread_mutex_lock(&lock);
    while (!it->sealed)
        pthread_cond_wait(&changed, &lock);
    it->planned = false;
    pthread_mutex_unlock(&lock);
    printf("%zu octets, packet number %d\n", it->length, it->out[19]);
}

static void end(macsec_endpoint *a, pthread_t *threads) {
    pthread_mutex_lock(&lock);
    ends = true;
    pthread_cond_broadcast(&changed);
    pthread_mutex_unlock(&lock);
    for (int i = 0; i < WORKERS; i++) {
        pthread_join(threads[i], NULL);
        macsec_key_free(&keys[i]);
    }
    for (int i = 0; i < SLOTS; i++)
        macsec_slot_free(&ways[i].slot);
    macsec_free(a);
}

int main(void) {
    static const char text[] = "end A gcm128 1215352400000001 1518 sci\n"
                               "A key 0 ad7a2bd03eac835a6f620fdcb506b345 0\n"
                               "A txsa 0 0 1 conf\n"
                               "A txon 0\n";
    macsec_endpoint a = MACSEC_ENDPOINT_INIT;
    uint32_t line;
    must(macsec_configure(&a, (const uint8_t *)text, strlen(text), &line));
    pthread_t threads[WORKERS];
    for (int i = 0; i < SLOTS; i++)
        must(macsec_slot_new(&ways[i].slot));
    for (int i = 0; i < WORKERS; i++) {
        must(macsec_key_take(&keys[i], &a, 0));
        if (pthread_create(&threads[i], NULL, worker, &keys[i]) != 0)
            return 1;
    }
    uint8_t frame[1000] = { 2, 0, 0, 0, 0, 2, 0x12, 0x15, 0x35, 0x24, 0xc0, 0x89, 8, 0 };
    for (int i = 0; i < FRAMES; i++) {
        if (i >= SLOTS)
            transmit(&ways[i % SLOTS]);
        plan(&a, &ways[i % SLOTS], frame, 60 + 100 * (size_t)i);
    }
    for (int i = FRAMES - SLOTS; i < FRAMES; i++)
        transmit(&ways[i % SLOTS]);
    end(&a, threads);
    return 0;
}
