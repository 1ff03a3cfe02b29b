/*
 * How much stack each call takes: it runs on a painted one, and what is no longer paint behind it is counted. An
 * empty call, which the thread itself needs, is taken off.
 */
#include <pthread.h>
#include <stdio.h>
#include <stdlib.h>
#include <string.h>

#include "fathrugg.h"

#define SIZE (1 << 20)
#define PAINT 0xa5

static uint8_t hebap[256], field[4096], pages[FATHRUGG_PAGES_BYTES], mode, gains[FATHRUGG_GAINS];
static float x[1536], values[1536];
static int32_t exact[1536];
static uint16_t indices[256];
static size_t count;
static uint32_t payload, bits;
static int call;

static void *run(void *nothing)
{
    size_t byte = 0, index, length;
    uint32_t bit = 0;
    float six[6], err;
    switch (call) {
    case 1: fathrugg_plan_aht_channel(hebap, 256, 0, 256, x, 1536, &mode, gains, &count, &payload); break;
    case 2: fathrugg_write_aht_channel(mode, gains, count, payload, hebap, 256, 0, 256, x, 1536, field, sizeof field, &byte, &bit); break;
    case 3: fathrugg_read_aht_channel(field, sizeof field, &byte, &bit, hebap, 256, 0, 256, values, 1536, exact, 1536, indices, 256, &mode, gains, &count, &bits); break;
    case 4: fathrugg_vq_search(7, x, &index); break;
    case 5: fathrugg_quantise_bin(12, 2, x, six, &bits, &err); break;
    case 6: fathrugg_print_pages(mode, gains, count, payload, hebap, 256, 0, 256, x, 1536, pages, sizeof pages, &length); break;
    }
    return nothing;
}

int main(void)
{
    static const char *names[] = {"nothing", "plan", "write", "read", "search", "quantise_bin", "print_pages"};
    size_t own = 0;
    for (int i = 0; i < 256; i++)
        hebap[i] = (uint8_t)(i % 20);
    for (int i = 0; i < 1536; i++)
        x[i] = (float)(i % 64 - 32) / 40.0f;
    for (call = 0; call <= 6; call++) {
        void *stack;
        pthread_attr_t attr;
        pthread_t thread;
        if (posix_memalign(&stack, 4096, SIZE) != 0)
            return 1;
        memset(stack, PAINT, SIZE);
        pthread_attr_init(&attr);
        if (pthread_attr_setstack(&attr, stack, SIZE) != 0 || pthread_create(&thread, &attr, run, NULL) != 0 || pthread_join(thread, NULL) != 0)
            return 1;
        size_t clean = 0;
        while (clean < SIZE && ((const uint8_t *)stack)[clean] == PAINT)
            clean++;
        if (call == 0)
            own = SIZE - clean;
        else
            printf("stack %s %ld bytes\n", names[call], (long)(SIZE - clean) - (long)own);
        free(stack);
    }
    return 0;
}
