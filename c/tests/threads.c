/* threads FILE: 8 threads of 64 kB of stack decode one file, 20 times each, and compare the samples. */
#define _DEFAULT_SOURCE
#include <limits.h>
#include <pthread.h>
#include <stdio.h>
#include <stdlib.h>
#include <string.h>
#include <sys/mman.h>
#include "jxl_lossless.h"

static uint8_t file[1 << 24];
static size_t size;
static jxl_lossless_limits limits;
static jxl_lossless_info info;
static int32_t *right;
static int wrong;

static void *run(void *none) {
    int32_t *samples = (int32_t *)malloc((size_t)info.samples * 4);
    int k;
    (void)none;
    for (k = 0; k < 20; k++)
        if (jxl_lossless_decode(file, size, &limits, samples, (size_t)info.samples, NULL, 0) != JXL_LOSSLESS_DONE ||
            memcmp(samples, right, (size_t)info.samples * 4) != 0)
            __sync_fetch_and_add(&wrong, 1);
    free(samples);
    return NULL;
}

int main(int count, char **words) {
    pthread_t threads[8];
    FILE *in = count == 2 ? fopen(words[1], "rb") : NULL;
    /* what the C library itself puts on a thread's stack comes on top of 64 kB */
    size_t stack = 65536 + PTHREAD_STACK_MIN;
    int k;
    if (in == NULL) return 2;
    size = fread(file, 1, sizeof file, in);
    fclose(in);
    limits.size = sizeof limits;
    info.size = sizeof info;
    jxl_lossless_usual_limits(&limits);
    if (jxl_lossless_read_info(file, size, &limits, &info, NULL, 0) != JXL_LOSSLESS_DONE) return 3;
    right = (int32_t *)malloc((size_t)info.samples * 4);
    if (jxl_lossless_decode(file, size, &limits, right, (size_t)info.samples, NULL, 0) != JXL_LOSSLESS_DONE) return 4;
    for (k = 0; k < 8; k++) {
        pthread_attr_t how;
        uint8_t *pages = (uint8_t *)mmap(NULL, stack + 4096, PROT_READ | PROT_WRITE, MAP_PRIVATE | MAP_ANONYMOUS, -1, 0);
        mprotect(pages, 4096, PROT_NONE);
        pthread_attr_init(&how);
        pthread_attr_setstack(&how, pages + 4096, stack);
        if (pthread_create(&threads[k], &how, run, NULL) != 0) return 5;
    }
    for (k = 0; k < 8; k++) pthread_join(threads[k], NULL);
    printf("8 threads of 20 decodes on 64 kB of stack: %d wrong\n", wrong);
    return wrong != 0;
}
