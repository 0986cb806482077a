/* ppm2jxl PICTURE > FILE.jxl: encodes a PGM or PPM picture, whose maximum is 2^n - 1 with n from 1 to 16. */
#include <stdio.h>
#include <stdlib.h>
#include <string.h>
#include "jxl_lossless.h"

/* A number of the header, after white space and comments. */
static unsigned number(FILE *in) {
    unsigned it = 0;
    int c = getc(in);
    while (c == ' ' || c == '\t' || c == '\r' || c == '\n' || c == '#') {
        if (c == '#')
            while (c != '\n' && c != EOF) c = getc(in);
        c = getc(in);
    }
    while (c >= '0' && c <= '9' && it < 100000000) {
        it = it * 10 + (unsigned)(c - '0');
        c = getc(in);
    }
    return it;
}

/* The samples, one channel after another; those of a file stand pixel by pixel. */
static int32_t *read_samples(FILE *in, const jxl_lossless_info *info) {
    size_t pixels = (size_t)info->width * info->height, k, c;
    int32_t *samples = (int32_t *)malloc(pixels * info->colours * sizeof *samples);
    for (k = 0; samples != NULL && k < pixels; k++)
        for (c = 0; c < info->colours; c++) {
            int high = info->bits > 8 ? getc(in) : 0, low = getc(in);
            if (low == EOF) {
                free(samples);
                return NULL;
            }
            samples[c * pixels + k] = high * 256 + low;
        }
    return samples;
}

int main(int count, char **words) {
    jxl_lossless_info info;
    jxl_lossless_status status;
    char why[JXL_LOSSLESS_MESSAGE] = "";
    FILE *in = count == 2 ? fopen(words[1], "rb") : NULL;
    int32_t *samples = NULL;
    uint8_t *file = NULL;
    size_t needed = 0, size;
    unsigned most;
    int kind;
    if (in == NULL || getc(in) != 'P' || ((kind = getc(in)) != '5' && kind != '6')) {
        fprintf(stderr, "usage: ppm2jxl PICTURE, a PGM or PPM file\n");
        return 2;
    }
    memset(&info, 0, sizeof info);
    info.size = sizeof info;
    info.colours = kind == '5' ? 1 : 3;
    info.space = kind == '5' ? 1 : 0;
    info.white = 1, info.primaries = 1, info.transfer = 13, info.intent = 1; /* sRGB */
    info.width = number(in);
    info.height = number(in);
    most = number(in);
    while (info.bits < 16 && most >> info.bits != 0) info.bits++;
    samples = most == (1u << info.bits) - 1 ? read_samples(in, &info) : NULL;
    fclose(in);
    if (samples == NULL) {
        fprintf(stderr, "%s: no picture\n", words[1]);
        return 1;
    }
    /* Files are mostly smaller than this; if not, the call says how large the buffer must be. */
    for (size = (size_t)info.width * info.height * info.colours * 2 + 1000;; size = needed) {
        free(file);
        file = (uint8_t *)malloc(size);
        status = JXL_LOSSLESS_NO_MEMORY;
        if (file != NULL)
            status = jxl_lossless_encode(&info, NULL, 0, samples, (size_t)info.width * info.height * info.colours, NULL, 0,
                                         JXL_LOSSLESS_USUAL, file, size, &needed, why, sizeof why);
        if (status != JXL_LOSSLESS_NO_ROOM) break;
    }
    if (status == JXL_LOSSLESS_DONE)
        fwrite(file, 1, needed, stdout);
    else
        fprintf(stderr, "%s: %s\n", words[1], why[0] != 0 ? why : "out of memory");
    free(samples);
    free(file);
    return status == JXL_LOSSLESS_DONE ? 0 : 1;
}
