/* refuse FILE..: refuses each request for memory of each call, one at a time, and compares what comes out with what the
 * header promises. */
#include <stdio.h>
#include <stdlib.h>
#include <string.h>
#include "counted.h"
#include "jxl_lossless.h"

static uint8_t file[1 << 24];
static size_t size;
static jxl_lossless_limits limits;
static jxl_lossless_info info;
static char why[JXL_LOSSLESS_MESSAGE];

/* The calls, by number, each over an array of this many bytes. */
enum { INFO, CHANNELS, PROFILE, SAMPLES, PIXELS, CALLS };

static jxl_lossless_status call(int which, void *out, size_t bytes) {
    switch (which) {
    case INFO: ((jxl_lossless_info *)out)->size = sizeof info; return jxl_lossless_read_info(file, size, &limits, (jxl_lossless_info *)out, why, sizeof why);
    case CHANNELS: return jxl_lossless_channels(file, size, &limits, (jxl_lossless_channel *)out, bytes / sizeof(jxl_lossless_channel), why, sizeof why);
    case PROFILE: return jxl_lossless_profile(file, size, &limits, (uint8_t *)out, bytes, why, sizeof why);
    case SAMPLES: return jxl_lossless_decode(file, size, &limits, (int32_t *)out, bytes / 4, why, sizeof why);
    default: return jxl_lossless_decode_8(file, size, &limits, (uint8_t *)out, bytes, why, sizeof why);
    }
}

int main(int count, char **words) {
    long all = 0, other = 0, n, most;
    int k, which;
    limits.size = sizeof limits;
    info.size = sizeof info;
    jxl_lossless_usual_limits(&limits);
    for (k = 1; k < count; k++) {
        FILE *in = fopen(words[k], "rb");
        if (in == NULL) return 2;
        size = fread(file, 1, sizeof file, in);
        fclose(in);
        refused = 0;
        if (jxl_lossless_read_info(file, size, &limits, &info, why, sizeof why) != JXL_LOSSLESS_DONE) return 3;
        for (which = 0; which < CALLS; which++) {
            size_t bytes = which == INFO ? sizeof info : which == CHANNELS ? (info.colours + info.extra) * sizeof(jxl_lossless_channel)
                : which == PROFILE ? (size_t)info.profile : which == SAMPLES ? (size_t)info.samples * 4
                : (size_t)info.width * info.height * info.interleaved;
            uint8_t *out = (uint8_t *)malloc(bytes + 1), *right = (uint8_t *)malloc(bytes + 1);
            jxl_lossless_status status;
            memset(right, 0x5a, bytes);
            refused = 0, asked = 0;
            if (call(which, right, bytes) != JXL_LOSSLESS_DONE || held != 0) return 4;
            most = asked;
            for (n = 1; n <= most; n++) {
                size_t j, from = which == INFO ? 8 : 0;
                memset(out, 0x5a, bytes);
                asked = 0, refused = n;
                status = call(which, out, bytes);
                if (status != JXL_LOSSLESS_NO_MEMORY || held != 0) other++;
                for (j = from; j < bytes; j++) if (out[j] != 0x5a) return 5;
                all++;
            }
            refused = 0;
            memset(out, 0x5a, bytes);
            if (call(which, out, bytes) != JXL_LOSSLESS_DONE || memcmp(out, right, bytes) != 0) return 6;
            free(out), free(right);
        }
    }
    printf("%ld requests refused, %ld calls that did not return NO_MEMORY, %ld blocks held\n", all, other, held);
    return other != 0 || held != 0;
}
