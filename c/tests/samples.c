/* samples FILE: prints what each call says of a file, and a sum of what it writes. The tests compare this with what other
 * builds, and djxl, say. With any argument more, the planar samples themselves are written as text, one channel a line. */
#include <stdio.h>
#include <stdlib.h>
#include <string.h>
#include "jxl_lossless.h"

static uint8_t file[1 << 24];

static unsigned sum(const void *at, size_t size) {
    const uint8_t *bytes = (const uint8_t *)at;
    unsigned total = 0;
    size_t k;
    for (k = 0; k < size; k++) total = total * 31 + bytes[k];
    return total;
}

int main(int count, char **words) {
    jxl_lossless_limits limits = {0};
    jxl_lossless_info info = {0};
    jxl_lossless_channel *channels;
    jxl_lossless_status status;
    char why[JXL_LOSSLESS_MESSAGE];
    int32_t *samples;
    uint8_t *pixels, *profile;
    FILE *in = count > 1 ? fopen(words[1], "rb") : NULL;
    size_t size, n, k, j;
    if (in == NULL) return 2;
    size = fread(file, 1, sizeof file, in);
    fclose(in);
    limits.size = sizeof limits;
    info.size = sizeof info;
    if (jxl_lossless_usual_limits(&limits) != JXL_LOSSLESS_DONE || limits.codewords != 1 << 26) return 3;
    /* The struct of an older program ends before `codewords`, which then is neither read nor written. */
    limits.size = offsetof(jxl_lossless_limits, codewords);
    limits.codewords = 0;
    if (jxl_lossless_usual_limits(&limits) != JXL_LOSSLESS_DONE || limits.codewords != 0) return 5;
    limits.size--;
    if (jxl_lossless_usual_limits(&limits) != JXL_LOSSLESS_WRONG_STRUCT) return 6;
    limits.size++;
    status = jxl_lossless_read_info(file, size, &limits, &info, why, sizeof why);
    if (status != JXL_LOSSLESS_DONE) {
        printf("%u %s\n", status, why);
        return 0;
    }
    printf("%ux%u colours %u extra %u bits %u exponent %u alpha %u interleaved %u profile %lu samples %lu\n", info.width,
           info.height, info.colours, info.extra, info.bits, info.exponent_bits, info.alpha, info.interleaved,
           (unsigned long)info.profile, (unsigned long)info.samples);
    n = info.colours + info.extra;
    channels = (jxl_lossless_channel *)malloc(n * sizeof *channels);
    status = jxl_lossless_channels(file, size, &limits, channels, n, why, sizeof why);
    if (status != JXL_LOSSLESS_DONE) return 4;
    for (k = 0; k < n; k++)
        printf("channel %lu: kind %u %ux%u shift %u bits %u first %lu\n", (unsigned long)k, channels[k].kind,
               channels[k].width, channels[k].height, channels[k].shift, channels[k].bits, (unsigned long)channels[k].first);
    profile = (uint8_t *)malloc((size_t)info.profile + 1);
    status = jxl_lossless_profile(file, size, &limits, profile, (size_t)info.profile, why, sizeof why);
    printf("profile: %u %s %u\n", status, why, sum(profile, (size_t)info.profile));
    samples = (int32_t *)malloc((size_t)info.samples * 4);
    status = jxl_lossless_decode(file, size, &limits, samples, (size_t)info.samples, why, sizeof why);
    printf("samples: %u %s %u\n", status, why, status == 0 ? sum(samples, (size_t)info.samples * 4) : 0);
    size_t pixel_count = (size_t)info.width * info.height * info.interleaved;
    pixels = (uint8_t *)malloc(pixel_count * 2);
    status = jxl_lossless_decode_8(file, size, &limits, pixels, pixel_count, why, sizeof why);
    printf("8 bits: %u %s %u\n", status, why, status == 0 ? sum(pixels, pixel_count) : 0);
    status = jxl_lossless_decode_16(file, size, &limits, (uint16_t *)pixels, pixel_count * 2, why, sizeof why);
    printf("16 bits: %u %s %u\n", status, why, status == 0 ? sum(pixels, pixel_count * 2) : 0);
    if (count > 2)
        for (k = 0; k < n; k++) {
            for (j = 0; j < (size_t)channels[k].width * channels[k].height; j++)
                printf("%ld ", (long)samples[channels[k].first + j]);
            printf("\n");
        }
    free(channels), free(profile), free(samples), free(pixels);
    return 0;
}
