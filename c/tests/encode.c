/* encode OUT TRIES FILE..: decodes each file, encodes what came out, and compares with what the header promises: the size
 * that is needed, each status, and that the file is decoded to the same. It writes what it encoded of file k to OUT/k.jxl,
 * prints a line for each, and refuses up to TRIES requests for memory of the call with each effort, one at a time. The
 * buffer for the file ends where a page begins that cannot be touched. */
#define _DEFAULT_SOURCE
#include <stdio.h>
#include <string.h>
#include "counted.h"
#include "fence.h"
#include "jxl_lossless.h"

/* What a file is decoded to. */
struct picture {
    jxl_lossless_info info;
    jxl_lossless_channel *channels;
    int32_t *samples;
    uint8_t *profile;
};

static jxl_lossless_limits limits;
static char why[JXL_LOSSLESS_MESSAGE];

static void give_up(const char *what) {
    printf("encode: %s: %s\n", what, why);
    exit(1);
}

static struct picture decoded(const uint8_t *file, size_t size) {
    struct picture it;
    size_t n;
    memset(&it, 0, sizeof it);
    it.info.size = sizeof it.info;
    if (jxl_lossless_read_info(file, size, &limits, &it.info, why, sizeof why) != 0) give_up("info");
    n = it.info.colours + it.info.extra;
    it.channels = (jxl_lossless_channel *)malloc(n * sizeof *it.channels);
    it.samples = (int32_t *)malloc((size_t)it.info.samples * 4);
    it.profile = (uint8_t *)malloc((size_t)it.info.profile + 1);
    if (jxl_lossless_channels(file, size, &limits, it.channels, n, why, sizeof why) != 0) give_up("channels");
    if (jxl_lossless_profile(file, size, &limits, it.profile, (size_t)it.info.profile, why, sizeof why) != 0) give_up("profile");
    if (jxl_lossless_decode(file, size, &limits, it.samples, (size_t)it.info.samples, why, sizeof why) != 0) give_up("samples");
    return it;
}

static void drop_picture(struct picture *it) { free(it->channels), free(it->samples), free(it->profile); }

/* Encodes with these counts, instead of those of the picture. */
static jxl_lossless_status encoded(const struct picture *it, size_t extra, size_t samples, size_t profile, uint32_t effort,
                                   uint8_t *file, size_t size, size_t *needed) {
    return jxl_lossless_encode(&it->info, it->channels + it->info.colours, extra, it->samples, samples, it->profile, profile,
                               effort, file, size, needed, why, sizeof why);
}

/* A call that fails with this status, and changes nothing. */
static void expect(jxl_lossless_status status, jxl_lossless_status wanted, size_t needed, struct fenced file) {
    if (status != wanted || needed != 7 || memchr(why, 0, sizeof why) == NULL || why[0] == 0) give_up("another status");
    if (!is_clear(file)) give_up("a changed buffer");
    if (held != 0) give_up("memory held");
}

static void compare(const struct picture *it, const uint8_t *file, size_t size) {
    struct picture other = decoded(file, size);
    size_t n = it->info.colours + it->info.extra;
    if (memcmp(&it->info, &other.info, sizeof it->info) != 0) give_up("another info");
    if (memcmp(it->channels, other.channels, n * sizeof *it->channels) != 0) give_up("other channels");
    if (memcmp(it->samples, other.samples, (size_t)it->info.samples * 4) != 0) give_up("other samples");
    if (memcmp(it->profile, other.profile, (size_t)it->info.profile) != 0) give_up("another profile");
    drop_picture(&other);
}

/* Each cause has its status. */
static void expect_causes(struct picture *it, size_t extra, size_t samples, size_t profile, struct fenced file) {
    size_t needed = 7;
    uint32_t kept;
    expect(encoded(it, extra + 1, samples, profile, 0, file.at, file.size, &needed), JXL_LOSSLESS_WRONG_COUNT, needed, file);
    expect(encoded(it, extra, samples - 1, profile, 0, file.at, file.size, &needed), JXL_LOSSLESS_WRONG_COUNT, needed, file);
    expect(encoded(it, extra, samples, profile + 1, 0, file.at, file.size, &needed), JXL_LOSSLESS_WRONG_COUNT, needed, file);
    expect(encoded(it, extra, samples, profile, 3, file.at, file.size, &needed), JXL_LOSSLESS_NOT_CODABLE, needed, file);
    kept = it->info.space, it->info.space = 2;
    expect(encoded(it, extra, samples, profile, 0, file.at, file.size, &needed), JXL_LOSSLESS_NOT_CODABLE, needed, file);
    it->info.space = kept, kept = it->info.bits, it->info.bits = 40;
    expect(encoded(it, extra, samples, profile, 0, file.at, file.size, &needed), JXL_LOSSLESS_NOT_CODABLE, needed, file);
    it->info.bits = kept, it->info.size = 79;
    expect(encoded(it, extra, samples, profile, 0, file.at, file.size, &needed), JXL_LOSSLESS_WRONG_STRUCT, needed, file);
    it->info.size = sizeof it->info;
}

int main(int count, char **words) {
    static uint8_t bytes[1 << 24];
    char path[4096];
    long tries = count > 2 ? atol(words[2]) : 0, all = 0, others = 0;
    int k;
    limits.size = sizeof limits;
    jxl_lossless_usual_limits(&limits);
    for (k = 3; k < count; k++) {
        FILE *in = fopen(words[k], "rb"), *out;
        size_t size, needed, extra, samples, profile, j;
        struct picture it;
        uint32_t effort, sum = 0;
        if (in == NULL) return 2;
        size = fread(bytes, 1, sizeof bytes, in);
        fclose(in);
        it = decoded(bytes, size);
        extra = it.info.extra, samples = (size_t)it.info.samples, profile = (size_t)it.info.profile;
        for (effort = 0; effort <= JXL_LOSSLESS_BEST; effort++) {
            struct fenced file;
            long n, most, step;
            /* without room, and with a byte less than it needs, it says how much that is; with as much it succeeds */
            if (encoded(&it, extra, samples, profile, effort, NULL, 0, &needed) != JXL_LOSSLESS_NO_ROOM) give_up("no size");
            size = needed, needed = 7;
            file = fence(size, 1);
            if (encoded(&it, extra, samples, profile, effort, file.at + 1, size - 1, &needed) != JXL_LOSSLESS_NO_ROOM || needed != size)
                give_up("another size");
            if (!is_clear(file) || held != 0) give_up("a buffer without room was changed");
            if (effort == 0) expect_causes(&it, extra, samples, profile, file);
            asked = 0;
            if (encoded(&it, extra, samples, profile, effort, file.at, size, &needed) != JXL_LOSSLESS_DONE) give_up("effort");
            most = asked, step = most / (tries + 1) + 1;
            if (why[0] != 0 || held != 0 || needed != size) give_up("a message, or memory held");
            compare(&it, file.at, needed);
            for (j = 0; j < needed; j++) sum = sum * 31 + file.at[j];
            if (effort == JXL_LOSSLESS_BEST) {
                snprintf(path, sizeof path, "%s/%d.jxl", words[1], k - 2);
                out = fopen(path, "wb");
                if (out == NULL || fwrite(file.at, 1, needed, out) != needed || fclose(out) != 0) return 2;
            }
            /* requests that are refused */
            clear(file);
            for (n = 1; tries > 0 && n <= most; n += step) {
                asked = 0, refused = n, needed = 7;
                expect(encoded(&it, extra, samples, profile, effort, file.at, size, &needed), JXL_LOSSLESS_NO_MEMORY, needed, file);
                all++;
            }
            others += most - (tries > 0 ? (most + step - 1) / step : 0);
            refused = 0;
            drop(file);
        }
        printf("%ux%u %u+%u: %lu bytes, sum %u\n", it.info.width, it.info.height, it.info.colours, it.info.extra,
               (unsigned long)size, sum);
        drop_picture(&it);
    }
    fprintf(stderr, "%d pictures encoded and decoded to the same, %ld requests refused, %ld not\n", count - 3, all, others);
    return 0;
}
