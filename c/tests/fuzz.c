/* fuzz CASES: reads and decodes each damaged file of CASES, and compares what comes out with what the header promises. A
 * case is the size of the file, the number of samples (both 32 bits, the most significant byte first), and the file. Each
 * buffer ends where a page begins that cannot be touched. The last line counts the cases by status. */
#define _DEFAULT_SOURCE
#include <stdio.h>
#include <string.h>
#include "fence.h"
#include "jxl_lossless.h"

static unsigned long cases;
static jxl_lossless_limits limits;
static struct fenced message;

static void check(int is_right, const char *what) {
    if (is_right) return;
    printf("fuzz: case %lu: %s\n", cases, what);
    exit(1);
}

/* Compares what a call wrote: all of its buffer and no message, or a message alone. */
static void check_ended(jxl_lossless_status status, struct fenced out) {
    const char *why = (const char *)message.at;
    check(memchr(why, 0, JXL_LOSSLESS_MESSAGE) != NULL, "a message without end");
    check((status == JXL_LOSSLESS_DONE) == (why[0] == 0), "a message with DONE, or none without it");
    check(status == JXL_LOSSLESS_DONE ? is_clear_from(out, out.size) : is_clear(out), "a changed byte");
}

static jxl_lossless_status read_info(struct fenced file, struct fenced info) {
    ((jxl_lossless_info *)info.at)->size = sizeof(jxl_lossless_info);
    return jxl_lossless_read_info(file.at, file.size, &limits, (jxl_lossless_info *)info.at, (char *)message.at,
                                  JXL_LOSSLESS_MESSAGE);
}

/* The calls over an array whose size the info says, or that are given another size than that. */
static void check_arrays(struct fenced file, const jxl_lossless_info *info, size_t other) {
    size_t pixels = (size_t)info->width * info->height * info->interleaved, channels = info->colours + info->extra;
    static const size_t aligns[4] = {1, 2, 8, 1};
    size_t sizes[4], k;
    sizes[0] = pixels, sizes[1] = 2 * pixels, sizes[2] = channels * sizeof(jxl_lossless_channel), sizes[3] = (size_t)info->profile;
    for (k = 0; k < 8; k++) {
        struct fenced out = fence(k < 4 ? sizes[k] : other * sizeof(jxl_lossless_channel), aligns[k % 4]);
        size_t count = k % 4 == 2 ? out.size / sizeof(jxl_lossless_channel) : out.size;
        size_t wanted = k % 4 == 2 ? channels : sizes[k % 4];
        uint8_t *at = out.at;
        char *why = (char *)message.at;
        jxl_lossless_status status =
            k % 4 == 0 ? jxl_lossless_decode_8(file.at, file.size, &limits, at, count, why, JXL_LOSSLESS_MESSAGE)
            : k % 4 == 1 ? jxl_lossless_decode_16(file.at, file.size, &limits, (uint16_t *)at, count, why, JXL_LOSSLESS_MESSAGE)
            : k % 4 == 2 ? jxl_lossless_channels(file.at, file.size, &limits, (jxl_lossless_channel *)at, count, why, JXL_LOSSLESS_MESSAGE)
            : jxl_lossless_profile(file.at, file.size, &limits, at, count, why, JXL_LOSSLESS_MESSAGE);
        check_ended(status, out);
        check(status < 8, "a status of another call");
        check(status != JXL_LOSSLESS_WRONG_COUNT || count != wanted, "WRONG_COUNT for the right size");
        check(status != JXL_LOSSLESS_DONE || count == wanted, "DONE for a wrong size");
        check(k < 2 || k > 3 || status == JXL_LOSSLESS_DONE, "channels or profile");
        drop(out);
    }
}

int main(int count, char **words) {
    unsigned long by[11] = {0}, headers = 0;
    uint8_t head[8];
    FILE *in = count == 2 ? fopen(words[1], "rb") : NULL;
    size_t k;
    if (in == NULL) return 2;
    limits.size = sizeof limits;
    jxl_lossless_usual_limits(&limits);
    limits.pixels = 1 << 22;
    message = fence(JXL_LOSSLESS_MESSAGE, 1);
    for (cases = 0; fread(head, 1, 8, in) == 8; cases++) {
        size_t size = (size_t)head[0] << 24 | head[1] << 16 | head[2] << 8 | head[3];
        size_t n = (size_t)head[4] << 24 | head[5] << 16 | head[6] << 8 | head[7];
        struct fenced file = fence(size, 1), out = fence(4 * n, 4), told = fence(sizeof(jxl_lossless_info), 8);
        const jxl_lossless_info *info = (const jxl_lossless_info *)told.at;
        jxl_lossless_status first, status;
        if (size != 0 && fread(file.at, 1, size, in) != size) return 2;
        read_only(file);
        first = read_info(file, told);
        check(info->size == sizeof *info, "another size of the info");
        memset(told.at, 0x5a, sizeof info->size);
        check_ended(first, told);
        status = jxl_lossless_decode(file.at, size, &limits, (int32_t *)out.at, n, (char *)message.at, JXL_LOSSLESS_MESSAGE);
        check_ended(status, out);
        check(status < 8 && (first == JXL_LOSSLESS_DONE || status == first), "another status than of the headers");
        if (first == JXL_LOSSLESS_DONE) {
            check((status == JXL_LOSSLESS_WRONG_COUNT) == (n != info->samples), "WRONG_COUNT");
            if (info->samples <= 1 << 16) check_arrays(file, info, n % 7);
            headers++;
        }
        by[status]++;
        drop(file), drop(out), drop(told);
    }
    fclose(in);
    printf("%lu cases, %lu with valid headers; by status:", cases, headers);
    for (k = 0; k < 11; k++) printf(" %lu: %lu", (unsigned long)k, by[k]);
    printf("\n");
    return 0;
}
