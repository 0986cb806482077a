/* fuzz_encode SEED COUNT: encodes COUNT drawn pictures, each as it is and once more with a few numbers of its description
 * or its counts changed to any others, and compares what comes out with what the header promises. Each array ends where a
 * page begins that cannot be touched, and those that the library reads cannot be written. The last line counts the calls
 * by status. */
#define _DEFAULT_SOURCE
#include <stdio.h>
#include <string.h>
#include "fence.h"
#include "jxl_lossless.h"

enum { EXTRA = 3, SIDE = 12 };

static unsigned long cases, by[11];
static jxl_lossless_limits limits;
static struct fenced message;

static void check(int is_right, const char *what) {
    if (is_right) return;
    printf("fuzz_encode: call %lu: %s: %s\n", cases, what, (const char *)message.at);
    exit(1);
}

static uint32_t any(void) {
    static uint64_t state = 1;
    state = state * 6364136223846793005u + 1442695040888963407u;
    return (uint32_t)(state >> 32);
}
static uint32_t below(uint32_t n) { return any() % n; }
static uint32_t one_of(const uint32_t *list, uint32_t n) { return list[below(n)]; }

/* A picture, and the counts of its arrays. */
struct picture {
    jxl_lossless_info info;
    jxl_lossless_channel channels[EXTRA];
    int32_t samples[(3 + EXTRA) * SIDE * SIDE];
    uint8_t profile[200];
    size_t extra, count, profile_size;
};

static void draw_depth(uint32_t *bits, uint32_t *exponent_bits, int may_be_float) {
    *exponent_bits = may_be_float && below(8) == 0 ? 8 : 0;
    *bits = *exponent_bits != 0 ? 32 : below(2) ? 8 : 1 + below(31);
}

static void draw_colours(jxl_lossless_info *info) {
    static const uint32_t whites[] = {1, 10, 11}, primaries[] = {1, 9, 11}, curves[] = {1, 8, 13, 16, 17, 18};
    info->colours = below(2) ? 3 : 1;
    info->space = info->colours == 1;
    info->white = 1, info->primaries = 1, info->transfer = 13, info->intent = 1;
    if (info->profile != 0) return;
    info->intent = below(4);
    info->white = one_of(whites, 3);
    info->primaries = info->colours == 3 ? one_of(primaries, 3) : 1;
    info->transfer = below(4) ? one_of(curves, 6) : 0;
    info->gamma = info->transfer == 0 ? 1 + below(10000000) : 0;
}

/* A picture that can be encoded. */
static struct picture draw(void) {
    static const uint32_t kinds[] = {0, 0, 1, 3, 4, 6, 15, 16};
    struct picture it;
    size_t k;
    memset(&it, 0, sizeof it);
    it.info.size = sizeof it.info;
    it.info.width = 1 + below(SIDE), it.info.height = 1 + below(SIDE);
    it.profile_size = below(6) ? 0 : sizeof it.profile;
    it.info.profile = it.profile_size;
    for (k = 0; k < it.profile_size; k++) it.profile[k] = (uint8_t)any();
    draw_colours(&it.info);
    draw_depth(&it.info.bits, &it.info.exponent_bits, 1);
    it.extra = below(2) ? 0 : below(EXTRA + 1);
    it.info.extra = (uint32_t)it.extra;
    it.count = (size_t)it.info.width * it.info.height * it.info.colours;
    for (k = 0; k < it.extra; k++) {
        jxl_lossless_channel *at = &it.channels[k];
        at->kind = one_of(kinds, 8), at->shift = below(3) ? 0 : below(4);
        at->associated = at->kind == JXL_LOSSLESS_ALPHA && below(2);
        draw_depth(&at->bits, &at->exponent_bits, 0);
        it.count += (size_t)((it.info.width + (1u << at->shift) - 1) >> at->shift) * ((it.info.height + (1u << at->shift) - 1) >> at->shift);
    }
    for (k = 0; k < it.count; k++) it.samples[k] = (int32_t)(below(8) ? below(1u << below(16)) : any());
    return it;
}

/* Another number than this in one of the 32-bit words of a struct, its size included. */
static void spoil(void *at, size_t size) {
    static const uint32_t odd[] = {0, 1, 2, 3, 4, 5, 7, 12, 13, 16, 17, 31, 32, 33, 64, 79, 256, 65536, 1u << 30, (1u << 30) + 1, ~0u};
    uint32_t number = below(3) ? one_of(odd, sizeof odd / sizeof *odd) : any();
    memcpy((uint8_t *)at + below((uint32_t)size / 4) * 4, &number, 4);
}

static struct fenced copied(const void *from, size_t size, size_t align) {
    struct fenced it = fence(size, align);
    if (size != 0) memcpy(it.at, from, size);
    read_only(it);
    return it;
}

/* What was encoded is decoded to the picture. */
static void check_file(const struct picture *it, const uint8_t *file, size_t size) {
    static int32_t samples[(3 + EXTRA) * SIDE * SIDE];
    static uint8_t profile[sizeof it->profile];
    jxl_lossless_channel channels[3 + EXTRA];
    jxl_lossless_info info;
    char why[JXL_LOSSLESS_MESSAGE];
    size_t k;
    info.size = sizeof info;
    check(jxl_lossless_read_info(file, size, &limits, &info, why, sizeof why) == JXL_LOSSLESS_DONE, why);
    check(info.samples == it->count && info.profile == it->profile_size && info.extra == it->extra, "other counts");
    check(info.width == it->info.width && info.height == it->info.height && info.bits == it->info.bits
          && info.exponent_bits == it->info.exponent_bits && info.space == it->info.space && info.white == it->info.white
          && info.primaries == it->info.primaries && info.transfer == it->info.transfer && info.gamma == it->info.gamma
          && info.intent == it->info.intent && info.colours == it->info.colours, "another description");
    check(jxl_lossless_channels(file, size, &limits, channels, info.colours + info.extra, why, sizeof why) == JXL_LOSSLESS_DONE, why);
    for (k = 0; k < it->extra; k++) {
        const jxl_lossless_channel *a = &channels[info.colours + k], *b = &it->channels[k];
        check(a->kind == b->kind && a->shift == b->shift && a->bits == b->bits && a->exponent_bits == b->exponent_bits
              && a->associated == b->associated, "another channel");
    }
    check(jxl_lossless_profile(file, size, &limits, profile, it->profile_size, why, sizeof why) == JXL_LOSSLESS_DONE, why);
    check(memcmp(profile, it->profile, it->profile_size) == 0, "another profile");
    check(jxl_lossless_decode(file, size, &limits, samples, it->count, why, sizeof why) == JXL_LOSSLESS_DONE, why);
    check(memcmp(samples, it->samples, it->count * sizeof *samples) == 0, "other samples");
}

/* Encodes into a buffer of this size. It returns the size that is needed, or 0 if the picture is refused. */
static size_t encode(const struct picture *it, uint32_t effort, size_t room) {
    struct fenced info = copied(&it->info, sizeof it->info, 8), file = fence(room, 1), told = fence(sizeof(size_t), 8);
    struct fenced extra = copied(it->channels, it->extra * sizeof *it->channels, 8);
    struct fenced samples = copied(it->samples, it->count * sizeof *it->samples, 4), profile = copied(it->profile, it->profile_size, 1);
    const char *why = (const char *)message.at;
    size_t needed = 0;
    jxl_lossless_status status = jxl_lossless_encode(
        (jxl_lossless_info *)info.at, (jxl_lossless_channel *)extra.at, it->extra, (int32_t *)samples.at, it->count, profile.at,
        it->profile_size, effort, file.at, room, (size_t *)told.at, (char *)message.at, JXL_LOSSLESS_MESSAGE);
    check(memchr(why, 0, JXL_LOSSLESS_MESSAGE) != NULL, "a message without end");
    check((status == JXL_LOSSLESS_DONE) == (why[0] == 0), "a message with DONE, or none without it");
    check(status == 0 || (6 <= status && status <= 10), "a status of another call");
    check((status == JXL_LOSSLESS_WRONG_STRUCT) == (it->info.size < sizeof it->info), "WRONG_STRUCT");
    if (status == JXL_LOSSLESS_DONE || status == JXL_LOSSLESS_NO_ROOM) {
        memcpy(&needed, told.at, sizeof needed);
        check((needed <= room) == (status == JXL_LOSSLESS_DONE), "NO_ROOM");
    } else check(is_clear(told), "another size that is needed");
    check(status == JXL_LOSSLESS_DONE ? is_clear_from(file, needed) : is_clear(file), "a changed byte");
    if (status == JXL_LOSSLESS_DONE) check_file(it, file.at, needed);
    by[status]++, cases++;
    drop(info), drop(file), drop(told), drop(extra), drop(samples), drop(profile);
    return needed;
}

/* The picture with other numbers: at most three of the info, of a channel and of the counts. */
static struct picture spoilt(const struct picture *from) {
    struct picture it = *from;
    uint32_t k = 1 + below(3);
    while (k-- > 0) {
        switch (below(8)) {
        case 0: it.count = below(8) ? it.count - it.count / 2 : 0; break;
        case 1: it.profile_size = it.profile_size != 0 ? it.profile_size - 1 : 1; break;
        case 2: it.extra = below(EXTRA + 1), it.info.extra = below(2) ? (uint32_t)it.extra : it.info.extra; break;
        case 3: case 4: spoil(&it.channels[below(EXTRA)], sizeof *it.channels); break;
        default: spoil(&it.info, sizeof it.info);
        }
    }
    return it;
}

int main(int count, char **words) {
    unsigned long k, drawn = count == 3 ? strtoul(words[2], NULL, 10) : 0;
    size_t needed;
    if (count != 3) return 2;
    for (k = strtoul(words[1], NULL, 10) % 1000; k > 0; k--) any();
    limits.size = sizeof limits;
    jxl_lossless_usual_limits(&limits);
    message = fence(JXL_LOSSLESS_MESSAGE, 1);
    for (k = 0; k < drawn; k++) {
        struct picture it = draw(), other = spoilt(&it);
        uint32_t effort = below(4) ? JXL_LOSSLESS_FAST : below(3);
        needed = encode(&it, effort, below(2) ? 1 << 16 : below(64));
        check(needed != 0, "a picture that was refused");
        check(encode(&it, effort, needed) == needed, "another size for the same picture");
        encode(&other, below(8) ? effort : any(), below(2) ? 1 << 16 : below(64));
    }
    printf("%lu calls; by status:", cases);
    for (k = 0; k < 11; k++) printf(" %lu: %lu", k, by[k]);
    printf("\n");
    return 0;
}
