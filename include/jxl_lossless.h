/* jxl_lossless.h - lossless JPEG XL pictures: a file in memory to samples or pixels, and samples to a file.
 *
 *     jxl_lossless_limits limits = {sizeof limits};
 *     jxl_lossless_info info = {sizeof info};
 *     char why[JXL_LOSSLESS_MESSAGE];
 *     jxl_lossless_usual_limits(&limits);
 *     if (jxl_lossless_read_info(file, size, &limits, &info, why, sizeof why) != JXL_LOSSLESS_DONE) ..
 *     int32_t *samples = malloc(info.samples * sizeof *samples);
 *     if (jxl_lossless_decode(file, size, &limits, samples, info.samples, why, sizeof why) != JXL_LOSSLESS_DONE) ..
 *
 * The functions are proved (crate jxl_c, docs/C.md): called as this header says, none of them reads or writes outside
 * what it is given, overflows, or runs for ever, whatever the bytes of the file are.
 *
 * Memory. Nothing is kept between calls: there is no handle, no global state, and nothing to free. A call takes memory
 * by malloc and gives all of it back by free before it returns. Where malloc fails, the call returns
 * JXL_LOSSLESS_NO_MEMORY. The program's malloc, realloc and free are used: they must belong to one allocator, and align
 * as C says.
 *
 * Threads. Any functions may run in any number of threads at once, on other memory; several calls may read one file at
 * once. Call none from a signal handler, nor in the child of a fork in a process with threads.
 *
 * What the caller owes (no call checks it): each pointer leads to as much memory as its size says, which no other thread
 * writes meanwhile. What a call writes overlaps nothing else that it is given. A pointer to a struct or to a number is
 * aligned and not NULL. The pointer of an array may be NULL if its size is 0. Each array is smaller than 2^63 bytes. A
 * call needs at most 64 kB of stack.
 *
 * Structs grow. The first field of a struct is its size in bytes, as the program was compiled: set it before each call.
 * A program that was compiled before a struct grew goes on to work: a call neither reads nor writes what its struct does
 * not have, and takes the usual value in its place. A call returns JXL_LOSSLESS_WRONG_STRUCT if the size is smaller than
 * that of the first version of the struct.
 *
 * If a call does not return JXL_LOSSLESS_DONE, it has changed nothing but the message (and `*needed`, with
 * JXL_LOSSLESS_NO_ROOM).
 *
 * Messages. `message` gets the reason in English, cut off to fit, and a zero after it; "" with JXL_LOSSLESS_DONE. It may
 * be NULL if `message_size` is 0.
 *
 * x86-64 with SSE4.2 (x86-64-v2), System V calling convention; C99, C++98.
 */
#ifndef JXL_LOSSLESS_H
#define JXL_LOSSLESS_H

#include <stddef.h>
#include <stdint.h>

#ifdef __cplusplus
extern "C" {
#endif

/* How a call ended. The numbers do not change. */
typedef uint32_t jxl_lossless_status;
enum {
    JXL_LOSSLESS_DONE = 0,         /* done */
    JXL_LOSSLESS_NOT_JXL = 1,      /* the file begins neither as a codestream nor as boxes of JPEG XL */
    JXL_LOSSLESS_INVALID = 2,      /* the file breaks the standard */
    JXL_LOSSLESS_TRUNCATED = 3,    /* the file ends too early: more bytes may help */
    JXL_LOSSLESS_UNSUPPORTED = 4,  /* lossy, an animation, or another feature that the library does not support */
    JXL_LOSSLESS_TOO_LARGE = 5,    /* above the limits, or a picture too large for one frame */
    JXL_LOSSLESS_NO_MEMORY = 6,    /* malloc failed */
    JXL_LOSSLESS_WRONG_COUNT = 7,  /* the array has another size than the call needs */
    JXL_LOSSLESS_WRONG_STRUCT = 8, /* the size of a struct is smaller than that of its first version */
    JXL_LOSSLESS_NO_ROOM = 9,      /* the buffer is too small for the file: `*needed` is the size that it needs */
    JXL_LOSSLESS_NOT_CODABLE = 10  /* a number of the description names nothing, or no file can hold the picture */
};

/* Each message with its final zero fits this number of bytes. */
#define JXL_LOSSLESS_MESSAGE 128

/* How large a picture may be. A short file may ask for a picture of any size. */
typedef struct jxl_lossless_limits {
    uint64_t size;      /* sizeof (jxl_lossless_limits) */
    uint64_t pixels;    /* the maximum number of pixels */
    uint64_t bytes;     /* the maximum number of bytes of all samples, four for each */
    uint64_t profile;   /* the maximum number of bytes of the ICC profile */
    uint32_t channels;  /* the maximum number of channels */
    uint32_t decisions; /* the maximum number of decisions for a sample, in trees that sections share or have of their own */
    uint64_t codewords; /* the maximum number of codewords of sections' own codes in a frame; not in the first version */
} jxl_lossless_limits;

/* What the headers of a file say of its picture. */
typedef struct jxl_lossless_info {
    uint64_t size;          /* sizeof (jxl_lossless_info) */
    uint32_t width, height; /* of the picture as it is shown: already turned or mirrored as the file asks */
    uint32_t colours;       /* the number of channels of colours: 1, grey; 3, red, green and blue */
    uint32_t extra;         /* the number of extra channels; there are colours + extra channels */
    uint32_t bits;          /* of a sample of colours: from 1 to 31, whole numbers from 0 to 2^bits - 1; of floats 5 to 32 */
    uint32_t exponent_bits; /* 0, whole numbers; 2 to 8, the samples are the bits of floats with such an exponent */
    uint32_t alpha;         /* the number of the first alpha channel with the sides of the picture, or 0: none */
    uint32_t space;         /* of colours: 0, red, green and blue; 1, grey; 3, only the profile says it */
    uint32_t white;         /* the white point: 1, D65; 2, by coordinates; 10, E; 11, DCI */
    uint32_t primaries;     /* 1, sRGB; 2, by coordinates; 9, BT.2100; 11, P3 */
    uint32_t transfer;      /* 1, BT.709; 8, linear; 13, sRGB; 16, PQ; 17, DCI; 18, HLG; 0, by the exponent `gamma` */
    uint32_t gamma;         /* the exponent in 10 millionths, if transfer is 0; else 0 */
    uint32_t intent;        /* the rendering intent: 0, perceptual; 1, relative; 2, saturation; 3, absolute */
    uint32_t interleaved;   /* the number of samples of a pixel in jxl_lossless_decode_8 and _16: colours, and alpha */
    uint64_t profile;       /* the number of bytes of the ICC profile, which then describes the colours; or 0: none */
    uint64_t samples;       /* the number of samples of all channels together */
} jxl_lossless_info;

/* What the samples of a channel are: the kinds of extra channels as the standard numbers them, and colours. */
enum {
    JXL_LOSSLESS_ALPHA = 0,
    JXL_LOSSLESS_DEPTH = 1,
    JXL_LOSSLESS_SPOT_COLOUR = 2,
    JXL_LOSSLESS_SELECTION_MASK = 3,
    JXL_LOSSLESS_BLACK = 4,
    JXL_LOSSLESS_FILTER_ARRAY = 5,
    JXL_LOSSLESS_THERMAL = 6,
    JXL_LOSSLESS_UNKNOWN = 15,
    JXL_LOSSLESS_OPTIONAL = 16,
    JXL_LOSSLESS_COLOUR = 256
};

/* A channel. This struct does not grow. */
typedef struct jxl_lossless_channel {
    uint64_t first;         /* the number of its first sample among those of jxl_lossless_decode */
    uint32_t kind;          /* JXL_LOSSLESS_COLOUR, or the kind of an extra channel */
    uint32_t width, height; /* the sides of the picture by 2^shift, rounded up */
    uint32_t shift;
    uint32_t bits;          /* of a sample: whole numbers from 0 to 2^bits - 1; of floats 5 to 32 */
    uint32_t exponent_bits; /* 0, whole numbers; 2 to 8, the samples are the bits of floats with such an exponent */
    uint32_t associated;    /* of alpha: 1, colours were multiplied by it; else 0 */
    uint32_t reserved;      /* 0 */
} jxl_lossless_channel;

/* Fills the limits, but for their size, with those that serve most: 2^28 pixels, 256 channels, 2^31 bytes of samples,
 * 2^24 bytes of a profile, 128 decisions for a sample, and 2^26 codewords. Returns JXL_LOSSLESS_DONE or
 * JXL_LOSSLESS_WRONG_STRUCT. */
jxl_lossless_status jxl_lossless_usual_limits(jxl_lossless_limits *limits);

/* Reads the headers of a file, and decodes no sample. With JXL_LOSSLESS_DONE `info` is filled, but for its size, and all
 * that comes before the sections of samples is valid and supported. jxl_lossless_decode may still refuse these. */
jxl_lossless_status jxl_lossless_read_info(const uint8_t *file, size_t file_size, const jxl_lossless_limits *limits,
                                           jxl_lossless_info *info, char *message, size_t message_size);

/* Describes each channel of a file: those of colours, then the extra channels in the file's order. `count` is
 * info.colours + info.extra; with any other the call returns JXL_LOSSLESS_WRONG_COUNT. It decodes no sample. */
jxl_lossless_status jxl_lossless_channels(const uint8_t *file, size_t file_size, const jxl_lossless_limits *limits,
                                          jxl_lossless_channel *channels, size_t count,
                                          char *message, size_t message_size);

/* Copies the ICC profile of a file. `profile_size` is info.profile; with any other the call returns
 * JXL_LOSSLESS_WRONG_COUNT. It decodes no sample. */
jxl_lossless_status jxl_lossless_profile(const uint8_t *file, size_t file_size, const jxl_lossless_limits *limits,
                                         uint8_t *profile, size_t profile_size, char *message, size_t message_size);

/* Decodes a file. With JXL_LOSSLESS_DONE `samples` holds the picture as it is shown: one channel after another, each row
 * by row from the top, and from left to right. A sample is the number that was coded, which may lie outside the range of
 * its depth. `count` is info.samples; with any other the call returns JXL_LOSSLESS_WRONG_COUNT. */
jxl_lossless_status jxl_lossless_decode(const uint8_t *file, size_t file_size, const jxl_lossless_limits *limits,
                                        int32_t *samples, size_t count, char *message, size_t message_size);

/* Decodes a file to pixels: row by row from the top, and from left to right, info.interleaved numbers for each pixel:
 * grey; grey and alpha; red, green and blue; or red, green, blue and alpha. Each number is from 0 to 255, the nearest to
 * the sample as a part of its maximum, 2^bits - 1; a sample outside this range counts as the nearest one in it. `size` is
 * the number of bytes of the array: info.width * info.height * info.interleaved; with any other the call returns
 * JXL_LOSSLESS_WRONG_COUNT. For colours of more than 16 bits it returns JXL_LOSSLESS_UNSUPPORTED. */
jxl_lossless_status jxl_lossless_decode_8(const uint8_t *file, size_t file_size, const jxl_lossless_limits *limits,
                                          uint8_t *pixels, size_t size, char *message, size_t message_size);

/* The same with numbers from 0 to 65535. `size` is the number of bytes of the array:
 * info.width * info.height * info.interleaved * 2. */
jxl_lossless_status jxl_lossless_decode_16(const uint8_t *file, size_t file_size, const jxl_lossless_limits *limits,
                                           uint16_t *pixels, size_t size, char *message, size_t message_size);

/* How much time jxl_lossless_encode takes for a shorter file. */
enum { JXL_LOSSLESS_FAST = 0, JXL_LOSSLESS_USUAL = 1, JXL_LOSSLESS_BEST = 2 };

/* Encodes a picture: with JXL_LOSSLESS_DONE the first `*needed` bytes of `file` are a file that is decoded to these
 * samples, within all limits that allow the picture, its profile with 16 bytes more, 128 decisions for a sample, and 2^26
 * codewords. Other bytes of `file` do not change.
 *
 * `info` is as jxl_lossless_read_info fills it; its fields alpha, interleaved and samples are not read. `extra` describes
 * the info.extra extra channels, as jxl_lossless_channels does after those of colours; their fields first, width, height
 * and reserved are not read. Samples stand as jxl_lossless_decode writes them, and may be any numbers of 32 bits. `profile`
 * has info.profile bytes. If it has any, white, primaries, transfer, gamma and intent are 1, 1, 13, 0 and 1. `effort` is
 * JXL_LOSSLESS_FAST, _USUAL or _BEST.
 *
 * JXL_LOSSLESS_NO_ROOM: `file_size` is below `*needed`, the size of such a file; only then, and with JXL_LOSSLESS_DONE, the
 * call writes `*needed`. JXL_LOSSLESS_WRONG_COUNT: `extra_count`, `profile_size` or `count` is not what `info` and `extra`
 * say. JXL_LOSSLESS_NOT_CODABLE: a side is 0 or above 2^30; info.colours does not suit info.space; a white point or primaries
 * by coordinates; spot colours, filter arrays; or another number that the fields above do not
 * list. JXL_LOSSLESS_NO_MEMORY is also returned if a section of the file would have 2^30 bytes or more, and for 2^31 samples
 * or more. */
jxl_lossless_status jxl_lossless_encode(const jxl_lossless_info *info, const jxl_lossless_channel *extra,
                                        size_t extra_count, const int32_t *samples, size_t count,
                                        const uint8_t *profile, size_t profile_size, uint32_t effort,
                                        uint8_t *file, size_t file_size, size_t *needed,
                                        char *message, size_t message_size);

#ifdef __cplusplus
}
#endif

#endif
