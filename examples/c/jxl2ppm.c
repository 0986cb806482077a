/* jxl2ppm FILE.jxl > PICTURE: writes a lossless JPEG XL picture as PGM, PPM or PAM, with 8 bits a sample, or with 16 if
 * its colours have more than 8. */
#include <stdio.h>
#include <stdlib.h>
#include "jxl_lossless.h"

static uint8_t *read_file(const char *path, size_t *size) {
    FILE *in = fopen(path, "rb");
    uint8_t *bytes = NULL;
    long end;
    if (in == NULL) return NULL;
    if (fseek(in, 0, SEEK_END) == 0 && (end = ftell(in)) >= 0 && fseek(in, 0, SEEK_SET) == 0) {
        *size = (size_t)end;
        bytes = (uint8_t *)malloc(*size + 1);
        if (bytes != NULL && fread(bytes, 1, *size, in) != *size) {
            free(bytes);
            bytes = NULL;
        }
    }
    fclose(in);
    return bytes;
}

static void write_picture(FILE *out, const jxl_lossless_info *info, uint8_t *pixels, size_t size) {
    static const char *const types[] = {"GRAYSCALE", "GRAYSCALE_ALPHA", "RGB", "RGB_ALPHA"};
    unsigned most = info->bits > 8 ? 65535 : 255, n = info->interleaved;
    size_t k;
    if (n == info->colours)
        fprintf(out, "P%c\n%u %u\n%u\n", n == 1 ? '5' : '6', info->width, info->height, most);
    else
        fprintf(out, "P7\nWIDTH %u\nHEIGHT %u\nDEPTH %u\nMAXVAL %u\nTUPLTYPE %s\nENDHDR\n", info->width, info->height, n,
                most, types[n - 1]);
    if (most > 255) /* netpbm has the most significant byte first */
        for (k = 0; k + 1 < size; k += 2) {
            uint8_t low = pixels[k];
            pixels[k] = pixels[k + 1];
            pixels[k + 1] = low;
        }
    fwrite(pixels, 1, size, out);
}

int main(int count, char **words) {
    jxl_lossless_limits limits;
    jxl_lossless_info info;
    jxl_lossless_status status;
    char why[JXL_LOSSLESS_MESSAGE] = "";
    uint8_t *file, *pixels = NULL;
    size_t file_size, size = 0;
    limits.size = sizeof limits;
    info.size = sizeof info;
    if (count != 2 || (file = read_file(words[1], &file_size)) == NULL) {
        fprintf(stderr, "usage: jxl2ppm FILE.jxl, a file that can be read\n");
        return 2;
    }
    jxl_lossless_usual_limits(&limits);
    status = jxl_lossless_read_info(file, file_size, &limits, &info, why, sizeof why);
    if (status == JXL_LOSSLESS_DONE) {
        size = (size_t)info.width * info.height * info.interleaved * (info.bits > 8 ? 2 : 1);
        pixels = (uint8_t *)malloc(size);
        if (pixels == NULL)
            status = JXL_LOSSLESS_NO_MEMORY;
        else if (info.bits > 8)
            status = jxl_lossless_decode_16(file, file_size, &limits, (uint16_t *)pixels, size, why, sizeof why);
        else
            status = jxl_lossless_decode_8(file, file_size, &limits, pixels, size, why, sizeof why);
    }
    if (status == JXL_LOSSLESS_DONE)
        write_picture(stdout, &info, pixels, size);
    else
        fprintf(stderr, "%s: %s\n", words[1], why[0] != 0 ? why : "out of memory");
    free(pixels);
    free(file);
    return status == JXL_LOSSLESS_DONE ? 0 : 1;
}
