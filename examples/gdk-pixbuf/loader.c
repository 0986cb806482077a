/* A loader of GdkPixbuf for lossless JPEG XL, so that programs of GTK show such files: whole numbers of up to 16 bits, as
 * 8 bits, grey or RGB, with alpha. It takes the colours for sRGB's.
 *
 *     gcc -O2 -fPIC -shared -Iinclude examples/gdk-pixbuf/loader.c crates/jxl_c/out/c/libjxl_lossless.a \
 *         $(pkg-config --cflags --libs gdk-pixbuf-2.0) -o libpixbufloader-jxl-lossless.so
 *     gdk-pixbuf-query-loaders $PWD/libpixbufloader-jxl-lossless.so > loaders.cache
 *     GDK_PIXBUF_MODULE_FILE=$PWD/loaders.cache gdk-pixbuf-thumbnailer picture.jxl picture.png
 */
#define GDK_PIXBUF_ENABLE_BACKEND
#include <gdk-pixbuf/gdk-pixbuf.h>
#include "jxl_lossless.h"

struct loading {
    GByteArray *file;
    GdkPixbufModulePreparedFunc prepared;
    GdkPixbufModuleUpdatedFunc updated;
    gpointer data;
};

/* Copies pixels to a GdkPixbuf, which has no grey. */
static void copy_pixels(GdkPixbuf *picture, const jxl_lossless_info *info, const guint8 *from) {
    gsize n = info->interleaved, stride = gdk_pixbuf_get_rowstride(picture), x, y, c;
    guchar *to = gdk_pixbuf_get_pixels(picture);
    for (y = 0; y < info->height; y++) {
        guchar *at = to + y * stride;
        for (x = 0; x < info->width; x++, from += n) {
            for (c = 0; c < 3; c++) *at++ = from[info->colours == 1 ? 0 : c];
            if (n > info->colours) *at++ = from[n - 1];
        }
    }
}

static int error_code(jxl_lossless_status status) {
    return status == JXL_LOSSLESS_NO_MEMORY ? GDK_PIXBUF_ERROR_INSUFFICIENT_MEMORY
        : status == JXL_LOSSLESS_UNSUPPORTED ? GDK_PIXBUF_ERROR_UNKNOWN_TYPE
                                             : GDK_PIXBUF_ERROR_CORRUPT_IMAGE;
}

static GdkPixbuf *decoded(const guint8 *file, gsize file_size, GError **error) {
    jxl_lossless_limits limits = {sizeof limits};
    jxl_lossless_info info = {sizeof info};
    char why[JXL_LOSSLESS_MESSAGE] = "out of memory";
    jxl_lossless_status status;
    guint8 *pixels = NULL;
    GdkPixbuf *picture = NULL;
    jxl_lossless_usual_limits(&limits);
    status = jxl_lossless_read_info(file, file_size, &limits, &info, why, sizeof why);
    if (status == JXL_LOSSLESS_DONE) {
        gsize size = (gsize)info.width * info.height * info.interleaved;
        pixels = g_try_malloc(size);
        status = pixels == NULL ? (jxl_lossless_status)JXL_LOSSLESS_NO_MEMORY
                                : jxl_lossless_decode_8(file, file_size, &limits, pixels, size, why, sizeof why);
    }
    if (status == JXL_LOSSLESS_DONE) {
        picture = gdk_pixbuf_new(GDK_COLORSPACE_RGB, info.alpha != 0, 8, (int)info.width, (int)info.height);
        if (picture == NULL) status = JXL_LOSSLESS_NO_MEMORY;
    }
    if (picture != NULL)
        copy_pixels(picture, &info, pixels);
    else
        g_set_error(error, GDK_PIXBUF_ERROR, error_code(status), "%s", why[0] != 0 ? why : "out of memory");
    g_free(pixels);
    return picture;
}

static gpointer begin_load(GdkPixbufModuleSizeFunc size, GdkPixbufModulePreparedFunc prepared,
                           GdkPixbufModuleUpdatedFunc updated, gpointer data, GError **error) {
    struct loading *it = g_new0(struct loading, 1);
    (void)size, (void)error;
    it->file = g_byte_array_new();
    it->prepared = prepared, it->updated = updated, it->data = data;
    return it;
}

static gboolean load_increment(gpointer loading, const guchar *bytes, guint size, GError **error) {
    (void)error;
    g_byte_array_append(((struct loading *)loading)->file, bytes, size);
    return TRUE;
}

static gboolean stop_load(gpointer loading, GError **error) {
    struct loading *it = loading;
    GdkPixbuf *picture = decoded(it->file->data, it->file->len, error);
    if (picture != NULL) {
        if (it->prepared != NULL) it->prepared(picture, NULL, it->data);
        if (it->updated != NULL)
            it->updated(picture, 0, 0, gdk_pixbuf_get_width(picture), gdk_pixbuf_get_height(picture), it->data);
        g_object_unref(picture);
    }
    g_byte_array_free(it->file, TRUE);
    g_free(it);
    return picture != NULL;
}

G_MODULE_EXPORT void fill_vtable(GdkPixbufModule *module) {
    module->begin_load = begin_load, module->load_increment = load_increment, module->stop_load = stop_load;
}

G_MODULE_EXPORT void fill_info(GdkPixbufFormat *info) {
    static const GdkPixbufModulePattern signature[] = {
        {(char *)"\xff\x0a", (char *)"  ", 90},
        {(char *)"...\x0cJXL \x0d\x0a\x87\x0a", (char *)"zzz         ", 100},
        {NULL, NULL, 0}};
    static const gchar *types[] = {"image/jxl", NULL}, *endings[] = {"jxl", NULL};
    info->name = (char *)"jxl-lossless";
    info->signature = (GdkPixbufModulePattern *)signature;
    info->description = (char *)"JPEG XL, lossless";
    info->mime_types = (gchar **)types;
    info->extensions = (gchar **)endings;
    info->flags = GDK_PIXBUF_FORMAT_THREADSAFE;
    info->license = (char *)"MIT";
}
