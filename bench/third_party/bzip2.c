#include <stdio.h>
#include <string.h>
#include "bzlib.h"
/* A sample of bzip2's own tests: a text, and what it is compressed to. bzip2_sample.S has them. */
extern char sample_text[], sample_text_end[], sample_packed[], sample_packed_end[];
static char packed[100000], text[100000], arena[4 << 20];
static unsigned used;
/* Memory that isn't cleared, as picolibc's malloc would do byte by byte. */
static void *take(void *state, int count, int size) {
    void *at = arena + used;
    (void)state;
    used += (unsigned)(count * size + 7) / 8 * 8;
    return used <= sizeof arena ? at : NULL;
}
static void give(void *state, void *at) { (void)state; (void)at; }
void bz_internal_error(int code) { printf("internal error %d\n", code); }
static bz_stream from_to(char *from, char *from_end, char *to, unsigned size) {
    bz_stream stream = {
        .next_in = from, .avail_in = (unsigned)(from_end - from), .next_out = to, .avail_out = size,
        .bzalloc = take, .bzfree = give
    };
    used = 0;
    return stream;
}
static int is_same(const char *made, unsigned size, const char *wanted, const char *wanted_end) {
    return size == (unsigned)(wanted_end - wanted) && !memcmp(made, wanted, size);
}
int main(void) {
    bz_stream unpack = from_to(sample_packed, sample_packed_end, text, sizeof text);
    if (BZ2_bzDecompressInit(&unpack, 0, 0) != BZ_OK || BZ2_bzDecompress(&unpack) != BZ_STREAM_END) return 1;
    bz_stream pack = from_to(sample_text, sample_text_end, packed, sizeof packed);
    if (BZ2_bzCompressInit(&pack, 1, 0, 0) != BZ_OK || BZ2_bzCompress(&pack, BZ_FINISH) != BZ_STREAM_END) return 2;
    unsigned text_size = sizeof text - unpack.avail_out, packed_size = sizeof packed - pack.avail_out;
    printf("%u bytes, %s, packed to %u, %s\n", text_size,
        is_same(text, text_size, sample_text, sample_text_end) ? "the same" : "others", packed_size,
        is_same(packed, packed_size, sample_packed, sample_packed_end) ? "the same" : "others");
    return 0;
}
