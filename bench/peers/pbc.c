/* protobuf-c: it allocates each message, each string and each list. */
#include "bench.pb-c.h"

uint64_t pbc_parse(const uint8_t *b, size_t n)
{
    Bench__Root *m = bench__root__unpack(NULL, n, b);
    if (!m) return -1;
    uint64_t r = m->n_i + m->n_s + m->n_m + m->n_p + m->n_f + m->n_t;
    bench__root__free_unpacked(m, NULL);
    return r;
}

void *pbc_new(const uint8_t *b, size_t n) { return bench__root__unpack(NULL, n, b); }

uint64_t pbc_write(void *m, uint8_t *out, size_t n)
{
    size_t size = bench__root__get_packed_size(m);
    return size <= n ? bench__root__pack(m, out) : 0;
}
