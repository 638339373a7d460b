/* C++ protobuf: it allocates each message, string and list; with an arena, from blocks that are freed at once. */
#include "bench.pb.h"
#include <google/protobuf/arena.h>
#include <google/protobuf/stubs/logging.h>

/* it would print a line for a string that is no UTF-8 */
static auto *silent = google::protobuf::SetLogHandler(nullptr);

static uint64_t sum(const bench::Root &m) { return m.i_size() + m.s_size() + m.m_size() + m.p_size() + m.f_size() + m.t_size(); }

extern "C" uint64_t cpp_parse(const uint8_t *b, size_t n)
{
    bench::Root m;
    return m.ParseFromArray(b, n) ? sum(m) : -1;
}

extern "C" uint64_t cpp_arena(const uint8_t *b, size_t n)
{
    google::protobuf::Arena a;
    auto *m = google::protobuf::Arena::CreateMessage<bench::Root>(&a);
    return m->ParseFromArray(b, n) ? sum(*m) : -1;
}

extern "C" void *cpp_new(const uint8_t *b, size_t n)
{
    auto *m = new bench::Root;
    return m->ParseFromArray(b, n) ? m : nullptr;
}

extern "C" uint64_t cpp_write(void *p, uint8_t *out, size_t n)
{
    auto *m = (bench::Root *)p;
    size_t size = m->ByteSizeLong();
    if (n < size) return 0;
    m->SerializeWithCachedSizesToArray(out);
    return size;
}
