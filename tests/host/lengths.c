#include "lengths.h"

#include "random.h"

size_t some_counts(void)
{
    static const size_t enough[] = { 4, 4, 4, 5, 9, 100 };
    return one_in(12) ? below(4) : enough[below(sizeof enough / sizeof *enough)];
}

size_t some_length(size_t needed)
{
    switch (below(8)) {
    case 0: return needed > 0 ? needed - 1 : 0;
    case 1: return one_in(4) ? 0 : needed + 1;
    case 2: return below(needed + 2);
    case 3: return needed + between(1, 40);
    case 4: return one_in(8) ? needed + between(100, 3000) : needed + 2;
    default: return needed;
    }
}

void make_uneven(size_t *const *lengths, size_t count)
{
    size_t *length = lengths[below(count)];
    switch (below(4)) {
    case 0: *length += 1; break;
    case 1: *length = *length > 0 ? *length - 1 : 1; break;
    case 2: *length = *length > 0 ? 0 : 3; break;
    default: *length += between(1, 30); break;
    }
}
