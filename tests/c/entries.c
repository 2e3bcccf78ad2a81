/*
 * The entries of the archive, tested: those of an index, of reasons, of UTF-8 and of CESU-8.  With the argument "small",
 * a short run.
 */
#include "tests.h"

#include <string.h>

int small;

uint32_t random32(void)
{
    static uint64_t x = 88172645463325252u;

    x ^= x << 13;
    x ^= x >> 7;
    x ^= x << 17;
    return (uint32_t)(x >> 32);
}

size_t below(size_t n)
{
    return random32() % n;
}

void try_call(int decode, const uint8_t *in, size_t in_len, size_t out_len, uint32_t flags)
{
    struct call c = {decode, flags, in, in_len, out_len, REPORT};

    check_model(&c);
}

static void test_entries(void)
{
    test_lines();
    test_refusals();
    test_flags();
    test_null();
    test_short_reads();
    test_random_reads();
    test_pairs();
    test_short_writes();
    test_random_writes();
    test_leaps();
    test_long_leaps();
    test_byte_places();
    if (!small) {
        test_limits();
        test_huge_lengths();
        test_stack();
    }
    test_pieces();
    test_packets();
}

int main(int argc, char **argv)
{
    small = argc > 1 && strcmp(argv[1], "small") == 0;
    test_header();
    /* Before cesu8 is set: an index and a reason are of UTF-8. */
    test_index();
    test_reason();
    for (cesu8 = 0; cesu8 < 2; cesu8++)
        test_entries();
    return check_end();
}
