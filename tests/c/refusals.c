/* What is refused, and in which order; empty buffers and the largest ones. */
#define _DEFAULT_SOURCE
#include "tests.h"
#include "utf8b.h"

#include <stdio.h>
#include <string.h>
#include <sys/mman.h>

/* Every order of faults: report, lengths, whole codes, flags. */
void test_refusals(void)
{
    static const size_t reports[] = {0, 1, 8, 9, 10, 16, LIMIT + 8};
    static const size_t inputs[] = {0, 4, 6, LIMIT, LIMIT + 1, LIMIT + 3, LIMIT + 4};
    static const size_t outputs[] = {0, 9, LIMIT, LIMIT + 1, LIMIT + 4};
    static const uint32_t flags[] = {0, 2, 8, 12, 0x80000000u};
    static uint8_t in[LIMIT + 4];

    check_begin("refusals");
    memset(in, 0, sizeof in);
    for (int decode = 0; decode < 2; decode++)
        for (size_t r = 0; r < (small ? 6 : 7); r++)
            for (size_t i = 0; i < (small ? 3 : 7); i++)
                for (size_t o = 0; o < (small ? 2 : 5); o++)
                    for (size_t f = 0; f < 5; f++) {
                        struct call c = {decode, flags[f], in, inputs[i], outputs[o], reports[r]};

                        check_model(&c);
                    }
}

void test_flags(void)
{
    static const uint8_t in[] = {0x41, 0, 0, 0, 0xE2, 0xDC, 0, 0};

    check_begin("flags");
    for (int decode = 0; decode < 2; decode++) {
        for (uint32_t f = 0; f < 64; f++)
            for (size_t n = 0; n <= sizeof in; n++)
                try_call(decode, in, n, 40, f);
        for (int bit = 4; bit < 32; bit++)
            for (uint32_t f = 0; f < 16; f++)
                try_call(decode, in, sizeof in, 40, f + ((uint32_t)1 << bit));
        try_call(decode, in, sizeof in, 40, 0xFFFFFFFF);
    }
}

/* A null pointer with length 0, for each buffer in turn and for all. */
void test_null(void)
{
    uint8_t in[4] = {0x41, 0, 0, 0}, out[REPORT], report[REPORT], kept[REPORT];
    static const uint8_t zero[REPORT] = {0};

    check_begin("null pointers");
    memset(kept, 0xA5, REPORT);
    for (int decode = 0; decode < 2; decode++) {
        for (uint32_t flags = 0; flags < 8; flags++) {
            if (cesu8 && (flags & UTF8B_SURRO))
                continue;
            memset(out, 0xA5, REPORT);
            memset(report, 0xA5, REPORT);
            check_that(enter(decode, NULL, 0, out, 8, flags, report, REPORT) == 0, "null input: answer 0");
            check_that(memcmp(report, zero, REPORT) == 0 && memcmp(out, kept, REPORT) == 0, "null input: report 0, output kept");
            memset(report, 0xA5, REPORT);
            check_that(enter(decode, in, 4, NULL, 0, flags, report, REPORT) == 0, "null output: answer 0");
            check_that(memcmp(report, zero, REPORT) == 0, "null output: report 0");
            memset(report, 0xA5, REPORT);
            check_that(enter(decode, NULL, 0, NULL, 0, flags, report, REPORT) == 0, "null input and output: answer 0");
            check_that(memcmp(report, zero, REPORT) == 0, "null input and output: report 0");
        }
        memset(report, 0xA5, REPORT);
        check_that(enter(decode, NULL, 0, NULL, 0, 16, report, REPORT) == -4, "null input and output: -4");
        check_that(memcmp(report, kept, REPORT) == 0, "null input and output: report kept after -4");
        check_that(enter(decode, in, 4, out, 8, 0, NULL, 0) == -6, "null report: -6");
        check_that(memcmp(out, kept, REPORT) == 0, "null report: output kept");
        check_that(enter(decode, NULL, 0, NULL, 0, 0, NULL, 0) == -6, "all null: -6");
    }
}

/* Exactly the most bytes, and one more, for each buffer. */
void test_limits(void)
{
    static uint8_t in[LIMIT + 4];

    check_begin("limits");
    for (size_t i = 0; i < LIMIT + 4; i += 4)
        memcpy(in + i, i % 64 ? "\xE2\x80\xB2x" : "\xF0\x9F\x92\xA7", 4);
    for (size_t extra = 0; extra < 2; extra++) {
        try_call(DECODE, in, LIMIT + extra, LIMIT, 1);
        try_call(DECODE, in, LIMIT + extra, 400, 0);
        try_call(DECODE, in, 400, LIMIT + extra, 1);
        try_call(DECODE, in, LIMIT - 1, LIMIT, 0);
    }
    for (size_t i = 0; i < LIMIT / 4 + 1; i++)
        set_code(in, i, i % 7 ? 0x1F4A7 : 0xDC80 + (uint32_t)(i % 128));
    for (size_t extra = 0; extra < 2; extra++) {
        try_call(ENCODE, in, LIMIT + 4 * extra, LIMIT, 1);
        try_call(ENCODE, in, LIMIT + extra, 400, 0);
        try_call(ENCODE, in, 400, LIMIT + extra, 1);
        try_call(ENCODE, in, LIMIT - 4, LIMIT, 0);
    }
}

/* Lengths that 32 bits cannot hold; the memory is never touched, so it costs nothing. */
void test_huge_lengths(void)
{
    size_t huge = ((size_t)1 << 32) + 8;
    uint8_t *m, in[8] = {0}, out[8], report[REPORT];

    check_begin("huge lengths");
    m = mmap(NULL, huge, PROT_READ | PROT_WRITE, MAP_PRIVATE | MAP_ANONYMOUS | MAP_NORESERVE, -1, 0);
    if (m == MAP_FAILED) {
        puts("huge lengths skipped: no 4 GiB of addresses");
        return;
    }
    for (int decode = 0; decode < 2; decode++) {
        check_that(enter(decode, m, huge, out, 8, 0, report, REPORT) == -8, "huge input: -8");
        check_that(enter(decode, in, 8, m, huge, 0, report, REPORT) == -8, "huge output: -8");
        check_that(enter(decode, in, 8, out, 8, 0, m, huge) == -6, "huge report: -6");
    }
    munmap(m, huge);
}
