/* Reads a line in which a byte is damaged, shows its codes, and writes the same line again. */
#include <stdio.h>
#include <string.h>
#include <utf8b.h>

int main(void)
{
    static const uint8_t line[] = {0x34, 0x30, 0xE2, 0x80, 0xB2, 0xFF};
    uint8_t codes[4 * sizeof line], again[sizeof line], report[UTF8B_REPORT];
    int64_t count = utf8b_decode(line, sizeof line, codes, sizeof codes, UTF8B_LAST, report, sizeof report);

    if (count < 0)
        return 1;
    for (size_t i = 0; i < (size_t)count; i++)
        printf("U+%06lX\n", (unsigned long)utf8b_code(codes, i));
    if (utf8b_encode(codes, 4 * (size_t)count, again, sizeof again, 0, report, sizeof report) != (int64_t)sizeof line)
        return 1;
    puts(memcmp(line, again, sizeof line) == 0 ? "the same bytes" : "other bytes");
    return 0;
}
