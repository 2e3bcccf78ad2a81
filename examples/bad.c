/* Tells where a line is bad: each bad stretch with its place, its bytes and the reason. */
#include <stdio.h>
#include <utf8b.h>

static void tell(const uint8_t *line, size_t len, size_t at, size_t bad)
{
    size_t i;

    printf("byte %u,", (unsigned)at);
    for (i = at; i < at + bad; i++)
        printf(" %02X", line[i]);
    printf(": %s\n", utf8b_reason_text(utf8b_reason(line, len, at)));
}

int main(void)
{
    static const uint8_t line[] = {0x34, 0x30, 0xE2, 0x80, 0x20, 0xF8, 0x35, 0xE0, 0x80, 0x36, 0xF0, 0x9F, 0x92};
    uint8_t codes[4 * sizeof line], report[UTF8B_REPORT];
    size_t at = 0;

    while (at < sizeof line) {
        if (utf8b_decode(line + at, sizeof line - at, codes, sizeof codes, UTF8B_LAST | UTF8B_STRICT, report,
                         sizeof report) < UTF8B_BAD)
            return 1;
        at += utf8b_consumed(report);
        if (utf8b_bad_length(report) > 0)
            tell(line, sizeof line, at, utf8b_bad_length(report));
        at += utf8b_bad_length(report);
    }
    return 0;
}
