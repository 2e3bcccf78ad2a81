/* Shows a damaged line as a panel does: one mark, U+FFFD, for each bad stretch. */
#include <stdio.h>
#include <utf8b.h>

int main(void)
{
    static const uint8_t line[] = {0x34, 0x30, 0xE2, 0x80, 0x20, 0x35, 0xE2, 0x80, 0xB2, 0xF0, 0x9F, 0x92};
    uint8_t codes[4 * sizeof line], text[sizeof codes], report[UTF8B_REPORT];
    int64_t count = utf8b_decode(line, sizeof line, codes, sizeof codes, UTF8B_LAST | UTF8B_SHOW, report, sizeof report);
    int64_t bytes;

    if (count < 0)
        return 1;
    bytes = utf8b_encode(codes, 4 * (size_t)count, text, sizeof text, 0, report, sizeof report);
    if (bytes < 0)
        return 1;
    printf("%.*s\n", (int)bytes, (const char *)text);
    return 0;
}
