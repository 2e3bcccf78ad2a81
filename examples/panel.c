/* A line of UTF-8 goes to a panel that speaks CESU-8, and the panel's line comes back. */
#include <stdio.h>
#include <utf8b.h>

enum { LINE = 64 };

static void show(const char *what, const uint8_t *bytes, int64_t count)
{
    int64_t i;

    printf("%s", what);
    for (i = 0; i < count; i++)
        printf(" %02X", bytes[i]);
    printf("\n");
}

int main(void)
{
    /* 5' and a droplet, U+1F4A7 */
    static const uint8_t line[] = {0x35, 0xE2, 0x80, 0xB2, 0xF0, 0x9F, 0x92, 0xA7};
    uint8_t codes[4 * LINE], panel[6 * LINE], back[4 * LINE], report[UTF8B_REPORT];
    int64_t count, bytes;

    /* STRICT: bad bytes of one coding may be a sequence of the other, so none go across. */
    count = utf8b_decode(line, sizeof line, codes, sizeof codes, UTF8B_LAST | UTF8B_STRICT, report, sizeof report);
    if (count < 0 || utf8b_consumed(report) != sizeof line)
        return 1;
    bytes = utf8b_cesu8_encode(codes, 4 * (size_t)count, panel, sizeof panel, 0, report, sizeof report);
    if (bytes < 0)
        return 1;
    show("UTF-8: ", line, sizeof line);
    show("CESU-8:", panel, bytes);

    count = utf8b_cesu8_decode(panel, (size_t)bytes, codes, sizeof codes, UTF8B_LAST | UTF8B_STRICT, report, sizeof report);
    if (count < 0 || utf8b_consumed(report) != (size_t)bytes)
        return 1;
    bytes = utf8b_encode(codes, 4 * (size_t)count, back, sizeof back, 0, report, sizeof report);
    show("UTF-8: ", back, bytes);
    return 0;
}
