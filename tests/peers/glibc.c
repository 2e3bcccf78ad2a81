/*
 * The steps against glibc's mbrtoc8, mbrtoc16, mbrtoc32 and c16rtomb, by way of probe.
 *
 * usage: glibc PROBE DIRECTORY
 *
 * All conversions of a batch go on together, one call each in a run of probe; the
 * state record of each answer goes into the next command, as the mbstate_t does here.
 */
#define _GNU_SOURCE
#include <locale.h>
#include <stdint.h>
#include <stdio.h>
#include <stdlib.h>
#include <string.h>
#include <uchar.h>
#include <wchar.h>

/* mbrtoc8 came with glibc 2.36. */
#define HAS_MBRTOC8 __GLIBC_PREREQ(2, 36)

#define START "00000000000000000000000000000000"

enum { MOST_DIFFERENCES = 10, LINE = 200, LONGEST = 24 };

static const char *probe;
static char commands_file[4096];
static unsigned long compared, differences;

/* A conversion: the input, how much of it is used, and both states. */
struct run {
    uint8_t input[LONGEST];
    uint16_t units[LONGEST];
    size_t len, at, held;
    int width, whole, over;
    mbstate_t glibc;
    char record[33];
    char command[LINE], expected[LINE];
};

static struct run *runs;
static size_t run_count, run_room;

static uint32_t below(uint32_t n)
{
    static uint64_t x = 88172645463325252u;

    x ^= x << 13;
    x ^= x >> 7;
    x ^= x << 17;
    return (uint32_t)(x >> 32) % n;
}

static void die(const char *what)
{
    puts(what);
    exit(1);
}

static struct run *new_run(void)
{
    struct run *r;

    if (run_count == run_room) {
        run_room = run_room ? 2 * run_room : 1024;
        runs = realloc(runs, run_room * sizeof *runs);
        if (!runs)
            die("no memory");
    }
    r = &runs[run_count++];
    memset(r, 0, sizeof *r);
    strcpy(r->record, START);
    return r;
}

/*
 * glibc finds E0 80..9F, F0 80..8F and ED A0..BF only at the last byte of the sequence, and takes
 * F4 90..BF and F5..FD for lead bytes of codes above 10FFFF.  The standard has them bad at once.
 */
static int follows_standard(const uint8_t *s, size_t n)
{
    for (size_t i = 0; i < n; i++) {
        uint8_t second = i + 1 < n ? s[i + 1] : 0;

        if ((0xF5 <= s[i] && s[i] <= 0xFD) || (s[i] == 0xF4 && 0x90 <= second && second <= 0xBF))
            return 0;
        if ((s[i] == 0xE0 && 0x80 <= second && second <= 0x9F) || (s[i] == 0xF0 && 0x80 <= second && second <= 0x8F)
            || (s[i] == 0xED && 0xA0 <= second && second <= 0xBF))
            return 0;
    }
    return 1;
}

static void add_bytes(const uint8_t *s, size_t n, int width, int whole)
{
    struct run *r;

    if (!follows_standard(s, n))
        return;
    r = new_run();
    memcpy(r->input, s, n);
    r->len = n;
    r->width = width;
    r->whole = whole;
}

static void write_hex(char *text, const uint8_t *s, size_t n)
{
    if (n == 0)
        strcpy(text, "-");
    for (size_t i = 0; i < n; i++)
        sprintf(text + 2 * i, "%02X", s[i]);
}

static size_t convert(int width, uint32_t *unit, const char *s, size_t n, mbstate_t *state)
{
    char16_t u16 = 0;
    char32_t u32 = 0;
    size_t result;

#if HAS_MBRTOC8
    if (width == 8) {
        char8_t u8 = 0;

        result = mbrtoc8(&u8, s, n, state);
        *unit = u8;
        return result;
    }
#endif
    if (width == 16) {
        result = mbrtoc16(&u16, s, n, state);
        *unit = u16;
    } else {
        result = mbrtoc32(&u32, s, n, state);
        *unit = u32;
    }
    return result;
}

/* How many bytes glibc holds before the first that it finds bad, or 1 if that is the first. */
static size_t bad_length(const uint8_t *s, size_t n)
{
    mbstate_t state;
    wchar_t code;
    size_t held = 0;

    memset(&state, 0, sizeof state);
    while (held < n && mbrtowc(&code, (const char *)s + held, 1, &state) == (size_t)-2)
        held++;
    return held ? held : 1;
}

/* One call of glibc's: the command for probe, and all that the answer must say before the record. */
static void step(struct run *r)
{
    const uint8_t *s = r->input + r->at;
    size_t n = r->whole || r->at == r->len ? r->len - r->at : 1, result;
    uint32_t unit;
    char hex[2 * LONGEST + 1];

    write_hex(hex, s, n);
    sprintf(r->command, "step%d %s %s", r->width, r->record, hex);
    result = convert(r->width, &unit, (const char *)s, n, &r->glibc);
    if (result == (size_t)-1) {
        sprintf(r->expected, "bad 3 - 0 %zu %zu ", r->held, bad_length(s - r->held, r->len - r->at + r->held));
        r->over = 1;
    } else if (result == (size_t)-2) {
        sprintf(r->expected, "incomplete 2 - %zu - - ", n);
        r->at += n;
        r->held += n;
        r->over = n == 0;
    } else if (result == (size_t)-3) {
        sprintf(r->expected, "continuation 0 %X 0 - - ", (unsigned)unit);
    } else {
        size_t used = result ? result : 1;

        sprintf(r->expected, "%s 0 %X %zu - - ", result ? "unit" : "null", (unsigned)unit, used);
        r->at += used;
        r->held = 0;
    }
}

/* One unit back. */
static void step_back(struct run *r)
{
    uint8_t bytes[16] = {0};
    char hex[9];
    size_t result = c16rtomb((char *)bytes, r->units[r->at], &r->glibc);

    sprintf(r->command, "back %s %X", r->record, (unsigned)r->units[r->at]);
    r->at++;
    r->over = r->at == r->len;
    if (result == (size_t)-1) {
        sprintf(r->expected, "bad 3 00000000 0 %zu ", r->held);
        r->over = 1;
    } else if (result == 0) {
        strcpy(r->expected, "held 0 00000000 0 - ");
        r->held = 1;
    } else {
        write_hex(hex, bytes, 4);
        sprintf(r->expected, "bytes 0 %s %zu - ", hex, result);
        r->held = 0;
    }
}

/* After a bad sequence C leaves the state open; here it is the starting one. */
static int record_fits(const struct run *r, const char *record)
{
    return strlen(record) == 32 && (strncmp(r->expected, "bad", 3) != 0 || strcmp(record, START) == 0);
}

static void compare(struct run *r, const char *answer)
{
    size_t n = strlen(r->expected);

    compared++;
    if (strncmp(answer, r->expected, n) == 0 && record_fits(r, answer + n)) {
        strcpy(r->record, answer + n);
        return;
    }
    printf("difference: %s\n  glibc: %s\n  here:  %s\n", r->command, r->expected, answer);
    r->over = 1;
    if (++differences == MOST_DIFFERENCES)
        die("too many differences");
}

static void write_commands(void)
{
    FILE *f = fopen(commands_file, "w");

    if (!f)
        die("the commands cannot be written");
    for (size_t i = 0; i < run_count; i++)
        fprintf(f, "%s\n", runs[i].command);
    if (fclose(f))
        die("the commands cannot be written");
}

static void compare_answers(void)
{
    char shell[8192], answer[LINE];
    FILE *answers;

    snprintf(shell, sizeof shell, "'%s' <'%s'", probe, commands_file);
    answers = popen(shell, "r");
    if (!answers)
        die("probe cannot be run");
    for (size_t i = 0; i < run_count; i++) {
        if (!fgets(answer, sizeof answer, answers))
            die("probe: too few answers");
        answer[strcspn(answer, "\n")] = '\0';
        compare(&runs[i], answer);
    }
    if (fgets(answer, sizeof answer, answers) || pclose(answers))
        die("probe: too many answers, or another exit status than 0");
}

static void keep_live(void)
{
    size_t live = 0;

    for (size_t i = 0; i < run_count; i++)
        if (!runs[i].over)
            runs[live++] = runs[i];
    run_count = live;
}

/* Runs all conversions that have been added to their ends. */
static void run_all(void (*call)(struct run *))
{
    while (run_count) {
        for (size_t i = 0; i < run_count; i++)
            call(&runs[i]);
        write_commands();
        compare_answers();
        keep_live();
    }
}

/* Inputs. */

static const uint8_t border[] = {0x00, 0x41, 0x7F, 0x80, 0x8F, 0x90, 0x9F, 0xA0, 0xB2, 0xBF, 0xC0, 0xC1, 0xC2,
                                 0xDF, 0xE0, 0xE1, 0xEC, 0xED, 0xEE, 0xEF, 0xF0, 0xF1, 0xF3, 0xF4, 0xFE, 0xFF};
static const uint8_t narrow[] = {0x41, 0x80, 0x8F, 0x90, 0x9F, 0xA0, 0xBF, 0xC2, 0xE0, 0xE1, 0xED, 0xF0, 0xF1, 0xF4};

/* The widths that glibc has. */
#if HAS_MBRTOC8
static const int widths[] = {8, 16, 32};
#else
static const int widths[] = {16, 32};
#endif
enum { WIDTHS = sizeof widths / sizeof widths[0] };

static void add_in_all_widths(const uint8_t *s, size_t n, int whole)
{
    for (size_t w = 0; w < WIDTHS; w++)
        add_bytes(s, n, widths[w], whole);
}

/* All strings of a length over some bytes, whole or byte by byte. */
static void add_strings(const uint8_t *bytes, size_t count, size_t length, int whole)
{
    uint8_t s[4];
    size_t all = 1;

    for (size_t i = 0; i < length; i++)
        all *= count;
    for (size_t k = 0; k < all; k++) {
        size_t rest = k;

        for (size_t i = 0; i < length; i++, rest /= count)
            s[i] = bytes[rest % count];
        add_in_all_widths(s, length, whole);
    }
}

static void add_all_short(void)
{
    uint8_t every[256];

    for (int i = 0; i < 256; i++)
        every[i] = (uint8_t)i;
    add_strings(every, 256, 1, 1);
    add_strings(every, 256, 2, 1);
    add_strings(border, sizeof border, 2, 0);
    add_strings(border, sizeof border, 3, 0);
    add_strings(narrow, sizeof narrow, 4, 0);
    add_strings(narrow, sizeof narrow, 4, 1);
}

static size_t put_scalar(uint8_t *s, uint32_t code)
{
    char bytes[16];
    mbstate_t state;
    size_t n;

    memset(&state, 0, sizeof state);
    n = c32rtomb(bytes, code, &state);
    if (n == (size_t)-1)
        return 0;
    memcpy(s, bytes, n);
    return n;
}

/* Random text, some of it with one byte changed. */
static void add_texts(int count)
{
    static const uint32_t most[] = {0x80, 0x800, 0xD800, 0x110000};

    while (count-- > 0) {
        uint8_t s[LONGEST];
        size_t n = 0;

        while (n + 4 <= LONGEST && below(8))
            n += put_scalar(s + n, below(most[below(4)]));
        if (n && below(2))
            s[below((uint32_t)n)] = (uint8_t)below(256);
        add_in_all_widths(s, n, (int)below(2));
    }
}

static void add_units(const uint16_t *units, size_t n)
{
    struct run *r = new_run();

    memcpy(r->units, units, n * sizeof *units);
    r->len = n;
}

static void add_all_units(void)
{
    static const uint16_t edges[] = {0,      0x41,   0x7F,   0x80,   0x7FF,  0x800, 0xD7FF,
                                     0xD800, 0xDBFF, 0xDC00, 0xDFFF, 0xE000, 0xFFFF};

    for (uint32_t u = 0; u < 0x10000; u++) {
        uint16_t one = (uint16_t)u;

        add_units(&one, 1);
    }
    for (int i = 0; i < 20000; i++) {
        uint16_t units[6];

        for (int k = 0; k < 6; k++)
            units[k] = below(3) ? edges[below(13)] : (uint16_t)(0xD800 + below(0x800));
        add_units(units, 1 + below(6));
    }
}

int main(int argc, char **argv)
{
    if (argc != 3)
        die("usage: glibc PROBE DIRECTORY");
    if (!setlocale(LC_ALL, "C.UTF-8")) {
        puts("skipped: no C.UTF-8 locale");
        return 0;
    }
    if (!HAS_MBRTOC8)
        puts("mbrtoc8 skipped: glibc before 2.36");
    probe = argv[1];
    snprintf(commands_file, sizeof commands_file, "%s/glibc.commands", argv[2]);
    add_all_short();
    add_texts(6000);
    run_all(step);
    add_all_units();
    run_all(step_back);
    printf("%lu comparisons, %lu differences\n", compared, differences);
    return differences != 0;
}
