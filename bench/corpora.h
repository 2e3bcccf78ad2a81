/* The texts that are read and written, the same in every run. */
#ifndef CORPORA_H
#define CORPORA_H

#include <stddef.h>
#include <stdint.h>

enum { ASCII, ACCENTED, WORDS, EMOJI, RANDOM, LINE_LOG, CORPORA };
enum { UTF8, CESU8, FORMS };
enum { WHOLE = 1048576, LINES = 8192, SHORTEST = 5, LONGEST = 24 };

/* Bytes, and room for as many codes. */
struct text {
    uint8_t *bytes;
    size_t len;
    uint32_t *codes;
    size_t count;
};

/* In each form one text of WHOLE bytes, and short lines that are cut from it. */
struct corpus {
    const char *name;
    /* The next code of a well-formed text; NULL for random bytes. */
    uint32_t (*next)(void);
    struct text whole[FORMS], lines[FORMS][LINES];
};

extern struct corpus corpora[CORPORA];

/* Makes the bytes of all; the codes are left to be read from them. */
void make_corpora(void);

/* So many more bytes of a corpus, in UTF-8. */
void fill(const struct corpus *c, uint8_t *bytes, size_t len);

/* The same numbers in every run. */
uint32_t below(uint32_t n);

/* Memory that has been touched. */
void *new_memory(size_t size);

#endif
