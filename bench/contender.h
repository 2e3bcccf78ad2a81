/* What is measured: ways to read bytes as codes, and to write codes as bytes. */
#ifndef CONTENDER_H
#define CONTENDER_H

#include "corpora.h"

#include <stddef.h>
#include <stdint.h>

/* Lengths and rooms count bytes of text, or codes. */
struct contender {
    const char *name;
    /* Set where it has to stop at a bad byte or an escape: it is not run on bytes that are not well-formed. */
    int only_well_formed;
    /* Set where it is no call of a library with 32-bit codes: it is not looked at for the fastest library. */
    int is_apart;
    /* Gets ready; 0 if it cannot run here. NULL: nothing to do. */
    int (*start)(void);
    /* Its own form of an input, which is made before the timing. NULL: the input as it is. */
    const void *(*prepare)(const void *in, size_t len);
    /* What is timed. Answers how much it produced. */
    size_t (*run)(const void *in, size_t len, void *out, size_t room);
    /* Copies what the last run produced to out. NULL: run has put it there. */
    void (*fetch)(void *out, size_t room);
};

/* The C entries of all forms, and the reader of UTF-8 with UTF8B_SHOW. */
struct entries {
    struct contender reader[FORMS], writer[FORMS], show_reader;
};

/* entry.c has entries. The others are copies, whose functions begin so many bytes after a multiple of 64. */
extern const struct entries entries;
extern const struct entries entries_0, entries_16, entries_32, entries_48;

extern const struct contender direct_reader, direct_writer;
extern const struct contender mbsnrtowcs_reader, wcsnrtombs_writer;
extern const struct contender iconv_reader, iconv_writer;
extern const struct contender rust_reader, rust_writer;
extern const struct contender utf8proc_reader, utf8proc_writer;
extern const struct contender unistring_reader, unistring_writer;
extern const struct contender icu_reader, icu_writer, icu_cesu8_reader, icu_cesu8_writer;
extern const struct contender icu_macro_reader, icu_macro_writer;
extern const struct contender glib_reader, glib_writer;
extern const struct contender python_reader, python_writer;

#endif
