/*
 * libutf8b: UTF-8 and CESU-8 to codes and back, with every byte kept; why bytes are
 * bad; and an index into a long log.
 *
 * A code is four bytes, low byte first, on every machine.  A byte b at which no
 * well-formed sequence starts is read as the escape U+DC00 + b (U+DC80..U+DCFF),
 * and the escape is written back as that byte.
 *
 * What each call answers and leaves in its buffers is proved for every input
 * (crates/utf8b, crates/utf8b_cesu8, crates/utf8b_reason, crates/utf8b_index).  What
 * is trusted at this boundary:
 *   - each pointer is good for its length, the input for reading, the others for
 *     reading and writing, and nothing else changes them during the call;
 *   - the buffers of one call, and the numbers that it fills in, do not overlap, and
 *     no pointer to one number is null;
 *   - this header and the compiler agree with the archive on the calling convention.
 * A null pointer with length 0 is an empty buffer.  That is tested, and not proved.
 *
 * The calls keep no state, take no locks and allocate nothing but a few KiB of
 * stack, so any number of threads may call them.
 */
#ifndef UTF8B_H
#define UTF8B_H

#include <stddef.h>
#include <stdint.h>

#ifdef __cplusplus
extern "C" {
#endif

/* Flags, to be added up.  Any other bit is refused. */
#define UTF8B_LAST 1u   /* no bytes follow: a sequence cut off at the end is bad bytes; changes nothing in the writer */
#define UTF8B_SURRO 2u  /* surrogates U+D800..U+DFFF go through as three bytes, and no escape is written as its byte; refused in CESU-8 */
#define UTF8B_STRICT 4u /* stop where the bytes or the code are bad */
#define UTF8B_SHOW 8u   /* read each bad stretch as one U+FFFD; refused with UTF8B_STRICT, and by the writer */

/* Answers below 0.  After all but the first, no buffer has been changed. */
#define UTF8B_BAD (-1)             /* bad at once, with nothing produced; the report's count is 0 */
#define UTF8B_REFUSED_FLAGS (-4)   /* unknown or clashing flags */
#define UTF8B_REFUSED_REPORT (-6)  /* report_len is not UTF8B_REPORT */
#define UTF8B_REFUSED_CODES (-7)   /* writing: codes_len is no multiple of 4 */
#define UTF8B_REFUSED_LENGTH (-8)  /* an input or output of more than UTF8B_LIMIT bytes */

/* Numbers that the calls on an index answer.  After all but the first, nothing has been changed. */
#define UTF8B_DONE 0u      /* the results are filled in */
#define UTF8B_NO_ROOM 1u   /* the index would be longer than index_len */
#define UTF8B_OUTSIDE 15u  /* a code, byte or record that is not there, or an old length past the log's */

/* Reasons, which utf8b_reason answers. */
#define UTF8B_REASON_GOOD 0u       /* none: a well-formed sequence starts there */
#define UTF8B_REASON_LONE 1u       /* 80..BF: a continuation byte with nothing to continue */
#define UTF8B_REASON_NEVER 2u      /* C0 or C1, which begin no sequence */
#define UTF8B_REASON_BEYOND 3u     /* F5..FF, which begin no sequence */
#define UTF8B_REASON_TOO_LONG 4u   /* too long a form of its code: E0 before 80..9F, F0 before 80..8F */
#define UTF8B_REASON_SURROGATE 5u  /* a surrogate, D800 to DFFF: ED before A0..BF */
#define UTF8B_REASON_TOO_HIGH 6u   /* above 10FFFF: F4 before 90..BF */
#define UTF8B_REASON_CUT_SHORT 7u  /* where a continuation byte was due stands a byte that is not 80..BF */
#define UTF8B_REASON_UNFINISHED 8u /* the end of the bytes cuts a sequence off */
#define UTF8B_REASON_END 9u        /* no byte: the place is at or past the end */

#define UTF8B_REPORT 9      /* bytes in a report: a count in 8, low byte first, and a length in 1 */
#define UTF8B_LIMIT 1048576 /* most bytes in an input or output; utf8b_reason and the calls on an index have no limit */

#define UTF8B_INDEX_EVERY 64 /* codes from one record of an index to the next */
#define UTF8B_INDEX_RECORD 8 /* bytes in a record: the place of a code, low byte first */

/*
 * Reads the bytes of src as codes.  The room is codes_len / 4 codes; bytes of
 * codes beyond those produced stay as they are.
 *
 * Answers how many codes were produced, or one of the answers below 0.  The report
 * gets the number of bytes consumed and, where reading stopped before bad bytes, the
 * length of the bad stretch, 1 to 3, else 0.  Reading stops
 *   - at the end of src;
 *   - without UTF8B_LAST, before a sequence that src cuts off: at most 3 bytes
 *     are left, to be put before the next;
 *   - with UTF8B_STRICT, before the first bad byte;
 *   - where the room is full.
 *
 * Which of them it was:
 *   - the length is not 0: bad bytes, so many of them;
 *   - all of src is consumed: its end;
 *   - fewer codes than the room: a sequence that src cuts off;
 *   - else the room is full.  What is left may then be a cut sequence, too: it is
 *     if a call for what is left, with room, consumes nothing.
 *
 * A line may come in packets, cut anywhere: what a call leaves goes before the next
 * packet, and UTF8B_LAST to the last alone, at the end of the link and not after a
 * silence.  Then the codes, the bytes consumed and the first bad stretch are those of
 * one call for the line.  Codes of packets that were each read with UTF8B_LAST are not
 * to be put end to end: E2 80 and B2 would be three escapes, which are written as U+2032.
 *
 * The bad stretch is the maximal subpart of the Unicode Standard (section 3.9): the
 * longest beginning of a well-formed sequence there, or else one byte.  With
 * UTF8B_LAST a sequence cut off at the end is one bad stretch.
 */
int64_t utf8b_decode(const uint8_t *src, size_t src_len,
                     uint8_t *codes, size_t codes_len,
                     uint32_t flags,
                     uint8_t *report, size_t report_len);

/*
 * Writes codes as bytes.  Bytes of dst beyond those produced stay as they are, and
 * no code is written in part; codes_len bytes of room are always enough.
 *
 * Answers how many bytes were produced, or one of the answers below 0.  The report
 * gets the number of codes consumed, and 0 for the length.  Writing stops
 *   - at the end of the codes;
 *   - before a code above 10FFFF and, with UTF8B_STRICT without UTF8B_SURRO, before
 *     a surrogate;
 *   - where the room is too small for the next code.
 */
int64_t utf8b_encode(const uint8_t *codes, size_t codes_len,
                     uint8_t *dst, size_t dst_len,
                     uint32_t flags,
                     uint8_t *report, size_t report_len);

/*
 * The same in CESU-8 (Unicode Technical Report 26), in which a code above FFFF is six
 * bytes: its high surrogate's three, then its low surrogate's.  Sequences of four bytes
 * and lone surrogates are bad bytes there.  What differs:
 *   - UTF8B_SURRO is refused;
 *   - at most 5 bytes are left without UTF8B_LAST, and a bad stretch has 1 to 5;
 *   - 6 bytes of room for each code are always enough to write.
 *
 * A bad stretch may end in the first byte of a sequence: ED A0 80 ED 9F BF has ED A0 80 ED
 * in front, though ED 9F BF is U+D7FF.  Escapes stand for one byte each, so they give U+D7FF.
 */
int64_t utf8b_cesu8_decode(const uint8_t *src, size_t src_len,
                           uint8_t *codes, size_t codes_len,
                           uint32_t flags,
                           uint8_t *report, size_t report_len);

int64_t utf8b_cesu8_encode(const uint8_t *codes, size_t codes_len,
                           uint8_t *dst, size_t dst_len,
                           uint32_t flags,
                           uint8_t *report, size_t report_len);

/*
 * Why the bytes at a place of s are bad, in UTF-8 with nothing after them: one of the
 * reasons above.  It is the reason at the first byte that leaves no well-formed sequence:
 * E0 80 at the end is too long a form, not cut off.
 *
 * A place is any byte, and is read afresh: inside a good sequence there is a continuation
 * byte with nothing to continue.  A caller who wants each bad stretch once goes on behind
 * it; for the reasons 1 to 6 that is one byte, for 7 and 8 one to three.
 */
uint32_t utf8b_reason(const uint8_t *s, size_t s_len, size_t place);

/*
 * An index into a log: a record for every 64th code, 0, 64, 128, .., with the place of
 * the byte where it starts.  The codes are those that utf8b_decode reads with UTF8B_LAST
 * alone, so each bad byte is a code of its own.
 *
 * Builds the index of a log.  *records gets the number of records; bytes of index beyond
 * them stay as they are.  utf8b_index_room(log_len) bytes are always enough.
 * Answers UTF8B_DONE, or UTF8B_NO_ROOM.
 */
uint32_t utf8b_index_build(const uint8_t *log, size_t log_len,
                           uint8_t *index, size_t index_len,
                           size_t *records);

/*
 * Finds code k, from 0: *place gets the byte where it starts.  It reads one record, and
 * walks over at most 63 items from the place recorded on, at most 252 bytes of the log.
 * index_len is the length of the records alone, 8 bytes for each.
 *
 * Answers UTF8B_DONE; or UTF8B_OUTSIDE where the log has no code k, the index has no
 * record for it, or a place recorded or reached is not inside the log.  An index that is
 * not the log's own is not found out: the answer is then what the walk from its record
 * gives.
 */
uint32_t utf8b_index_find(const uint8_t *log, size_t log_len,
                          const uint8_t *index, size_t index_len,
                          size_t k,
                          size_t *place);

/*
 * Which item covers byte p: *start gets its first byte, *length how many bytes it has,
 * and *code its code, the escape U+DC00 + b for a bad byte b.  It reads only the bytes
 * from p - 3 to p + 3, and needs no index.
 * Answers UTF8B_DONE, or UTF8B_OUTSIDE where p is not inside the log.
 */
uint32_t utf8b_index_cover(const uint8_t *log, size_t log_len,
                           size_t p,
                           size_t *start, size_t *length, uint32_t *code);

/*
 * Brings an index up to date after bytes were appended to the log, without reading the
 * log again from the start.  old_len is the length of the log when the index was built
 * or updated last, and old_records the number of its records.  *records gets the new
 * number, which may be one less, since F0 9F 92 is three codes and F0 9F 92 A7 is one.
 * Bytes of index beyond the records stay as they are: hand on only 8 * *records of them.
 *
 * If the records were those of the log's first old_len bytes, or the first of them, they
 * are then those that utf8b_index_build would give.  Others are taken as they are: those
 * before the first whose place + 3 reaches old_len stand, and the walk goes on from the
 * last of these.
 *
 * Every old record is read.  In a long index the last two are enough: where i is
 * old_records - 2, hand on index + 8 * i, index_len - 8 * i and 2, and *records counts
 * from record i on.
 *
 * Answers UTF8B_DONE; UTF8B_OUTSIDE where old_len is more than log_len, or old_records
 * more than index has room for; or else UTF8B_NO_ROOM where the records do not fit.
 */
uint32_t utf8b_index_update(const uint8_t *log, size_t log_len,
                            size_t old_len, size_t old_records,
                            uint8_t *index, size_t index_len,
                            size_t *records);

/* What every caller needs of reports, codes, reasons and records.  These are C, tested and not proved. */

/* The number in 8 bytes, low byte first. */
static inline uint64_t utf8b_number(const uint8_t *bytes)
{
    uint64_t number = 0;
    int i;

    for (i = 8; i-- > 0;)
        number = number << 8 | bytes[i];
    return number;
}

/* The bytes or codes consumed. */
static inline size_t utf8b_consumed(const uint8_t *report)
{
    return (size_t)utf8b_number(report);
}

/* The length of the bad stretch that reading stopped before, or 0. */
static inline size_t utf8b_bad_length(const uint8_t *report)
{
    return report[8];
}

/* Code i, from 0. */
static inline uint32_t utf8b_code(const uint8_t *codes, size_t i)
{
    const uint8_t *code = codes + 4 * i;

    return code[0] | (uint32_t)code[1] << 8 | (uint32_t)code[2] << 16 | (uint32_t)code[3] << 24;
}

/* A reason in words; those of 1 to 8 fit behind "bad bytes: ". */
static inline const char *utf8b_reason_text(uint32_t reason)
{
    switch (reason) {
    case UTF8B_REASON_GOOD: return "well-formed";
    case UTF8B_REASON_LONE: return "a continuation byte with nothing to continue";
    case UTF8B_REASON_NEVER: return "C0 and C1 begin no sequence";
    case UTF8B_REASON_BEYOND: return "F5 to FF begin no sequence";
    case UTF8B_REASON_TOO_LONG: return "too long a form of its code";
    case UTF8B_REASON_SURROGATE: return "a surrogate, D800 to DFFF";
    case UTF8B_REASON_TOO_HIGH: return "above 10FFFF, the last code";
    case UTF8B_REASON_CUT_SHORT: return "no continuation byte follows";
    case UTF8B_REASON_UNFINISHED: return "the end of the input cuts it off";
    case UTF8B_REASON_END: return "at or past the end";
    }
    return "unknown reason";
}

/* Record i of an index, from 0: the place of code 64 * i. */
static inline size_t utf8b_index_place(const uint8_t *index, size_t i)
{
    return (size_t)utf8b_number(index + UTF8B_INDEX_RECORD * i);
}

/* Bytes that are enough for the index of any log of so many bytes. */
static inline size_t utf8b_index_room(size_t log_len)
{
    return (log_len / UTF8B_INDEX_EVERY + (log_len % UTF8B_INDEX_EVERY != 0)) * UTF8B_INDEX_RECORD;
}

#ifdef __cplusplus
}
#endif

#endif
