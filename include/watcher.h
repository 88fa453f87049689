/*
 * A verified regular-expression stream watcher: the interface for C and C++.
 *
 * Rules are added to a table, a stream is opened on the table, blocks of bytes
 * are scanned, the stream is closed. Every match is reported as the id of its
 * rule and its end offset in the stream, whatever the blocks are like. The rules
 * of matching are Hyperscan's: all matches, by their ends. A rule with
 * WATCHER_FLAG_SOM_LEFTMOST reports where each match started too; the streams of
 * a table with such a rule, or with one that has a smallest length, are those of
 * the watcher_trace_ calls.
 *
 * The library has no heap, no globals and no callbacks. The caller owns all
 * memory: WATCHER_TABLE_WORDS words for a table, WATCHER_STATE_WORDS words for a
 * stream and two lists for its reports, or WATCHER_TRACE_WORDS words and four
 * lists for a stream with starts. Tables and states may be copied with memcpy and
 * kept in a file; a table of another format than this library's is refused with
 * WATCHER_NO_TABLE. Calls on different memory may run at once; a table is only
 * read by the calls on streams, so streams may share it.
 *
 * Every function answers for any content of the words it is lent. What it asks
 * of its caller is what C cannot check: each pointer is valid for as many
 * elements as the length after it says, is not NULL and is aligned, also where
 * the length is 0; and memory that a call writes overlaps no other memory of the
 * same call.
 *
 * Numbers other than WATCHER_SUCCESS are refusals. A refused call changes
 * nothing but *place, *taken, *reports and *used; an opening refused with
 * WATCHER_NO_TABLE also closes the state. docs/EMBEDDING.md tells more.
 */
#ifndef WATCHER_H
#define WATCHER_H

#include <stddef.h>
#include <stdint.h>

#ifdef __cplusplus
extern "C" {
#endif

/*
 * The version of this header. watcher_version tells that of the library, which a
 * program may compare with it.
 */
#define WATCHER_VERSION "0.1.0"

/*
 * The words of a table, and of a stream's state. Word 10 of a state is what the
 * last byte is to the assertions after it: 1 a word byte, 2 a newline, every
 * other number neither. A state with starts has the same 15 words, and then 256
 * starts of live positions, 256 of held positions and 64 of held pairs.
 */
#define WATCHER_TABLE_WORDS 16384
#define WATCHER_STATE_WORDS 15
#define WATCHER_TRACE_WORDS 591

/*
 * A table holds at most so many rules. A byte and a closing may each report all
 * of them at two offsets, so each report list needs twice as many slots as the
 * table has rules, and WATCHER_REPORT_SLOTS are enough for any table.
 */
#define WATCHER_MAX_RULES 64
#define WATCHER_REPORT_SLOTS (2 * WATCHER_MAX_RULES)

/*
 * A scan is given an allowance of work. A byte costs one unit, and one for each
 * position that is live before it, so never more than WATCHER_MAX_BYTE_UNITS;
 * with so many units a scan takes at least one byte of its block. The allowance
 * WATCHER_NO_LIMIT is more than any scan can use.
 */
#define WATCHER_NO_LIMIT UINT64_MAX
#define WATCHER_MAX_BYTE_UNITS UINT64_C(257)

/* On a card a table takes so many blocks, each of so many bytes. */
#define WATCHER_BLOCK_BYTES 512
#define WATCHER_BLOCKS ((WATCHER_TABLE_WORDS + 62) / 63)

/* How many bytes a stream may have. */
#define WATCHER_MAX_STREAM UINT64_C(1099511627775)

/* The largest end offset of a rule whose matches may end anywhere. */
#define WATCHER_NO_END UINT64_MAX

/* Flags of a rule, with Hyperscan's values; combine them with |. */
#define WATCHER_FLAG_CASELESS 1u
#define WATCHER_FLAG_DOTALL 2u
#define WATCHER_FLAG_MULTILINE 4u
#define WATCHER_FLAG_SINGLEMATCH 8u
/*
 * A rule that reports the leftmost start of each match. Its table needs streams
 * with starts, as watcher_needs_starts tells: a stream of watcher_open keeps none,
 * so its scans and closings on that table are refused with WATCHER_BAD_STATE.
 */
#define WATCHER_FLAG_SOM_LEFTMOST 256u

/* The plain matcher: the longest log, and the least slots of each of its lists. */
#define WATCHER_PLAIN_LOG 1024
#define WATCHER_PLAIN_SLOTS 1024

/* The number that a call answers: 0, or why it was refused. */
typedef uint32_t watcher_error_t;

#define WATCHER_SUCCESS 0u          /* accepted */
#define WATCHER_NO_TABLE 1u         /* fewer than 16384 words, or not a valid table */
#define WATCHER_BAD_FLAG 2u         /* a flag other than 1, 2, 4, 8, 256 */
#define WATCHER_ID_TAKEN 3u         /* a rule of the table has this id */
#define WATCHER_TABLE_FULL 4u       /* the table is full: it has 64 rules */
#define WATCHER_LONG_PATTERN 5u     /* a pattern of more than 1024 bytes */
#define WATCHER_BAD_ESCAPE 6u       /* an escape that is cut off, or \c before a byte it does not take */
#define WATCHER_BIG_ESCAPE 7u       /* a number escape over 255 */
#define WATCHER_OPEN_CLASS 8u       /* a class that is not closed */
#define WATCHER_BAD_RANGE 9u        /* a range that falls, or has a type such as \d at an end */
#define WATCHER_BAD_QUANTIFIER 10u  /* a quantifier with nothing to repeat */
#define WATCHER_BAD_COUNT 11u       /* a lower count above the upper, or a count over 65535 */
#define WATCHER_BAD_GROUP 12u       /* a group or comment that is not closed, or a ')' without one */
#define WATCHER_DEEP_GROUP 13u      /* a 17th group open at once */
#define WATCHER_UNSUPPORTED 14u     /* a construct outside the subset */
#define WATCHER_EMPTY_MATCH 15u     /* the rule could match no bytes */
#define WATCHER_LARGE_RULE 16u      /* more than 256 positions in the rule */
#define WATCHER_LARGE_TABLE 17u     /* more than 256 positions with those in the table */
#define WATCHER_BAD_STATE 18u       /* a state that is not valid for the table */
#define WATCHER_CLOSED 19u          /* the stream is closed */
#define WATCHER_SMALL_SPACE 20u     /* fewer report slots than twice the table's rules */
#define WATCHER_LONG_STREAM 21u     /* the bytes taken and this block are over 1099511627775 */
#define WATCHER_RAW_BYTE 23u        /* a raw byte below 32, or 127, in the pattern */
#define WATCHER_SINGLE_START 24u    /* flag 256, the leftmost start, with flag 8, single match */
#define WATCHER_NOT_KEPT 25u        /* neither the tail nor the block holds the whole match */
#define WATCHER_BAD_WINDOW 26u      /* a smallest end offset above the largest */
#define WATCHER_NO_BLOCK 27u        /* not the block of a table that was asked for */
#define WATCHER_LONG_LOG 28u        /* a log of more than WATCHER_PLAIN_LOG bytes */
/* Numbers from 100 on are this interface's own. */
#define WATCHER_SHORT_STATE 100u    /* fewer words than a state has: 15, or 591 with starts */

/*
 * What a number means, in a few words: "a quantifier with nothing to repeat" for
 * 10, "an unknown refusal" for a number without a meaning. Never NULL; the text is
 * not to be freed. This and watcher_version are not among the proved functions, and
 * stand in the installed libraries, not in the bare archive of `tools/library`.
 */
const char *watcher_error_text(watcher_error_t number);

/* The version of the library, as WATCHER_VERSION is that of the header. */
const char *watcher_version(void);

/* Makes the words an empty table, whatever they held. Refuses only too few words. */
watcher_error_t watcher_empty(uint64_t *table, size_t table_words);

/* WATCHER_SUCCESS if the words are a table, else WATCHER_NO_TABLE. */
watcher_error_t watcher_test(const uint64_t *table, size_t table_words);

/*
 * Adds a rule. *place is 0, or for a fault of the pattern where it lies: the first
 * byte of the faulty token, or the pattern's length for a fault known only at its
 * end. An accepted rule ends all open streams of the table: a state is refused with
 * WATCHER_BAD_STATE while the counts of rules and positions differ, its own and the
 * table's. An addition may need 2 MiB of stack.
 */
watcher_error_t watcher_add(uint64_t *table, size_t table_words, uint32_t id,
                            uint32_t flags, const uint8_t *pattern,
                            size_t pattern_length, size_t *place);

/*
 * Adds a rule with windows, Hyperscan's min_offset, max_offset and min_length: only
 * matches count that end from lowest to highest, both included, and are at least
 * shortest bytes long. 0, WATCHER_NO_END and 0 leave them out; without any of them
 * the call is watcher_add. A lowest above highest is refused with
 * WATCHER_BAD_WINDOW, after WATCHER_LONG_PATTERN and before the pattern is read, with
 * *place 0. An end offset is reported once some match up to it is known that counts;
 * with WATCHER_FLAG_SINGLEMATCH the first of these alone.
 *
 * A length is measured from a start. So a shortest above 0, also 1, makes the table
 * need streams with starts, as watcher_needs_starts tells. The starts that such a
 * rule reports are 0 all the same without WATCHER_FLAG_SOM_LEFTMOST.
 */
watcher_error_t watcher_add_within(uint64_t *table, size_t table_words, uint32_t id,
                                   uint32_t flags, uint64_t lowest, uint64_t highest,
                                   uint64_t shortest, const uint8_t *pattern,
                                   size_t pattern_length, size_t *place);

/*
 * Opens a stream on the table. A refusal with WATCHER_NO_TABLE leaves a closed
 * state, all else in it zero.
 */
watcher_error_t watcher_open(const uint64_t *table, size_t table_words,
                             uint64_t *state, size_t state_words);

/*
 * Scans a block. Reports are written from the front of both lists, ids[i] with
 * offsets[i], offsets never falling; slots past *reports keep what they held. A
 * byte brings first the matches that end before it and depended on it, as \b
 * and \B and, with WATCHER_FLAG_MULTILINE, $ may, then those that end with it,
 * each by rising id. The scan stops before the first byte that the units left
 * of the allowance do not pay for, or whose reports, of both kinds, do not all
 * fit, so *taken may be less than the length: take the reports out and call
 * again with the rest of the block. *used is what the bytes taken cost, 0 for a
 * refusal. An allowance of 0 takes nothing and is no refusal. Each accepted
 * call with a byte in its block and WATCHER_MAX_BYTE_UNITS units or more takes
 * at least one; with WATCHER_REPORT_SLOTS slots or more no call is refused for
 * its space.
 */
watcher_error_t watcher_scan(const uint64_t *table, size_t table_words,
                             uint64_t *state, size_t state_words,
                             uint64_t allowance,
                             const uint8_t *block, size_t block_length,
                             uint32_t *ids, size_t ids_length,
                             uint64_t *offsets, size_t offsets_length,
                             size_t *taken, size_t *reports, uint64_t *used);

/*
 * Closes the stream, and reports the matches that needed its end: if its last
 * byte is a newline, first those that end before that byte, by rising id, then
 * those that end with the stream, by rising id. `$` and \Z hold at both of these
 * offsets, \z at the end alone; \b and \B take both ends of a stream for no word.
 * A rule with WATCHER_FLAG_SINGLEMATCH reports once in a stream, what comes
 * first; that need not be its smallest offset.
 */
watcher_error_t watcher_close(const uint64_t *table, size_t table_words,
                              uint64_t *state, size_t state_words,
                              uint32_t *ids, size_t ids_length,
                              uint64_t *offsets, size_t offsets_length,
                              size_t *reports);

/*
 * The busy figure: how many positions are live. Those that wait for the stream's
 * end are none of them. The next byte costs one unit more than this. 0 for too few
 * words.
 */
uint32_t watcher_busy(const uint64_t *state, size_t state_words);

/*
 * 1 if a rule of the table reports starts or has a smallest length, so that its
 * streams are those with starts; else 0, also for words that are no table.
 */
uint32_t watcher_needs_starts(const uint64_t *table, size_t table_words);

/*
 * The same calls on a stream with starts. They work on every table; where no rule
 * needs a start they give what the calls above give, with a larger state and more
 * slowly. Fewer than WATCHER_TRACE_WORDS words of state are WATCHER_SHORT_STATE.
 *
 * Each report has a slot in four lists, and the space is the shortest of them.
 * starts[i] is where the match began in the stream: the smallest start whose
 * match is known when the report is given. relatives[i] is the same measured from
 * the first byte of the block lent to this call, and at closing from the stream's
 * end: it is below zero when the match began in an earlier block. For a rule
 * without WATCHER_FLAG_SOM_LEFTMOST both are 0.
 *
 * WATCHER_BAD_STATE is also given where the start of a live position, of a held
 * position or of a held pair is not below the bytes taken, or any other start is
 * not 0.
 */
watcher_error_t watcher_trace_open(const uint64_t *table, size_t table_words,
                                   uint64_t *state, size_t state_words);

watcher_error_t watcher_trace_scan(const uint64_t *table, size_t table_words,
                                   uint64_t *state, size_t state_words,
                                   uint64_t allowance,
                                   const uint8_t *block, size_t block_length,
                                   uint32_t *ids, size_t ids_length,
                                   uint64_t *offsets, size_t offsets_length,
                                   uint64_t *starts, size_t starts_length,
                                   int64_t *relatives, size_t relatives_length,
                                   size_t *taken, size_t *reports, uint64_t *used);

watcher_error_t watcher_trace_close(const uint64_t *table, size_t table_words,
                                    uint64_t *state, size_t state_words,
                                    uint32_t *ids, size_t ids_length,
                                    uint64_t *offsets, size_t offsets_length,
                                    uint64_t *starts, size_t starts_length,
                                    int64_t *relatives, size_t relatives_length,
                                    size_t *reports);

uint32_t watcher_trace_busy(const uint64_t *state, size_t state_words);

/*
 * Writes block `number` of the table, from 0 to WATCHER_BLOCKS - 1, into
 * WATCHER_BLOCK_BYTES bytes. Refuses words that are no table, and with
 * WATCHER_NO_BLOCK another length or number. *place is the number asked for with
 * WATCHER_NO_BLOCK, else 0.
 */
watcher_error_t watcher_write_block(const uint64_t *table, size_t table_words,
                                    uint64_t number, uint8_t *block,
                                    size_t block_length, uint64_t *place);

/*
 * Reads block `number` of a table into its words and leaves all others. Refuses
 * too few words, and with WATCHER_NO_BLOCK a block that is not of 512 bytes, a
 * number past the last, and bytes with another number, used count, filler or
 * CRC. The place is `number` if the number is WATCHER_NO_BLOCK, else 0. Blocks
 * may come in any order; once all are read, watcher_test tells whether the
 * words are a table.
 */
watcher_error_t watcher_read_block(uint64_t *table, size_t table_words,
                                   uint64_t number, const uint8_t *block,
                                   size_t block_length, uint64_t *place);

/* Where the bytes of a match stand: what watcher_matched_bytes answers. */
#define WATCHER_IN_BLOCK 0u
#define WATCHER_IN_TAIL 1u

/*
 * The bytes of a match from `start` up to `end`, from what the caller kept of
 * the stream: a tail, and the block right after it, which begins at `offset` of
 * the stream. They are `*size` bytes from `*place` on, of the block or of the
 * tail as the answer says: whichever holds them all, the block first if both
 * could. Where neither does they are none of the block, and
 * watcher_matched_number on the same inputs is WATCHER_NOT_KEPT, else
 * WATCHER_SUCCESS.
 */
uint32_t watcher_matched_bytes(const uint8_t *tail, size_t tail_length,
                               const uint8_t *block, size_t block_length,
                               uint64_t offset, uint64_t start, uint64_t end,
                               size_t *place, size_t *size);

watcher_error_t watcher_matched_number(const uint8_t *tail, size_t tail_length,
                                       const uint8_t *block, size_t block_length,
                                       uint64_t offset, uint64_t start,
                                       uint64_t end);

/*
 * The plain second matcher, for disputes. It uses no table: it reads one pattern
 * and works straight on it, and gives on a whole log of at most WATCHER_PLAIN_LOG
 * bytes what a table with that rule alone, scanned and closed, reports, in the same
 * order. offsets has the end offsets; starts has, for a rule with
 * WATCHER_FLAG_SOM_LEFTMOST, the smallest start whose match is known then, else 0.
 * lowest, highest and shortest are the windows of watcher_add_within. Refusals come
 * in the order 2, 24, 5, 26, 28, 20, then those of the pattern; each list needs
 * WATCHER_PLAIN_SLOTS slots. It takes some milliseconds, and may need 2 MiB of
 * stack.
 */
watcher_error_t watcher_plain(const uint8_t *pattern, size_t pattern_length,
                              uint32_t flags, uint64_t lowest, uint64_t highest,
                              uint64_t shortest, const uint8_t *log,
                              size_t log_length, uint64_t *offsets,
                              size_t offsets_length, uint64_t *starts,
                              size_t starts_length, size_t *place,
                              size_t *reports);

#ifdef __cplusplus
}
#endif

#endif
