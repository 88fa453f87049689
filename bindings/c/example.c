/*
 * Two rules, their table to a card and back, a stream in two blocks with a match across the border,
 * the second in slices of work, and what was reported. Then a rule that reports where its matches
 * start, on a stream with starts: of a match that began in an earlier block the start measured from
 * this one is below zero. Then rules with windows, of which one has a smallest length.
 */
#include <stdio.h>
#include <string.h>

#include "watcher.h"

static uint64_t table[WATCHER_TABLE_WORDS];
static uint8_t card[WATCHER_BLOCKS][WATCHER_BLOCK_BYTES];
static uint64_t state[WATCHER_STATE_WORDS];
static uint64_t trace[WATCHER_TRACE_WORDS];
static uint32_t ids[WATCHER_REPORT_SLOTS];
static uint64_t offsets[WATCHER_REPORT_SLOTS];
static uint64_t starts[WATCHER_REPORT_SLOTS];
static int64_t relatives[WATCHER_REPORT_SLOTS];

static int refused(const char *what, watcher_error_t number) {
  printf("%s refused %u\n", what, (unsigned)number);
  return 1;
}

/* Shows why a rule was refused, if it was. */
static int added(uint32_t id, watcher_error_t number, size_t place) {
  if (number != WATCHER_SUCCESS) {
    printf("rule %u refused %u at %zu\n", (unsigned)id, (unsigned)number, place);
    return 1;
  }
  return 0;
}

static int add(uint32_t id, uint32_t flags, const char *pattern) {
  size_t place;
  watcher_error_t number = watcher_add(table, WATCHER_TABLE_WORDS, id, flags,
                                       (const uint8_t *)pattern, strlen(pattern), &place);
  return added(id, number, place);
}

static int add_within(uint32_t id, uint64_t lowest, uint64_t highest, uint64_t shortest,
                      const char *pattern) {
  size_t place;
  watcher_error_t number =
      watcher_add_within(table, WATCHER_TABLE_WORDS, id, 0, lowest, highest, shortest,
                         (const uint8_t *)pattern, strlen(pattern), &place);
  return added(id, number, place);
}

static void show(size_t reports) {
  for (size_t i = 0; i < reports; i++) {
    printf("%u %llu\n", (unsigned)ids[i], (unsigned long long)offsets[i]);
  }
}

/*
 * Offers a block until all of it is taken, with so many units of work a call;
 * WATCHER_MAX_BYTE_UNITS at least.
 */
static int scan(const char *block, uint64_t allowance) {
  const uint8_t *next = (const uint8_t *)block;
  size_t left = strlen(block);
  do {
    size_t taken, reports;
    uint64_t used;
    watcher_error_t number =
        watcher_scan(table, WATCHER_TABLE_WORDS, state, WATCHER_STATE_WORDS, allowance, next, left,
                     ids, WATCHER_REPORT_SLOTS, offsets, WATCHER_REPORT_SLOTS, &taken, &reports,
                     &used);
    if (number != WATCHER_SUCCESS) {
      return refused("scan", number);
    }
    show(reports);
    next += taken;
    left -= taken;
  } while (left > 0);
  return 0;
}

/* Writes the table to the card block by block, clears its words, and reads them back. */
static int to_card_and_back(void) {
  uint64_t place;
  for (uint64_t i = 0; i < WATCHER_BLOCKS; i++) {
    watcher_error_t number = watcher_write_block(table, WATCHER_TABLE_WORDS, i, card[i],
                                                 WATCHER_BLOCK_BYTES, &place);
    if (number != WATCHER_SUCCESS) {
      return refused("writing", number);
    }
  }
  memset(table, 0, sizeof table);
  for (uint64_t i = 0; i < WATCHER_BLOCKS; i++) {
    watcher_error_t number =
        watcher_read_block(table, WATCHER_TABLE_WORDS, i, card[i], WATCHER_BLOCK_BYTES, &place);
    if (number != WATCHER_SUCCESS) {
      return refused("reading", number);
    }
  }
  return 0;
}

static int ends(void) {
  size_t reports;
  watcher_error_t number = watcher_empty(table, WATCHER_TABLE_WORDS);
  if (number != WATCHER_SUCCESS) {
    return refused("table", number);
  }
  if (add(7, 0, "foo.*bar") || add(9, WATCHER_FLAG_CASELESS, "BAR$")) {
    return 1;
  }
  if (!add(8, 0, "a**")) {
    return 1;
  }
  if (to_card_and_back()) {
    return 1;
  }
  number = watcher_open(table, WATCHER_TABLE_WORDS, state, WATCHER_STATE_WORDS);
  if (number != WATCHER_SUCCESS) {
    return refused("opening", number);
  }
  if (scan("fooxyzb", WATCHER_NO_LIMIT) || scan("arbar", WATCHER_MAX_BYTE_UNITS)) {
    return 1;
  }
  printf("busy %u\n", (unsigned)watcher_busy(state, WATCHER_STATE_WORDS));
  number = watcher_close(table, WATCHER_TABLE_WORDS, state, WATCHER_STATE_WORDS, ids,
                         WATCHER_REPORT_SLOTS, offsets, WATCHER_REPORT_SLOTS, &reports);
  if (number != WATCHER_SUCCESS) {
    return refused("closing", number);
  }
  show(reports);
  return 0;
}

static void show_starts(size_t reports) {
  for (size_t i = 0; i < reports; i++) {
    printf("%u %llu start %llu, %lld from here\n", (unsigned)ids[i], (unsigned long long)offsets[i],
           (unsigned long long)starts[i], (long long)relatives[i]);
  }
}

/* These blocks have fewer reports than there are slots, so one call takes each of them whole. */
static int scan_for_starts(const char *block) {
  size_t taken, reports;
  uint64_t used;
  watcher_error_t number = watcher_trace_scan(
      table, WATCHER_TABLE_WORDS, trace, WATCHER_TRACE_WORDS, WATCHER_NO_LIMIT,
      (const uint8_t *)block, strlen(block), ids, WATCHER_REPORT_SLOTS, offsets,
      WATCHER_REPORT_SLOTS, starts, WATCHER_REPORT_SLOTS, relatives, WATCHER_REPORT_SLOTS, &taken,
      &reports, &used);
  if (number != WATCHER_SUCCESS) {
    return refused("scan", number);
  }
  show_starts(reports);
  return 0;
}

/* Scans these blocks on a stream with starts, and closes it. */
static int show_blocks(const char *const *blocks, size_t count) {
  size_t reports;
  printf("starts %u\n", (unsigned)watcher_needs_starts(table, WATCHER_TABLE_WORDS));
  watcher_error_t number =
      watcher_trace_open(table, WATCHER_TABLE_WORDS, trace, WATCHER_TRACE_WORDS);
  if (number != WATCHER_SUCCESS) {
    return refused("opening", number);
  }
  for (size_t i = 0; i < count; i++) {
    if (scan_for_starts(blocks[i])) {
      return 1;
    }
  }
  printf("busy %u\n", (unsigned)watcher_trace_busy(trace, WATCHER_TRACE_WORDS));
  number = watcher_trace_close(table, WATCHER_TABLE_WORDS, trace, WATCHER_TRACE_WORDS, ids,
                               WATCHER_REPORT_SLOTS, offsets, WATCHER_REPORT_SLOTS, starts,
                               WATCHER_REPORT_SLOTS, relatives, WATCHER_REPORT_SLOTS, &reports);
  if (number != WATCHER_SUCCESS) {
    return refused("closing", number);
  }
  show_starts(reports);
  return 0;
}

static int with_starts(void) {
  static const char *const blocks[] = {"xa", "b", "c"};
  watcher_empty(table, WATCHER_TABLE_WORDS);
  if (add(3, WATCHER_FLAG_SOM_LEFTMOST, "abc") || add(4, 0, "b")) {
    return 1;
  }
  if (add(5, WATCHER_FLAG_SOM_LEFTMOST, "bc$")) {
    return 1;
  }
  return show_blocks(blocks, sizeof blocks / sizeof *blocks);
}

static int within(void) {
  static const char *const blocks[] = {"foo01bbb23bar bar"};
  watcher_empty(table, WATCHER_TABLE_WORDS);
  if (add_within(6, 10, 15, 0, "foo.*bar") || add_within(2, 0, WATCHER_NO_END, 3, "b+")) {
    return 1;
  }
  if (!add_within(1, 15, 10, 0, "bar")) {
    return 1;
  }
  return show_blocks(blocks, 1);
}

int main(void) {
  return ends() || with_starts() || within();
}
