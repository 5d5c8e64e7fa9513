/* Times takvorn_show and takvorn_check beside the same work in plain Rust, whose answers are compared, and a key, a record of a full screen of 60 fields and a
 * check at a terminal that a program holds: by its state, and by a handle. library LAYOUT RECORDS COUNT prints the least of 21 runs of so many calls, each call
 * in turn and with a rest after each turn, in microseconds a call: of show and check of the records, and of these in plain Rust; of a key, a record and a check
 * by state; and of these by handle. */
#define _POSIX_C_SOURCE 200809L
#include "takvorn.h"
#include <stdio.h>
#include <stdlib.h>
#include <string.h>
#include <time.h>

/* Of calls.rs. */
size_t plain_show(const uint8_t *records, size_t records_length, uint8_t *out, size_t room);
size_t plain_check(const uint8_t *layout, size_t layout_length, const uint8_t *records, size_t records_length, uint8_t *out, size_t room);

static uint8_t layout[65536], records[65536], out[65536], plain[65536];
static size_t layout_length, records_length, needed, plain_length;

static int show(void) { return takvorn_show(records, records_length, out, sizeof out, &needed); }
static int check(void) { return takvorn_check(layout, layout_length, records, records_length, false, out, sizeof out, &needed); }

static int show_plainly(void) {
  plain_length = plain_show(records, records_length, plain, sizeof plain);
  return TAKVORN_DONE;
}
static int check_plainly(void) {
  plain_length = plain_check(layout, layout_length, records, records_length, plain, sizeof plain);
  return TAKVORN_DONE;
}

/* Whether a call and the same work in plain Rust give the same answer. */
static bool are_alike(int (*call)(void), int (*plainly)(void)) {
  return call() == TAKVORN_DONE && plainly() == TAKVORN_DONE && needed == plain_length && memcmp(out, plain, needed) == 0;
}

/* A terminal of 24x80 that shows that screen. */
static uint8_t state[8192], full[2048], pressed;
static size_t state_length, full_length;
static takvorn_held held = {NULL};
static takvorn_effect effect;

static unsigned turn;

/* Tab and a character in turn, in fields of 31 positions: no key is inhibited. */
static uint8_t next_key(void) { return turn++ % 2 ? TAKVORN_TYPE : TAKVORN_TAB; }
static int key(void) { return takvorn_terminal_press(state, state_length, next_key(), 0xC1, &pressed) || pressed != TAKVORN_KEY_DONE; }
static int record(void) { return takvorn_terminal_apply(state, state_length, full, full_length, &effect); }
static int held_key(void) { return takvorn_held_press(&held, next_key(), 0xC1, &pressed) || pressed != TAKVORN_KEY_DONE; }
static int held_record(void) { return takvorn_held_apply(&held, full, full_length, &effect); }

/* The screen's fields aren't the layout's, so there are findings. */
static int judged(int32_t status) { return status != TAKVORN_FINDINGS; }
static int state_check(void) { return judged(takvorn_terminal_check(state, state_length, layout, layout_length, false, out, sizeof out, &needed)); }
static int held_check(void) { return judged(takvorn_held_check(&held, layout, layout_length, false, out, sizeof out, &needed)); }

static void hold(void) {
  full[full_length++] = 0xF5;
  full[full_length++] = 0xC3;
  for (int field = 0; field < 60; field++) {
    full[full_length++] = 0x1D;
    full[full_length++] = field % 2 ? 0x40 : 0x60;
    for (int at = 1; at < 32; at++) full[full_length++] = 0xC1;
  }
  state_length = takvorn_terminal_size(24, 80, 24, 80, false);
  if (takvorn_terminal_new(24, 80, 24, 80, false, state, state_length) || record()) exit(1);
  if (takvorn_held_new(24, 80, 24, 80, false, &held) || held_record()) exit(1);
}

static size_t contents(const char *name, uint8_t *bytes, size_t room) {
  FILE *file = fopen(name, "rb");
  if (!file) exit(1);
  size_t length = fread(bytes, 1, room, file);
  fclose(file);
  return length;
}

static const struct timespec rest = {0, 200000000};

static double once(int (*call)(void), long count) {
  struct timespec from, to;
  clock_gettime(CLOCK_MONOTONIC, &from);
  for (long i = 0; i < count; i++)
    if (call() != TAKVORN_DONE) exit(1);
  clock_gettime(CLOCK_MONOTONIC, &to);
  return ((double)(to.tv_sec - from.tv_sec) * 1e9 + (double)(to.tv_nsec - from.tv_nsec)) / 1e3 / (double)count;
}

int main(int count, char **words) {
  static int (*const calls[])(void) = {show, check, show_plainly, check_plainly, key, record, state_check, held_key, held_record, held_check};
  enum { CALLS = sizeof calls / sizeof calls[0], RUNS = 21 };
  double least[CALLS];
  if (count != 4) return 2;
  layout_length = contents(words[1], layout, sizeof layout);
  records_length = contents(words[2], records, sizeof records);
  if (!are_alike(show, show_plainly) || !are_alike(check, check_plainly)) {
    fputs("library: the answers differ\n", stderr);
    return 1;
  }
  hold();
  for (int run = 0; run < RUNS; run++) {
    for (int at = 0; at < CALLS; at++) {
      double spent = once(calls[at], atol(words[3]));
      if (run == 0 || spent < least[at]) least[at] = spent;
    }
    nanosleep(&rest, NULL);
  }
  for (int at = 0; at < CALLS; at++) printf("%s%.2f", at ? " " : "", least[at]);
  puts("");
  takvorn_held_free(&held);
  return 0;
}
