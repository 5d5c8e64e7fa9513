/* Holds terminals through the C library. terminal changed: each byte of a state is changed in turn, and every call answers TAKVORN_BAD_INPUT or
 * works; terminal both SEED COUNT: random records and keys at a state beside takvorn_press over all of them, its fields beside its cells, and its check
 * beside takvorn_check of the record in it; terminal rows: fields and checks that were worked out on paper; terminal threads: eight threads, each with a
 * state of its own. It ends with 1 where a result is wrong, which standard error tells. */
#define _POSIX_C_SOURCE 200809L
#include "random_records.h"
#include "takvorn.h"
#include <pthread.h>
#include <stdio.h>
#include <stdlib.h>
#include <string.h>
#include <time.h>

enum { ROOM = 1 << 16, THREADS = 8 };

/* The words of keys, as takvorn_press reads them, beside their numbers. */
static const struct { const char *word; uint8_t key, code; } keys[] = {
  {"left", TAKVORN_LEFT, 0}, {"right", TAKVORN_RIGHT, 0}, {"up", TAKVORN_UP, 0}, {"down", TAKVORN_DOWN, 0}, {"tab", TAKVORN_TAB, 0},
  {"backtab", TAKVORN_BACK_TAB, 0}, {"newline", TAKVORN_NEW_LINE, 0}, {"home", TAKVORN_HOME, 0}, {"eraseeof", TAKVORN_ERASE_EOF, 0},
  {"eraseinput", TAKVORN_ERASE_INPUT, 0}, {"delete", TAKVORN_DELETE, 0}, {"reset", TAKVORN_RESET, 0}, {"type C1", TAKVORN_TYPE, 0xC1},
  {"type F9", TAKVORN_TYPE, 0xF9}, {"enter", TAKVORN_ATTENTION, 0x7D}, {"clear", TAKVORN_ATTENTION, 0x6D}, {"pa1", TAKVORN_ATTENTION, 0x6C},
  {"pf12", TAKVORN_ATTENTION, 0x7C}, {"pf24", TAKVORN_ATTENTION, 0x4C},
};
static const char *const did[] = {"done", "inhibited", "ignored", "sent"};

/* A record of random orders; some are refused. */
static size_t make_record(chance *from, uint8_t *record) {
  static const uint8_t commands[] = {0xF1, 0xF5, 0xF5, 0x7E, 0x6F};
  size_t length = 0;
  record[length++] = commands[below(from, 5)];
  if (record[0] == 0x6F) return length;
  return put_orders(from, record, length);
}

static size_t put_digits(char *text, const uint8_t *bytes, size_t length) {
  for (size_t i = 0; i < length; i++) sprintf(text + 2 * i, "%02X", bytes[i]);
  return 2 * length;
}

enum { CELLS = 24 };

static bool same_field(takvorn_field one, takvorn_field other) {
  return one.attribute == other.attribute && one.first == other.first && one.length == other.length && one.bits == other.bits;
}

/* The fields of a state are those of its cells: each attribute governs the positions after it up to the next one, round the end. */
static void compare_fields(const uint8_t *state, size_t length) {
  takvorn_cell cells[CELLS];
  takvorn_field fields[CELLS + 1], few[2];
  size_t bytes, many, told, found = 0;
  if (takvorn_terminal_cells(state, length, (uint8_t *)cells, sizeof cells, &bytes) || bytes > sizeof cells) wrong("cells");
  memset(fields, 0xEE, sizeof fields);
  if (takvorn_terminal_fields(state, length, fields, CELLS + 1, &many) || many > CELLS) wrong("fields");
  uint32_t all = (uint32_t)bytes / 2;
  for (uint32_t p = 0; p < all; p++) {
    if (cells[p].kind != TAKVORN_ATTRIBUTE) continue;
    takvorn_field due = {p, (p + 1) % all, 0, cells[p].code};
    while (cells[(p + 1 + due.length) % all].kind != TAKVORN_ATTRIBUTE) due.length++;
    if (found == many || !same_field(fields[found++], due)) wrong("a field");
  }
  if (found != many || fields[many].bits != 0xEE) wrong("more fields than attributes");
  memset(few, 0xEE, sizeof few);
  if (takvorn_terminal_fields(state, length, few, 1, &told) || told != many || few[1].bits != 0xEE) wrong("fields that don't fit");
  if (many && !same_field(few[0], fields[0])) wrong("the first field alone");
}

/* The record that draws the screen lies in the state after 11 bytes, of which the last three are its length. */
static void compare_check(const uint8_t *state, size_t length, bool alternate) {
  const char *text = alternate ? "default = \"2x12\"\nalternate = \"3x8\"\nscreen = \"alternate\"\n" : "default = \"2x12\"\nalternate = \"3x8\"\n";
  const uint8_t *layout = (const uint8_t *)text;
  size_t layout_length = strlen(text), many = ((size_t)state[8] << 16) + ((size_t)state[9] << 8) + state[10], needed, told;
  static uint8_t out[ROOM], due[ROOM];
  char drawn[512];
  for (int demos = 0; demos < 2; demos++) {
    int32_t status = takvorn_terminal_check(state, length, layout, layout_length, demos, out, sizeof out, &needed);
    int32_t other_status = takvorn_check(layout, layout_length, (const uint8_t *)drawn, put_digits(drawn, state + 11, many), demos, due, sizeof due, &told);
    if (status != other_status || status > TAKVORN_FINDINGS || needed != told || memcmp(out, due, told)) wrong("the checks differ");
  }
}

/* One terminal of 2 rows of 12 columns and 24 positions, so that addresses are near the end. */
static void both_ways(chance *from) {
  uint8_t state[256], before[256], record[256], out[ROOM], pressed;
  static char records[ROOM], words[ROOM], due[ROOM];
  size_t length = takvorn_terminal_size(2, 12, 3, 8, false), needed, taken = 0, at = 0, told = 0;
  if (length != 65 || takvorn_terminal_new(2, 12, 3, 8, false, state, length)) wrong("a new terminal");
  taken += (size_t)sprintf(records, "size 2x12 3x8\n");
  for (unsigned count = 1 + below(from, 4); count > 0; count--) {
    size_t bytes = make_record(from, record);
    takvorn_effect effect = {0, false, false, 0, 0, 0};
    memcpy(before, state, length);
    int32_t status = takvorn_terminal_apply(state, length, record, bytes, &effect);
    if (status == TAKVORN_FINDINGS) {
      if (memcmp(before, state, length) || effect.kind != TAKVORN_REFUSED || !effect.number) wrong("a refused record");
      continue;
    }
    if (status || effect.kind != TAKVORN_SHOWN) wrong("a record");
    compare_fields(state, length);
    taken += put_digits(records + taken, record, bytes);
    records[taken++] = '\n';
  }
  for (unsigned count = 1 + below(from, 30); count > 0; count--) {
    unsigned key = below(from, sizeof keys / sizeof keys[0]);
    takvorn_status now;
    at += (size_t)sprintf(words + at, "%s\n", keys[key].word);
    if (takvorn_terminal_press(state, length, keys[key].key, keys[key].code, &pressed)) wrong("a key");
    if (takvorn_terminal_status(state, length, &now)) wrong("a status");
    if (pressed == TAKVORN_KEY_SENT) {
      if (takvorn_terminal_answer(state, length, false, out, sizeof out, &needed)) wrong("an answer");
      told += (size_t)sprintf(due + told, "sent ");
      told += put_digits(due + told, out, needed);
      due[told++] = '\n';
    } else
      told += (size_t)sprintf(due + told, "%s %u\n", did[pressed], now.cursor);
  }
  memcpy(before, state, length);
  compare_fields(state, length);
  compare_check(state, length, below(from, 2));
  if (memcmp(before, state, length)) wrong("a call that reads changes a state");
  if (takvorn_press((const uint8_t *)records, taken, (const uint8_t *)words, at, out, sizeof out, &needed)) wrong("takvorn_press");
  if (needed != told || memcmp(out, due, told)) {
    fprintf(stderr, "%.*s%.*s--\n%.*s--\n%.*s", (int)taken, records, (int)at, words, (int)needed, out, (int)told, due);
    wrong("keys both ways");
  }
}

/* A terminal of 2 rows of 10 columns, and a record. */
static size_t make_small(uint8_t *state, const uint8_t *record, size_t bytes) {
  size_t length = takvorn_terminal_size(2, 10, 2, 10, false);
  takvorn_effect effect;
  if (takvorn_terminal_new(2, 10, 2, 10, false, state, length)) wrong("a new terminal");
  if (bytes && takvorn_terminal_apply(state, length, record, bytes, &effect)) wrong("a record");
  return length;
}

static void try_field_rows(void) {
  static const struct { size_t bytes; uint8_t record[16]; size_t many; takvorn_field fields[3]; } rows[] = {
    /* protected at 0, A and B; unprotected at 3, the cursor; at 12, protected, numeric and modified */
    {14, {0xF5, 0xC3, 0x1D, 0x60, 0xC1, 0xC2, 0x1D, 0x40, 0x13, 0x11, 0x40, 0x4C, 0x1D, 0xF1}, 3, {{0, 1, 2, 0x20}, {3, 4, 8, 0}, {12, 13, 7, 0x31}}},
    /* at the last position, so that the field begins at the first */
    {7, {0xF5, 0xC3, 0x11, 0x40, 0xD3, 0x1D, 0x40}, 1, {{19, 0, 19, 0}}},
    /* two attributes side by side, the first of them without a position */
    {6, {0xF5, 0xC3, 0x1D, 0x60, 0x1D, 0xC1}, 2, {{0, 1, 0, 0x20}, {1, 2, 18, 0x01}}},
    {0, {0}, 0, {{0, 0, 0, 0}}},
  };
  for (size_t i = 0; i < sizeof rows / sizeof rows[0]; i++)
    for (size_t room = 0; room <= 4; room++) {
      uint8_t state[256];
      takvorn_field fields[5];
      size_t length = make_small(state, rows[i].record, rows[i].bytes), needed = 9;
      memset(fields, 0xEE, sizeof fields);
      if (takvorn_terminal_fields(state, length, fields, room, &needed) || needed != rows[i].many) wrong("the number of fields");
      for (size_t at = 0; at < 5; at++)
        if (at < needed && at < room ? !same_field(fields[at], rows[i].fields[at]) : fields[at].bits != 0xEE) wrong("the row of a field");
    }
}

/* The record that draws a screen: what is shown of A with its attribute at 0, an alternate B after it, and an attribute at 3, with the cursor at 4. */
static void try_drawn_row(void) {
  static const uint8_t record[] = {0xF5, 0xC3, 0x1D, 0x60, 0xC1, 0x08, 0xC2, 0x1D, 0x40, 0x13};
  static const uint8_t front[] = {0xF5, 0xC2, 0x1D, 0x60, 0xC1, 0x08, 0xC2, 0x1D, 0x40}, back[] = {0x11, 0x40, 0xC4, 0x13};
  uint8_t state[256], due[256] = {0};
  size_t length = make_small(state, record, sizeof record), bytes = sizeof front + 16 + sizeof back;
  memcpy(due, front, sizeof front);
  memcpy(due + sizeof front + 16, back, sizeof back);
  if (length != 57 || state[8] || state[9] || state[10] != bytes || memcmp(state + 11, due, length - 11)) wrong("the record in a state");
}

/* The status and the length of the whole text, and what fits of it in so much room. */
static void check_leaves(const uint8_t *state, size_t length, const char *layout, bool demos, size_t room, int32_t due, const char *text, size_t bytes) {
  uint8_t out[257];
  size_t needed = 9, fitting = bytes < room ? bytes : room;
  memset(out, 0xEE, sizeof out);
  int32_t status = takvorn_terminal_check(state, length, (const uint8_t *)layout, strlen(layout), demos, out, room, &needed);
  if (status == due && needed == bytes && !memcmp(out, text, fitting) && out[fitting] == 0xEE) return;
  fprintf(stderr, "status %d, %zu bytes: %.*s\n", status, needed, (int)fitting, out);
  wrong("the row of a check");
}

static void try_check_rows(void) {
  /* An input from 18 over the end to 2, of five positions, with the cursor; protected from 3 on. The second leaves the keyboard locked. */
  static const uint8_t record[] = {0xF5, 0xC2, 0x11, 0x40, 0xD1, 0x1D, 0x40, 0x13, 0x11, 0x40, 0xC3, 0x1D, 0x60};
  static const uint8_t locked[] = {0xF5, 0x40, 0x11, 0x40, 0xD1, 0x1D, 0x40, 0x13, 0x11, 0x40, 0xC3, 0x1D, 0x60};
#define LAYOUT "default = \"2x10\"\n[[field]]\nname = \"code\"\nrow = 2\ncol = 9\nlength = "
#define FINDING "F11 code length 5, declared 4, keys: right 0, type 5\n"
  static const struct { const uint8_t *record; const char *layout; bool demos; int32_t status; const char *text; } rows[] = {
    {record, LAYOUT "5\n", false, TAKVORN_DONE, "yes\n"},
    {record, LAYOUT "4\n", false, TAKVORN_FINDINGS, FINDING},
    {record, LAYOUT "4\n", true, TAKVORN_FINDINGS, FINDING "sends 7D40C41140D2C1C1C1C1C1\n"},
    {locked, LAYOUT "5\n", false, TAKVORN_DONE, "yes\n"},
    /* a layout of another size: what `check` says of the record there */
    {record, "default = \"3x10\"\n", false, TAKVORN_FINDINGS, "F8 undeclared input at 18, keys: right 0, type 1\n"},
    {record, "no layout", false, TAKVORN_BAD_INPUT, "layout refused: L1 NotToml\n"},
  };
  for (size_t i = 0; i < sizeof rows / sizeof rows[0]; i++) {
    uint8_t state[256];
    size_t length = make_small(state, rows[i].record, sizeof record), due = strlen(rows[i].text);
    check_leaves(state, length, rows[i].layout, rows[i].demos, 256, rows[i].status, rows[i].text, due);
    check_leaves(state, length, rows[i].layout, rows[i].demos, 3, rows[i].status, rows[i].text, due);
    check_leaves(state, length, rows[i].layout, rows[i].demos, 0, rows[i].status, rows[i].text, due);
    check_leaves(state, length - 1, rows[i].layout, rows[i].demos, 256, TAKVORN_BAD_INPUT, "", 0);
  }
}

static void try_changed(void) {
  static uint8_t state[8192], changed[8192], out[ROOM];
  static const char layout[] = "default = \"4x20\"\nalternate = \"5x20\"\n";
  takvorn_field fields[100];
  const uint8_t record[] = {0xF5, 0xC3, 0x1D, 0x60, 0xC1, 0x1D, 0x40, 0x13, 0x08, 0xC1, 0x11, 0x40, 0x4C, 0x1D, 0x61};
  size_t length = takvorn_terminal_size(4, 20, 5, 20, false), needed;
  takvorn_effect effect;
  takvorn_status status;
  uint8_t pressed;
  if (takvorn_terminal_new(4, 20, 5, 20, false, state, length) || takvorn_terminal_apply(state, length, record, sizeof record, &effect)) wrong("a state");
  long works = 0, refused = 0;
  for (size_t at = 0; at <= length; at++)
    for (unsigned bits = 1; bits < 256; bits += bits < 16 ? 1 : 37) {
      memcpy(changed, state, length);
      size_t many = at == length ? (bits % 2 ? length - 1 : length + bits % 7 + 1) : length;
      if (at < length) changed[at] = (uint8_t)(changed[at] ^ bits);
      uint8_t *copy = malloc(many), *kept = malloc(many);
      if (!copy || !kept) exit(1);
      memset(copy, 0, many);
      memcpy(copy, changed, many < length ? many : length);
      memcpy(kept, copy, many);
      int32_t first = takvorn_terminal_status(copy, many, &status);
      if (first != TAKVORN_DONE && first != TAKVORN_BAD_INPUT) wrong("the status of changed bytes");
      int32_t others[] = {takvorn_terminal_answer(copy, many, true, out, sizeof out, &needed), takvorn_terminal_buffer(copy, many, out, sizeof out, &needed),
                          takvorn_terminal_cells(copy, many, out, sizeof out, &needed), takvorn_terminal_fields(copy, many, fields, 100, &needed)};
      for (int i = 0; i < 4; i++)
        if (others[i] != first) wrong("calls on changed bytes differ");
      if (first && needed) wrong("fields of no state");
      int32_t judged = takvorn_terminal_check(copy, many, (const uint8_t *)layout, sizeof layout - 1, false, out, sizeof out, &needed);
      if (first ? judged != first || needed : judged != TAKVORN_DONE && judged != TAKVORN_FINDINGS) wrong("a check of changed bytes");
      if (memcmp(copy, kept, many)) wrong("a call that reads changes bytes");
      if (takvorn_terminal_press(copy, many, TAKVORN_TAB, 0, &pressed) != first) wrong("a key on changed bytes");
      if (first && memcmp(copy, kept, many)) wrong("bytes that are no state are changed");
      memcpy(copy, kept, many);
      int32_t applied = takvorn_terminal_apply(copy, many, record, sizeof record, &effect);
      if (first ? applied != first : applied != TAKVORN_DONE && applied != TAKVORN_FINDINGS) wrong("a record on changed bytes");
      if (first && memcmp(copy, kept, many)) wrong("bytes that are no state are changed");
      if (first) refused++;
      else works++;
      free(copy);
      free(kept);
    }
  printf("%ld work, %ld are no state\n", works, refused);
}

static void *thread(void *seed) {
  chance from = {(uint64_t)(uintptr_t)seed + 1};
  uint8_t state[256], record[256], pressed;
  size_t length = takvorn_terminal_size(2, 12, 3, 8, false);
  takvorn_effect effect;
  if (takvorn_terminal_new(2, 12, 3, 8, false, state, length)) return seed;
  for (int i = 0; i < 2000; i++) {
    if (below(&from, 5) == 0) {
      int32_t status = takvorn_terminal_apply(state, length, record, make_record(&from, record), &effect);
      if (status > 1) return seed;
    } else {
      unsigned key = below(&from, sizeof keys / sizeof keys[0]);
      if (takvorn_terminal_press(state, length, keys[key].key, keys[key].code, &pressed)) return seed;
    }
  }
  return NULL;
}

static void try_threads(void) {
  pthread_t all[THREADS];
  for (uintptr_t i = 0; i < THREADS; i++)
    if (pthread_create(&all[i], NULL, thread, (void *)(i + 1))) exit(1);
  for (int i = 0; i < THREADS; i++) {
    void *left;
    pthread_join(all[i], &left);
    if (left) wrong("a thread");
  }
}

int main(int count, char **words) {
  if (count == 2 && !strcmp(words[1], "changed")) return try_changed(), 0;
  if (count == 2 && !strcmp(words[1], "rows")) return try_field_rows(), try_drawn_row(), try_check_rows(), 0;
  if (count == 2 && !strcmp(words[1], "threads")) return try_threads(), 0;
  if (count == 4 && !strcmp(words[1], "both")) {
    chance from = {strtoull(words[2], NULL, 10)};
    for (long rounds = atol(words[3]); rounds > 0; rounds--) both_ways(&from);
    return 0;
  }
  return 2;
}
