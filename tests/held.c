/* Terminals that are held, through the C library. held both SEED COUNT: random records and keys at a handle beside a state, which have to tell the same all
 * the way, and be the same state; held null: every call with a null handle; held threads: eight threads, each with a handle of its own, and handles that go
 * from one thread to the next; held session: a session whole and byte by byte, one that fails, and a null handle. It ends with 1 where a result is wrong, which standard error tells. */
#define _POSIX_C_SOURCE 200809L
#include "random_records.h"
#include "takvorn.h"
#include <pthread.h>
#include <stdio.h>
#include <stdlib.h>
#include <string.h>

enum { ROOM = 1 << 14, THREADS = 8, CELLS = 24 };

/* A record of random orders, some of which are refused; or a read. */
static size_t make_record(chance *from, uint8_t *record) {
  static const uint8_t commands[] = {0xF1, 0xF5, 0xF5, 0x7E, 0x6F, 0xF2, 0xF6, 0x6E, 0x03};
  size_t length = 0;
  record[length++] = commands[below(from, sizeof commands)];
  if (record[0] != 0xF1 && record[0] != 0xF5 && record[0] != 0x7E) return length;
  return put_orders(from, record, length);
}

static bool same_bytes(const uint8_t *one, size_t length, const uint8_t *other, size_t other_length) {
  return length == other_length && !memcmp(one, other, length);
}

/* The texts of both: the status, what fits of them in this room, and the whole length. */
static void same_texts(const char *what, int32_t status, const uint8_t *out, size_t needed, int32_t due_status, const uint8_t *due, size_t due_needed) {
  if (status != due_status || needed != due_needed || memcmp(out, due, ROOM)) wrong(what);
}

/* All that can be read of both. */
static void compare(takvorn_held *held, const uint8_t *state, size_t length, chance *from) {
  static const char layout[] = "default = \"2x12\"\nalternate = \"3x8\"\n";
  uint8_t out[ROOM], due[ROOM];
  takvorn_field fields[CELLS + 1], due_fields[CELLS + 1];
  takvorn_status status, due_status;
  size_t needed, due_needed, room = below(from, 3) ? ROOM : below(from, 40);
  bool demos = below(from, 2);
  memset(&status, 0, sizeof status), memset(&due_status, 0, sizeof due_status);
  memset(out, 0xA5, sizeof out), memset(due, 0xA5, sizeof due);
  memset(fields, 0, sizeof fields), memset(due_fields, 0, sizeof due_fields);
  if (takvorn_held_save(held, out, sizeof out, &needed) || !same_bytes(out, needed, state, length)) wrong("another state");
  int32_t told = takvorn_held_answer(held, demos, out, room, &needed);
  memset(out + (needed < room ? needed : room), 0xA5, ROOM - (needed < room ? needed : room));
  int32_t due_told = takvorn_terminal_answer(state, length, demos, due, room, &due_needed);
  same_texts("answers", told, out, needed, due_told, due, due_needed);
  told = takvorn_held_buffer(held, out, room, &needed), due_told = takvorn_terminal_buffer(state, length, due, room, &due_needed);
  same_texts("buffers", told, out, needed, due_told, due, due_needed);
  told = takvorn_held_cells(held, out, room, &needed), due_told = takvorn_terminal_cells(state, length, due, room, &due_needed);
  same_texts("cells", told, out, needed, due_told, due, due_needed);
  told = takvorn_held_check(held, (const uint8_t *)layout, sizeof layout - 1, demos, out, room, &needed);
  due_told = takvorn_terminal_check(state, length, (const uint8_t *)layout, sizeof layout - 1, demos, due, room, &due_needed);
  same_texts("checks", told, out, needed, due_told, due, due_needed);
  size_t many = below(from, CELLS + 2);
  told = takvorn_held_fields(held, fields, many, &needed), due_told = takvorn_terminal_fields(state, length, due_fields, many, &due_needed);
  if (told != due_told || needed != due_needed || memcmp(fields, due_fields, sizeof fields)) wrong("fields");
  if (takvorn_held_status(held, &status) || takvorn_terminal_status(state, length, &due_status) || memcmp(&status, &due_status, sizeof status)) wrong("statuses");
}

static void apply_both(takvorn_held *held, uint8_t *state, size_t length, chance *from) {
  uint8_t record[256];
  size_t bytes = make_record(from, record);
  takvorn_effect effect, due;
  memset(&effect, 0, sizeof effect), memset(&due, 0, sizeof due);
  if (takvorn_held_apply(held, record, bytes, &effect) != takvorn_terminal_apply(state, length, record, bytes, &due)) wrong("the status of a record");
  if (effect.kind != due.kind || effect.alarm != due.alarm || effect.restored != due.restored || effect.letter != due.letter || effect.number != due.number
      || effect.at != due.at)
    wrong("the effect of a record");
}

static void press_both(takvorn_held *held, uint8_t *state, size_t length, chance *from) {
  static const uint8_t attentions[] = {0x7D, 0x6D, 0x6C, 0x7C, 0x4C, 0x00};
  uint8_t key = (uint8_t)below(from, 16), code = key == TAKVORN_ATTENTION ? attentions[below(from, 6)] : (uint8_t)below(from, 256), pressed = 7, due = 7;
  if (takvorn_held_press(held, key, code, &pressed) != takvorn_terminal_press(state, length, key, code, &due) || pressed != due) wrong("a key");
}

/* One terminal of 24 positions, by both ways; now and then the handle is a copy by its state. */
static void both_ways(chance *from) {
  uint8_t state[256];
  size_t length = takvorn_terminal_size(2, 12, 3, 8, false);
  takvorn_held held = {NULL}, copy = {NULL};
  if (takvorn_terminal_new(2, 12, 3, 8, false, state, length) || takvorn_held_new(2, 12, 3, 8, false, &held)) wrong("a new terminal");
  for (unsigned turns = 1 + below(from, 30); turns > 0; turns--) {
    if (below(from, 5) == 0) apply_both(&held, state, length, from);
    else press_both(&held, state, length, from);
    if (below(from, 4) == 0) compare(&held, state, length, from);
    if (below(from, 20) == 0) {
      if (takvorn_held_load(&copy, state, length)) wrong("a copy");
      takvorn_held_free(&held);
      held = copy;
      copy.terminal = NULL;
    }
  }
  compare(&held, state, length, from);
  takvorn_held_free(&held);
  if (held.terminal) wrong("a handle that was freed isn't null");
}

static void try_null(void) {
  static const uint8_t record[] = {0xF5, 0xC3}, no_state[] = {1, 2, 3};
  uint8_t out[8] = {9}, pressed = 9;
  size_t needed = 9;
  takvorn_held held = {NULL};
  takvorn_effect effect = {9, false, false, 0, 0, 0};
  takvorn_status status = {9, 9, 9, 9, 9};
  takvorn_field fields[1] = {{9, 9, 9, 9}};
  takvorn_held_free(&held);
  if (takvorn_held_apply(&held, record, sizeof record, &effect) != TAKVORN_BAD_INPUT || effect.kind != 9) wrong("a record");
  if (takvorn_held_press(&held, TAKVORN_TAB, 0, &pressed) != TAKVORN_BAD_INPUT || pressed != 9) wrong("a key");
  if (takvorn_held_status(&held, &status) != TAKVORN_BAD_INPUT || status.rows != 9) wrong("a status");
  if (takvorn_held_answer(&held, true, out, sizeof out, &needed) != TAKVORN_BAD_INPUT || needed || out[0] != 9) wrong("an answer");
  if (takvorn_held_buffer(&held, out, sizeof out, &needed) != TAKVORN_BAD_INPUT || needed) wrong("a buffer");
  if (takvorn_held_cells(&held, out, sizeof out, &needed) != TAKVORN_BAD_INPUT || needed) wrong("cells");
  if (takvorn_held_save(&held, out, sizeof out, &needed) != TAKVORN_BAD_INPUT || needed) wrong("a state");
  if (takvorn_held_fields(&held, fields, 1, &needed) != TAKVORN_BAD_INPUT || needed || fields[0].bits != 9) wrong("fields");
  if (takvorn_held_check(&held, record, sizeof record, true, out, sizeof out, &needed) != TAKVORN_BAD_INPUT || needed || out[0] != 9) wrong("a check");
  if (takvorn_held_new(0, 80, 24, 80, false, &held) != TAKVORN_BAD_INPUT || held.terminal) wrong("no such terminal");
  if (takvorn_held_load(&held, no_state, sizeof no_state) != TAKVORN_BAD_INPUT || held.terminal) wrong("no state");
  /* With a terminal these leave it as it is, and a second one takes the place of the first. */
  if (takvorn_held_new(24, 80, 24, 80, false, &held) || takvorn_held_apply(&held, record, sizeof record, &effect)) wrong("a terminal");
  void *first = held.terminal;
  if (takvorn_held_load(&held, no_state, sizeof no_state) != TAKVORN_BAD_INPUT || held.terminal != first) wrong("no state in place of a terminal");
  if (takvorn_held_status(&held, &status) || status.rows != 24 || status.lock != TAKVORN_FREE) wrong("the terminal that stays");
  if (takvorn_held_new(2, 10, 2, 10, false, &held) || takvorn_held_status(&held, &status) || status.rows != 2) wrong("a second terminal");
  takvorn_held_free(&held);
  takvorn_held_free(&held);
}

static takvorn_held passed[THREADS];

/* A terminal of its own, and one that another thread left. */
static void *thread(void *number) {
  uintptr_t at = (uintptr_t)number;
  chance from = {(uint64_t)at + 1};
  uint8_t state[256];
  size_t length = takvorn_terminal_size(2, 12, 3, 8, false);
  takvorn_held held = {NULL};
  if (takvorn_held_new(2, 12, 3, 8, false, &held) || takvorn_terminal_new(2, 12, 3, 8, false, state, length)) return number;
  for (int i = 0; i < 3000; i++) {
    if (below(&from, 5) == 0) apply_both(&held, state, length, &from);
    else press_both(&held, state, length, &from);
  }
  compare(&held, state, length, &from);
  takvorn_held_free(&passed[at]);
  passed[at] = held;
  return NULL;
}

static void try_threads(void) {
  for (int round = 0; round < 3; round++) {
    pthread_t all[THREADS];
    for (uintptr_t i = 0; i < THREADS; i++)
      if (pthread_create(&all[i], NULL, thread, (void *)i)) exit(1);
    for (int i = 0; i < THREADS; i++) {
      void *left;
      pthread_join(all[i], &left);
      if (left) wrong("a thread");
    }
  }
  for (int i = 0; i < THREADS; i++) takvorn_held_free(&passed[i]);
}

/* ---- sessions */

/* What a host says that speaks classic TN3270, up to the first record: NAME, protected, and an input of six cells with the cursor. */
static const uint8_t host[] = {0xFF, 0xFD, 0x18, 0xFF, 0xFA, 0x18, 0x01, 0xFF, 0xF0, 0xFF, 0xFD, 0x19, 0xFF, 0xFB, 0x19, 0xFF, 0xFD, 0x00, 0xFF, 0xFB, 0x00,
                               0xF5, 0xC3, 0x1D, 0x60, 0xD5, 0xC1, 0xD4, 0xC5, 0x1D, 0x40, 0x13, 0x11, 0x40, 0x4C, 0x1D, 0x60, 0xFF, 0xEF};
static const uint8_t replies[] = {0xFF, 0xFB, 0x18, 0xFF, 0xFA, 0x18, 0x00, 'I', 'B', 'M', '-', '3', '2', '7', '8', '-', '2', '-', 'E', 0xFF, 0xF0,
                                  0xFF, 0xFB, 0x19, 0xFF, 0xFD, 0x19, 0xFF, 0xFB, 0x00, 0xFF, 0xFD, 0x00};
static const uint8_t device[] = "IBM-3278-2-E";

/* The bytes that are due, asked for with no room first. */
static void is_due(takvorn_session *session, const uint8_t *due, size_t length) {
  uint8_t out[256] = {0};
  size_t needed;
  for (int again = 0; again < 2; again++)
    if (length && (takvorn_session_due(session, out, length - 1, &needed) || needed != length)) wrong("what is due doesn't stay so");
  if (takvorn_session_due(session, out, sizeof out, &needed) || !same_bytes(out, needed, due, length)) wrong("what is due");
  if (takvorn_session_due(session, out, sizeof out, &needed) || needed) wrong("it is due once more");
}

/* The session's screen beside a terminal that took the record itself. */
static void is_shown(takvorn_session *session, takvorn_held *beside) {
  static uint8_t out[ROOM], due[ROOM];
  takvorn_held shown = {NULL};
  size_t needed, due_needed;
  if (takvorn_session_screen(session, &shown) || takvorn_held_save(&shown, out, sizeof out, &needed)) wrong("a session's screen");
  if (takvorn_held_save(beside, due, sizeof due, &due_needed) || !same_bytes(out, needed, due, due_needed)) wrong("another screen");
  takvorn_held_free(&shown);
}

static void work(takvorn_session *session, bool tolerant, size_t piece) {
  static const uint8_t sent[] = {0x7D, 0x40, 0xC7, 0x11, 0x40, 0xC6, 0xC1, 0xFF, 0xEF};
  takvorn_held beside = {NULL};
  takvorn_effect effect;
  takvorn_agreed agreed;
  uint8_t pressed;
  size_t needed;
  if (takvorn_session_new(device, sizeof device - 1, true, true, tolerant, session)) wrong("a session");
  if (takvorn_held_new(24, 80, 24, 80, false, &beside)) wrong("a terminal");
  if (takvorn_session_press(session, TAKVORN_TAB, 0, &pressed) || pressed != TAKVORN_KEY_IGNORED) wrong("a key before the session is ready");
  if (takvorn_session_agreed(session, &agreed) || agreed.ready || agreed.model) wrong("a session is ready at once");
  for (size_t at = 0; at < sizeof host; at += piece)
    if (takvorn_session_take(session, host + at, at + piece < sizeof host ? piece : sizeof host - at)) wrong("bytes of the host");
  is_due(session, replies, sizeof replies);
  if (takvorn_session_agreed(session, &agreed) || !agreed.ready || agreed.enhanced || !agreed.takes_input || agreed.model != 2 || !agreed.extended)
    wrong("what was agreed on");
  if (takvorn_held_apply(&beside, host + 21, sizeof host - 23, &effect)) wrong("the record");
  is_shown(session, &beside);
  if (takvorn_session_press(session, TAKVORN_TYPE, 0xC1, &pressed) || pressed != TAKVORN_KEY_DONE) wrong("a key of a session");
  if (takvorn_session_press(session, TAKVORN_ATTENTION, 0x7D, &pressed) || pressed != TAKVORN_KEY_SENT) wrong("a key that sends");
  if (takvorn_held_press(&beside, TAKVORN_TYPE, 0xC1, &pressed) || takvorn_held_press(&beside, TAKVORN_ATTENTION, 0x7D, &pressed)) wrong("the same keys");
  if (takvorn_session_fault(session, &pressed, 1, &needed) || needed || pressed != TAKVORN_KEY_SENT) wrong("why a good session failed");
  is_due(session, sent, sizeof sent);
  is_shown(session, &beside);
  if (takvorn_session_press(session, 99, 0, &pressed) != TAKVORN_BAD_INPUT) wrong("no such key");
  takvorn_held_free(&beside);
}

static void try_sessions(void) {
  static const uint8_t faulty[] = {0xFF, 0xFD, 0x18, 0xFF, 0xFA, 0x18, 0xFF, 0x41};
  takvorn_session session = {NULL};
  takvorn_held shown = {NULL};
  takvorn_agreed agreed = {true, true, true, true, true, 9};
  uint8_t out[8] = {9}, pressed = 9;
  size_t needed = 9;
  if (takvorn_session_take(&session, host, sizeof host) != TAKVORN_BAD_INPUT) wrong("bytes to no session");
  if (takvorn_session_press(&session, TAKVORN_TAB, 0, &pressed) != TAKVORN_BAD_INPUT || pressed != 9) wrong("a key to no session");
  if (takvorn_session_due(&session, out, sizeof out, &needed) != TAKVORN_BAD_INPUT || needed || out[0] != 9) wrong("what is due of no session");
  if (takvorn_session_fault(&session, out, sizeof out, &needed) != TAKVORN_BAD_INPUT || needed || out[0] != 9) wrong("why no session failed");
  if (takvorn_session_agreed(&session, &agreed) != TAKVORN_BAD_INPUT || agreed.model != 9) wrong("what no session agreed on");
  if (takvorn_session_screen(&session, &shown) != TAKVORN_BAD_INPUT || shown.terminal) wrong("the screen of no session");
  if (takvorn_session_new(device, 3, true, true, true, &session) != TAKVORN_BAD_INPUT || session.session) wrong("no such device");
  for (int tolerant = 0; tolerant < 2; tolerant++)
    for (size_t piece = 1; piece <= sizeof host; piece++) work(&session, tolerant, piece);
  if (takvorn_session_new(device, sizeof device - 1, true, true, false, &session)) wrong("a session");
  if (takvorn_session_take(&session, faulty, sizeof faulty) != TAKVORN_FINDINGS) wrong("no stream");
  if (takvorn_session_fault(&session, out, 1, &needed) || needed != 2 || memcmp(out, "W", 2)) wrong("the front of why it failed");
  if (takvorn_session_fault(&session, out, sizeof out, &needed) || needed != 2 || memcmp(out, "W3", 3)) wrong("why it failed");
  is_due(&session, replies, 3);
  if (takvorn_session_take(&session, host, sizeof host) != TAKVORN_FINDINGS) wrong("after a fault");
  if (takvorn_session_press(&session, TAKVORN_TAB, 0, &pressed) != TAKVORN_FINDINGS || pressed != 9) wrong("a key after a fault");
  is_due(&session, replies, 0);
  takvorn_session_free(&session);
  takvorn_session_free(&session);
  if (session.session) wrong("a session that was freed isn't null");
}

int main(int count, char **words) {
  if (count == 2 && !strcmp(words[1], "null")) return try_null(), 0;
  if (count == 2 && !strcmp(words[1], "threads")) return try_threads(), 0;
  if (count == 2 && !strcmp(words[1], "session")) return try_sessions(), 0;
  if (count == 4 && !strcmp(words[1], "both")) {
    chance from = {strtoull(words[2], NULL, 10)};
    for (long rounds = atol(words[3]); rounds > 0; rounds--) both_ways(&from);
    return 0;
  }
  return 2;
}
