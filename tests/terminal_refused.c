/* Each request for memory of each call on a terminal's state is refused in turn: the call is TAKVORN_NO_MEMORY, the state as it was, and nothing stays
 * allocated. It ends with 1 where that isn't so, which standard error tells. */
#include "refusing.h"
#include "takvorn.h"
#include <stdio.h>
#include <stdlib.h>
#include <string.h>

static uint8_t state[8192], before[8192], out[8192], pressed;
static takvorn_field fields[64];
static const char layout[] = "default = \"24x80\"\n";
static const uint8_t record[] = {0xF5, 0xC3, 0x1D, 0x60, 0xC1, 0x1D, 0x40, 0x13};
static size_t length, needed;
static takvorn_effect effect;
static takvorn_status status;

static int32_t apply(void) { return takvorn_terminal_apply(state, length, record, sizeof record, &effect); }
static int32_t press(void) { return takvorn_terminal_press(state, length, TAKVORN_TYPE, 0xC1, &pressed); }
static int32_t answer(void) { return takvorn_terminal_answer(state, length, true, out, sizeof out, &needed); }
static int32_t buffer(void) { return takvorn_terminal_buffer(state, length, out, sizeof out, &needed); }
static int32_t cells(void) { return takvorn_terminal_cells(state, length, out, sizeof out, &needed); }
static int32_t field(void) { return takvorn_terminal_fields(state, length, fields, 64, &needed); }
/* That there are findings is no fault. */
static int32_t judge(void) {
  int32_t told = takvorn_terminal_check(state, length, (const uint8_t *)layout, sizeof layout - 1, true, out, sizeof out, &needed);
  return told == TAKVORN_FINDINGS ? TAKVORN_DONE : told;
}
static int32_t tell(void) { return takvorn_terminal_status(state, length, &status); }
static int32_t make(void) { return takvorn_terminal_new(24, 80, 24, 80, false, state, length); }

static const struct { const char *name; int32_t (*call)(void); } calls[] = {
  {"new", make}, {"apply", apply}, {"press", press}, {"answer", answer}, {"buffer", buffer}, {"cells", cells}, {"fields", field},
  {"check", judge}, {"status", tell},
};

static int wrong(const char *name, const char *what) { return fprintf(stderr, "%s: %s\n", name, what), 1; }

/* The requests of a call, each refused in turn, until none is. */
static int each(const char *name, int32_t (*call)(void)) {
  for (refused = 1;; refused++) {
    long was = blocks;
    memcpy(before, state, length);
    asked = 0;
    is_calling = true;
    int32_t told = call();
    is_calling = false;
    if (blocks != was) return wrong(name, "something stays allocated");
    if (asked < refused) return told != TAKVORN_DONE && wrong(name, "it isn't done");
    if (told != TAKVORN_NO_MEMORY) return wrong(name, "another status");
    if (memcmp(before, state, length)) return wrong(name, "another state");
  }
}

int main(void) {
  int failed = 0;
  length = takvorn_terminal_size(24, 80, 24, 80, false);
  for (size_t i = 0; i < sizeof calls / sizeof calls[0]; i++) failed |= each(calls[i].name, calls[i].call);
  return failed;
}
