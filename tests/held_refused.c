/* Each request for memory of each call on a terminal that is held by a handle, and on a session, is refused in turn: the call is TAKVORN_NO_MEMORY, the
 * terminal as it was, and nothing more stays allocated. It ends with 1 where that isn't so, which standard error tells. */
#include "refusing.h"
#include "takvorn.h"
#include <stdio.h>
#include <stdlib.h>
#include <string.h>

static takvorn_held held = {NULL}, shown = {NULL};
static takvorn_session session = {NULL};
static uint8_t before[8192], after[8192], out[8192], pressed;
static takvorn_field fields[64];
static const char layout[] = "default = \"24x80\"\n";
static const uint8_t record[] = {0xF5, 0xC3, 0x1D, 0x60, 0xC1, 0x1D, 0x40, 0x13}, device[] = "IBM-3278-2-E";
static size_t length, needed;
static takvorn_effect effect;
static takvorn_status status;

static int32_t make(void) { return takvorn_held_new(24, 80, 24, 80, false, &held); }
static int32_t load(void) { return takvorn_held_load(&held, before, length); }
static int32_t apply(void) { return takvorn_held_apply(&held, record, sizeof record, &effect); }
static int32_t press(void) { return takvorn_held_press(&held, TAKVORN_TYPE, 0xC1, &pressed); }
static int32_t answer(void) { return takvorn_held_answer(&held, true, out, sizeof out, &needed); }
static int32_t buffer(void) { return takvorn_held_buffer(&held, out, sizeof out, &needed); }
static int32_t cells(void) { return takvorn_held_cells(&held, out, sizeof out, &needed); }
static int32_t field(void) { return takvorn_held_fields(&held, fields, 64, &needed); }
static int32_t save(void) { return takvorn_held_save(&held, out, sizeof out, &needed); }
/* That there are findings is no fault. */
static int32_t judge(void) {
  int32_t told = takvorn_held_check(&held, (const uint8_t *)layout, sizeof layout - 1, true, out, sizeof out, &needed);
  return told == TAKVORN_FINDINGS ? TAKVORN_DONE : told;
}
static int32_t tell(void) { return takvorn_held_status(&held, &status); }
static int32_t begin(void) { return takvorn_session_new(device, sizeof device - 1, true, true, true, &session); }
static int32_t show(void) { return takvorn_session_screen(&session, &shown); }

static const struct { const char *name; int32_t (*call)(void); } calls[] = {
  {"new", make}, {"apply", apply}, {"press", press}, {"answer", answer}, {"buffer", buffer}, {"cells", cells}, {"fields", field},
  {"check", judge}, {"status", tell}, {"save", save}, {"load", load}, {"session_new", begin}, {"session_screen", show},
};

static int wrong(const char *name, const char *what) { return fprintf(stderr, "%s: %s\n", name, what), 1; }

/* The requests of a call, each refused in turn, until none is. A terminal or a session that is made takes the place of one that was there. */
static int each(const char *name, int32_t (*call)(void)) {
  for (refused = 1;; refused++) {
    if (takvorn_held_save(&held, before, sizeof before, &length)) return wrong(name, "no state");
    long was = blocks;
    asked = 0;
    is_calling = true;
    int32_t told = call();
    is_calling = false;
    if (blocks != was) return wrong(name, "something stays allocated");
    if (asked < refused) return told != TAKVORN_DONE && wrong(name, "it isn't done");
    if (told != TAKVORN_NO_MEMORY) return wrong(name, "another status");
    if (takvorn_held_save(&held, after, sizeof after, &needed) || needed != length || memcmp(before, after, length)) return wrong(name, "another terminal");
  }
}

int main(void) {
  int failed = 0;
  long first = blocks;
  if (make() || begin() || show()) return wrong("all", "not made");
  for (size_t i = 0; i < sizeof calls / sizeof calls[0]; i++) failed |= each(calls[i].name, calls[i].call);
  takvorn_held_free(&held);
  takvorn_held_free(&shown);
  takvorn_session_free(&session);
  return failed | (blocks != first && wrong("free", "something stays allocated"));
}
