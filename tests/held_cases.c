/* Golden cases at a terminal that is held by a handle: held_cases show RECORDS prints what `show` prints of the records, held_cases press RECORDS KEYS what
 * `press` prints, held_cases check RECORDS LAYOUT yes|no what `check` prints of the screen, with `yes` its demos too; it ends with the status, and with 9
 * where the terminal takes not all of the records. */
#include "case_files.h"
#include "takvorn.h"

static takvorn_held held = {NULL};

/* The next line that says something, without its end. */
static char *next_line(char **rest) {
  while (**rest) {
    char *line = *rest;
    *rest = strchr(line, '\n') ? strchr(line, '\n') + 1 : line + strlen(line);
    line[strcspn(line, "\r\n")] = 0;
    line += strspn(line, " \t");
    if (*line && *line != '#') return line;
  }
  return NULL;
}

/* The sizes of the line `size`, if that is the first. */
static void take_sizes(const char *line) {
  int taken = sscanf(line, "size %ux%u %ux%u", &sizes[0], &sizes[1], &sizes[2], &sizes[3]);
  if (taken != 4) sizes[2] = sizes[0], sizes[3] = sizes[1];
  wide = strlen(line) > 3 && !strcmp(line + strlen(line) - 3, " 16");
}

static void hold(void) {
  if (takvorn_held_new((uint16_t)sizes[0], (uint16_t)sizes[1], (uint16_t)sizes[2], (uint16_t)sizes[3], wide, &held)) exit(NOT_TAKEN);
}

static void take_records(const char *name) {
  static uint8_t record[ROOM];
  size_t length;
  char *text = contents(name, &length), *rest = text, *line = next_line(&rest);
  if (line && !strncmp(line, "size ", 5)) take_sizes(line), line = next_line(&rest);
  hold();
  for (; line; line = next_line(&rest)) {
    takvorn_effect effect;
    if (takvorn_held_apply(&held, record, bytes_of(line, record), &effect) || effect.kind != TAKVORN_SHOWN) exit(NOT_TAKEN);
  }
  free(text);
}

/* The rows and fields of the record that lies in the state, below what the terminal keeps beside its cells. */
static int show(void) {
  static const char *const keyboards[] = {"free", "waiting", "error"};
  static uint8_t state[ROOM], out[ROOM];
  static char records[2 * ROOM];
  size_t length, needed;
  takvorn_status now;
  if (takvorn_held_status(&held, &now) || takvorn_held_save(&held, state, sizeof state, &length)) return NOT_TAKEN;
  printf("screen %ux%u cursor %u keyboard %s aid %02X\n", now.rows, now.columns, now.cursor, keyboards[now.lock], now.aid);
  size_t many = ((size_t)state[8] << 16) + ((size_t)state[9] << 8) + state[10];
  size_t at = (size_t)sprintf(records, "size %ux%u %ux%u%s\n", sizes[0], sizes[1], sizes[2], sizes[3], wide ? " 16" : "");
  for (size_t i = 0; i < many; i++) at += (size_t)sprintf(records + at, "%02X", state[11 + i]);
  int32_t status = takvorn_show((const uint8_t *)records, at, out, sizeof out, &needed);
  const uint8_t *rows = memchr(out, '\n', needed);
  if (status || !rows) return NOT_TAKEN;
  fwrite(rows + 1, 1, needed - (size_t)(rows + 1 - out), stdout);
  return 0;
}

/* The number of a key by its word, and its code. */
static uint8_t key_of(const char *word, uint8_t *code) {
  static const char *const names[] = {"left", "right", "up", "down", "tab", "backtab", "newline", "home", "eraseeof", "eraseinput", "delete", "reset"};
  static const uint8_t functions[] = {0xF1, 0xF2, 0xF3, 0xF4, 0xF5, 0xF6, 0xF7, 0xF8, 0xF9, 0x7A, 0x7B, 0x7C,
                                      0xC1, 0xC2, 0xC3, 0xC4, 0xC5, 0xC6, 0xC7, 0xC8, 0xC9, 0x4A, 0x4B, 0x4C};
  static const uint8_t attentions[] = {0x6C, 0x6E, 0x6B};
  unsigned number;
  *code = 0;
  for (uint8_t i = 0; i < 12; i++)
    if (!strcmp(word, names[i])) return (uint8_t)(i + 1);
  if (sscanf(word, "type %x", &number) == 1) return *code = (uint8_t)number, TAKVORN_TYPE;
  if (!strcmp(word, "enter")) *code = 0x7D;
  else if (!strcmp(word, "clear")) *code = 0x6D;
  else if (sscanf(word, "pf%u", &number) == 1 && number >= 1 && number <= 24) *code = functions[number - 1];
  else if (sscanf(word, "pa%u", &number) == 1 && number >= 1 && number <= 3) *code = attentions[number - 1];
  else exit(NOT_TAKEN);
  return TAKVORN_ATTENTION;
}

static int press(const char *name) {
  static const char *const did[] = {"done", "inhibited", "ignored"};
  static uint8_t out[ROOM];
  size_t length, needed;
  char *text = contents(name, &length), *rest = text;
  for (char *line = next_line(&rest); line; line = next_line(&rest)) {
    uint8_t code, key = key_of(line, &code), pressed;
    takvorn_status now;
    if (takvorn_held_press(&held, key, code, &pressed) || takvorn_held_status(&held, &now)) return NOT_TAKEN;
    if (pressed != TAKVORN_KEY_SENT) {
      printf("%s %u\n", did[pressed], now.cursor);
      continue;
    }
    if (takvorn_held_answer(&held, false, out, sizeof out, &needed)) return NOT_TAKEN;
    fputs("sent ", stdout);
    for (size_t i = 0; i < needed; i++) printf("%02X", out[i]);
    puts("");
  }
  free(text);
  return 0;
}

static int check(const char *name, bool demos) {
  static uint8_t out[ROOM];
  size_t length, needed;
  char *layout = contents(name, &length);
  int32_t status = takvorn_held_check(&held, (const uint8_t *)layout, length, demos, out, sizeof out, &needed);
  fwrite(out, 1, needed, stdout);
  free(layout);
  return status;
}

int main(int count, char **words) {
  size_t length;
  int status = NOT_TAKEN;
  if (count < 3) return NOT_TAKEN;
  if (!strcmp(words[1], "check") && count == 5) {
    char *layout = contents(words[3], &length);
    take_layout_sizes(layout);
    free(layout);
  }
  take_records(words[2]);
  if (!strcmp(words[1], "show")) status = show();
  else if (!strcmp(words[1], "press") && count == 4) status = press(words[3]);
  else if (!strcmp(words[1], "check") && count == 5) status = check(words[3], *words[4] == 'y');
  takvorn_held_free(&held);
  return status;
}
