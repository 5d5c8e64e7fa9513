/* Checks the screen that records leave at a terminal of a layout's sizes, so that golden cases of `check` can be compared: terminal_check RECORDS LAYOUT
 * yes|no prints what takvorn_terminal_check leaves, with `yes` the demos too, and ends with its status; with 9 where a record isn't shown. */
#include "case_files.h"
#include "takvorn.h"

int main(int count, char **words) {
  static uint8_t record[ROOM], out[ROOM];
  if (count != 4) return NOT_TAKEN;
  size_t records_length, layout_length, needed;
  char *records = contents(words[1], &records_length), *layout = contents(words[2], &layout_length);
  take_layout_sizes(layout);
  size_t length = takvorn_terminal_size((uint16_t)sizes[0], (uint16_t)sizes[1], (uint16_t)sizes[2], (uint16_t)sizes[3], wide);
  uint8_t *state = malloc(length + 1);
  if (!state || takvorn_terminal_new((uint16_t)sizes[0], (uint16_t)sizes[1], (uint16_t)sizes[2], (uint16_t)sizes[3], wide, state, length)) return NOT_TAKEN;
  for (char *line = strtok(records, "\n"); line; line = strtok(NULL, "\n")) {
    takvorn_effect effect;
    line += strspn(line, " \t\r");
    if (!*line || *line == '#') continue;
    if (takvorn_terminal_apply(state, length, record, bytes_of(line, record), &effect) || effect.kind != TAKVORN_SHOWN) return NOT_TAKEN;
  }
  int32_t status = takvorn_terminal_check(state, length, (const uint8_t *)layout, layout_length, *words[3] == 'y', out, sizeof out, &needed);
  fwrite(out, 1, needed, stdout);
  free(records);
  free(layout);
  free(state);
  return status;
}
