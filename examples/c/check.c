/* Checks records against a layout: check LAYOUT RECORDS. It prints `yes` or the findings, and ends with the status. */
#include "takvorn.h"
#include <stdio.h>
#include <stdlib.h>

/* All bytes of a file; never null, as no pointer to the library is. */
static takvorn_text contents(const char *name) {
  takvorn_text text = {NULL, 0};
  FILE *file = fopen(name, "rb");
  uint8_t *bytes = malloc(TAKVORN_MOST_BYTES + 1);
  if (!file || !bytes) {
    perror(name);
    exit(3);
  }
  text.length = fread(bytes, 1, TAKVORN_MOST_BYTES + 1, file);
  text.bytes = bytes;
  fclose(file);
  return text;
}

int main(int count, char **words) {
  if (count != 3) return 2;
  takvorn_text layout = contents(words[1]), records = contents(words[2]);
  size_t room = 4096, needed;
  uint8_t *out = malloc(room);
  if (!out) return TAKVORN_NO_MEMORY;
  int status = takvorn_check(layout.bytes, layout.length, records.bytes, records.length, true, out, room, &needed);
  if (needed > room) { /* the text didn't fit: once more, with room for all of it */
    free(out);
    out = malloc(room = needed);
    if (!out) return TAKVORN_NO_MEMORY;
    status = takvorn_check(layout.bytes, layout.length, records.bytes, records.length, true, out, room, &needed);
  }
  fwrite(out, 1, needed, stdout);
  free(out);
  free((void *)layout.bytes);
  free((void *)records.bytes);
  return status;
}
