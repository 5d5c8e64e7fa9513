/* What the programs that work golden cases at a terminal have in common: a case's files, and the sizes that its layout names. */
#ifndef CASE_FILES_H
#define CASE_FILES_H
#include <ctype.h>
#include <stdbool.h>
#include <stdint.h>
#include <stdio.h>
#include <stdlib.h>
#include <string.h>

enum { ROOM = 1 << 20, NOT_TAKEN = 9 };

static unsigned sizes[4] = {24, 80, 24, 80};
static bool wide;

static char *contents(const char *name, size_t *length) {
  FILE *file = fopen(name, "rb");
  char *text = malloc(ROOM + 1);
  if (!file || !text) exit(NOT_TAKEN);
  *length = fread(text, 1, ROOM, file);
  text[*length] = 0;
  if (fclose(file) || *length == ROOM || strlen(text) != *length) exit(NOT_TAKEN);
  return text;
}

/* The sizes of a layout, each key of which begins a line. */
static void take_layout_sizes(const char *layout) {
  for (const char *line = layout; line; line = strchr(line, '\n'), line = line ? line + 1 : NULL) {
    if (sscanf(line, "default = \"%ux%u", &sizes[0], &sizes[1]) == 2) sizes[2] = sizes[0], sizes[3] = sizes[1];
    if (!strncmp(line, "addresses = 16", 14)) wide = true;
  }
  const char *alternate = strstr(layout, "alternate = \"");
  if (alternate) sscanf(alternate, "alternate = \"%ux%u", &sizes[2], &sizes[3]);
}

static size_t bytes_of(const char *line, uint8_t *bytes) {
  size_t length = 0;
  while (*line && *line != '\r') {
    if (*line == ' ' || *line == '\t') {
      line++;
      continue;
    }
    if (!isxdigit((unsigned char)line[0]) || !isxdigit((unsigned char)line[1])) exit(NOT_TAKEN);
    char digits[] = {line[0], line[1], 0};
    bytes[length++] = (uint8_t)strtoul(digits, NULL, 16);
    line += 2;
  }
  return length;
}
#endif
