/* Calls the C library for a command's words, as the program has them: answer WORDS.., with records on standard input.
 * What is first: answer: with no room, with half of it and with all; the text and the status are the program's. threads:
 * on four threads at once, again and again. With REFUSES also refused: each request for memory is refused in turn.
 * It ends with 100 where a result is wrong, which standard error tells, with 101 where the words are not of a command, and with
 * 102 where a file is missing. */
#include "takvorn.h"
#include <pthread.h>
#include <stdio.h>
#include <stdlib.h>
#include <string.h>

enum { MOST_LAYOUTS = 64, ROUNDS = 20, THREADS = 4, GUARD = 16, FILL = 0xA5 };

#ifdef REFUSES
#include "refusing.h"
#endif

/* A command's inputs: its files in their order, and standard input. */
static char *command;
static bool flag;
static const char *form = "text";
static takvorn_text files[MOST_LAYOUTS], input;
static size_t file_count;
/* Of `map` and `check --map`: the map's name, and what is asked for. */
static const char *map_name = "";
static bool is_of_map, freekb, frset;

static takvorn_text contents(FILE *file) {
  size_t room = 1 << 16, length = 0, got;
  uint8_t *bytes = malloc(room);
  while (bytes && (got = fread(bytes + length, 1, room - length, file)) > 0) {
    length += got;
    if (length == room) bytes = realloc(bytes, room *= 2);
  }
  if (!bytes) exit(100);
  takvorn_text text = {bytes, length};
  return text;
}

/* Whether an option and its value name the form of what `show` or `check` prints. */
static bool is_form(const char *option, const char *value) {
  bool is_show = !strcmp(command, "show");
  if (is_show && !strcmp(option, "--color") && !strcmp(value, "always")) return form = "color", true;
  if (!strcmp(command, "records")) return !strcmp(option, "--from") && (!strcmp(value, "trace") || !strcmp(value, "stream")) ? (form = value, true) : false;
  if (strcmp(option, "--format")) return false;
  if (!strcmp(value, "text") || (!strcmp(value, "json") && (is_show || !strcmp(command, "check")))) return form = value, true;
  return is_show && (!strcmp(value, "svg") || !strcmp(value, "html")) ? (form = value, true) : false;
}

static void take_file(const char *path) {
  FILE *file = fopen(path, "rb");
  if (!file) exit(102);
  files[file_count++] = contents(file);
  fclose(file);
}

/* Whether the words are those of `map`, or of `check --map`. */
static bool take_map_words(int count, char **words) {
  bool is_map = !strcmp(command, "map");
  const char *named = is_map ? "--map" : "--map-name", *source = NULL;
  for (int i = 1; i < count; i++) {
    if (i + 1 < count && !strcmp(words[i], named)) map_name = words[++i];
    else if (!is_map && i + 1 < count && !strcmp(words[i], "--map")) source = words[++i];
    else if (is_map && !strcmp(words[i], "--layout")) flag = true;
    else if (!strcmp(words[i], "--freekb")) freekb = true;
    else if (!strcmp(words[i], "--frset")) frset = true;
    else if (is_map && words[i][0] != '-' && !source) source = words[i];
    else return false;
  }
  if (!source) return false;
  take_file(source);
  return is_of_map = true;
}

/* Whether a word is among those of the command. */
static bool has_word(int count, char **words, const char *word) {
  for (int i = 1; i < count; i++)
    if (!strcmp(words[i], word)) return true;
  return false;
}

/* Whether the words are a command's. */
static bool take_words(int count, char **words) {
  command = count > 0 ? words[0] : "show";
  if (!strcmp(command, "map") || (!strcmp(command, "check") && has_word(count, words, "--map"))) return take_map_words(count, words);
  bool is_flagged = false;
  for (int i = 1; i < count; i++) {
    if (i + 1 < count && is_form(words[i], words[i + 1])) {
      i++;
      continue;
    }
    const char *taken = !strcmp(command, "check") ? "--demo" : !strcmp(command, "convert") ? "--back" : !strcmp(command, "bind") ? "--text" : !strcmp(command, "records") ? "--answers"
                        : !strcmp(command, "pressed") ? "--json" : "";
    if (words[i][0] == '-') {
      if (is_flagged || strcmp(words[i], taken)) return false;
      is_flagged = flag = true;
    } else {
      if (file_count == MOST_LAYOUTS) return false;
      take_file(words[i]);
    }
  }
  size_t wanted = !strcmp(command, "check") || !strcmp(command, "bind") || !strncmp(command, "press", 5) || !strcmp(command, "origins") ? 1 : 0;
  if (!strcmp(command, "talk")) return file_count > 0;
  return file_count == wanted && (wanted || !strcmp(command, "show") || !strcmp(command, "convert") || !strcmp(command, "draft") || !strcmp(command, "records"));
}

static int call(uint8_t *out, size_t room, size_t *needed) {
  const takvorn_text *f = files, *r = &input;
  const uint8_t *name = (const uint8_t *)map_name;
  size_t length = strlen(map_name);
  if (is_of_map && command[0] == 'm') return takvorn_map(f->bytes, f->length, name, length, flag, freekb, frset, out, room, needed);
  if (is_of_map) return takvorn_check_map(f->bytes, f->length, name, length, freekb, frset, out, room, needed);
  switch (command[0]) {
  case 's':
    return (*form == 's' ? takvorn_show_svg : *form == 'h' ? takvorn_show_html : *form == 'c' ? takvorn_show_colored
            : *form == 'j' ? takvorn_show_json : takvorn_show)(r->bytes, r->length, out, room, needed);
  case 'd': return takvorn_draft(r->bytes, r->length, out, room, needed);
  case 't': return takvorn_talk(files, file_count, r->bytes, r->length, out, room, needed);
  case 'o': return takvorn_origins(f->bytes, f->length, r->bytes, r->length, out, room, needed);
  case 'r': return takvorn_records(r->bytes, r->length, *form == 's', flag, out, room, needed);
  case 'p':
    if (!strcmp(command, "pressed")) return takvorn_show_pressed(r->bytes, r->length, f->bytes, f->length, flag, out, room, needed);
    return takvorn_press(r->bytes, r->length, f->bytes, f->length, out, room, needed);
  case 'b': return takvorn_bind(f->bytes, f->length, r->bytes, r->length, flag, out, room, needed);
  }
  if (!strcmp(command, "check") && *form == 'j') return takvorn_check_json(f->bytes, f->length, r->bytes, r->length, out, room, needed);
  if (!strcmp(command, "check")) return takvorn_check(f->bytes, f->length, r->bytes, r->length, flag, out, room, needed);
  return (flag ? takvorn_convert_back : takvorn_convert)(r->bytes, r->length, out, room, needed);
}

static void fail(const char *why) {
  fprintf(stderr, "%s: %s\n", command, why);
  exit(100);
}

/* The whole text and the status, from a call without room and one with all of it. */
static uint8_t *whole;
static size_t whole_length;
static int status;

static uint8_t *filled(size_t room) {
  uint8_t *out = malloc(room);
  if (!out) exit(100);
  return memset(out, FILL, room);
}

static bool is_filled(const uint8_t *from, size_t count) {
  for (size_t i = 0; i < count; i++)
    if (from[i] != FILL) return false;
  return true;
}

static void take_whole(void) {
  uint8_t none = FILL;
  size_t needed = 99;
  status = call(&none, 0, &whole_length);
  if (none != FILL) fail("wrote where there is no room");
  whole = filled(whole_length + GUARD);
  if (call(whole, whole_length, &needed) != status || needed != whole_length) fail("another status or length with room");
  if (!is_filled(whole + whole_length, GUARD)) fail("wrote past the room");
}

/* With this room: what fits, and nothing else. */
static void try_room(size_t room) {
  uint8_t *out = filled(room + GUARD);
  size_t needed = 99, fits = room < whole_length ? room : whole_length;
  if (call(out, room, &needed) != status || needed != whole_length) fail("another status or length");
  if (memcmp(out, whole, fits)) fail("another text");
  if (!is_filled(out + fits, room + GUARD - fits)) fail("the rest of the buffer didn't stay");
  free(out);
}

static void *try_again(void *none) {
  for (int i = 0; i < ROUNDS; i++) try_room(whole_length);
  return none;
}

static void try_threads(void) {
  pthread_t threads[THREADS];
  for (int i = 0; i < THREADS; i++)
    if (pthread_create(&threads[i], NULL, try_again, NULL)) fail("no thread");
  for (int i = 0; i < THREADS; i++) pthread_join(threads[i], NULL);
}

#ifdef REFUSES
static void try_refusals(void) {
  uint8_t *out = filled(whole_length + GUARD);
  long next = 1, without = 0;
  for (;; next++) {
    size_t needed = 99;
    long before = blocks;
    asked = 0;
    refused = next;
    is_calling = true;
    int told = call(out, whole_length, &needed);
    is_calling = false;
    bool met = asked >= next;
    if (blocks != before) fail("something stays allocated");
    if (!met) break;
    /* Where a word of a source is collected, room for it is asked for first, and done without where it is refused. */
    if (is_of_map && told == status && needed == whole_length && !memcmp(out, whole, whole_length)) {
      memset(out, FILL, whole_length);
      without++;
      continue;
    }
    if (told != TAKVORN_NO_MEMORY) fail("a request was refused, and the status isn't 4");
    if (needed != 0 || !is_filled(out, whole_length + GUARD)) fail("a request was refused, and something is told");
  }
  if (memcmp(out, whole, whole_length)) fail("another text after refusals");
  printf("%ld requests refused", next - 1);
  if (without > 0) printf(", %ld of them done without", without);
  printf("\n");
}
#endif

int main(int count, char **words) {
  if (count < 2 || !take_words(count - 2, words + 2)) return 101;
  input = contents(stdin);
  take_whole();
  if (!strcmp(words[1], "threads")) try_threads();
#ifdef REFUSES
  if (!strcmp(words[1], "refused")) {
    try_refusals();
    return 0;
  }
#endif
  try_room(whole_length / 2);
  try_room(whole_length + 7);
  fwrite(whole, 1, whole_length, stdout);
  free(whole);
  free((void *)input.bytes);
  for (size_t i = 0; i < file_count; i++) free((void *)files[i].bytes);
  return status;
}
