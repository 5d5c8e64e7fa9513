/* Refuses the request for memory of this number, while a call of the library is made, and counts the blocks that stand. */
#ifndef REFUSING_H
#define REFUSING_H
#include <stdbool.h>
#include <stddef.h>

extern void *__libc_malloc(size_t), *__libc_realloc(void *, size_t);
extern void __libc_free(void *);
static long asked, refused, blocks;
static bool is_calling;
static bool refuses(void) { return is_calling && ++asked == refused; }
void *malloc(size_t size) {
  void *block = refuses() ? NULL : __libc_malloc(size);
  if (block) blocks++;
  return block;
}
void *realloc(void *old, size_t size) {
  void *block = refuses() ? NULL : __libc_realloc(old, size);
  if (block && !old) blocks++;
  return block;
}
void free(void *block) {
  if (block) blocks--;
  __libc_free(block);
}
#endif
