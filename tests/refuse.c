/* Counts requests for memory, refuses the one of the number REFUSED, and writes the count to the file COUNTED. */
#include <stdio.h>
#include <stdlib.h>
extern void *__libc_malloc(size_t), *__libc_realloc(void *, size_t);
static long count, refused = -1;
static int refuses(void) {
  if (refused < 0) refused = getenv("REFUSED") ? atol(getenv("REFUSED")) : 0;
  return ++count == refused;
}
void *malloc(size_t size) { return refuses() ? 0 : __libc_malloc(size); }
void *realloc(void *old, size_t size) { return refuses() ? 0 : __libc_realloc(old, size); }
__attribute__((destructor)) static void tell(void) {
  long all = count;
  FILE *counted = fopen(getenv("COUNTED"), "w");
  if (counted) { fprintf(counted, "%ld\n", all); fclose(counted); }
}
