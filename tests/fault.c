/* Counts reads and writes, and does what FAULT says to the one of the number AT: fail, short (it moves one byte) or
   interrupt (a read is interrupted, once). Writes the count to the file COUNTED. */
#define _GNU_SOURCE
#include <dlfcn.h>
#include <errno.h>
#include <stdio.h>
#include <stdlib.h>
#include <sys/types.h>
static long count, at = -1;
static char fault;
static int now(void) {
  if (at < 0) {
    const char *number = getenv("AT"), *kind = getenv("FAULT");
    at = number ? atol(number) : 0;
    fault = kind ? *kind : 0;
  }
  return ++count == at ? fault : 0;
}
#define MOVES(NAME, BYTES, INTERRUPTED)                                                    \
  ssize_t NAME(int file, BYTES buffer, size_t size) {                           \
    static ssize_t (*real)(int, BYTES, size_t);                                 \
    if (!real) real = (ssize_t (*)(int, BYTES, size_t))dlsym(RTLD_NEXT, #NAME); \
    switch (now()) {                                                            \
      case 'f': errno = EIO; return -1;                                         \
      case INTERRUPTED: errno = EINTR; return -1;                               \
      case 's': return real(file, buffer, size ? 1 : 0);                        \
      default: return real(file, buffer, size);                                 \
    }                                                                           \
  }
MOVES(read, void *, 'i')
MOVES(write, const void *, 'n')
__attribute__((destructor)) static void tell(void) {
  long all = count;
  at = 0;
  FILE *counted = fopen(getenv("COUNTED"), "w");
  if (counted) { fprintf(counted, "%ld\n", all); fclose(counted); }
}
