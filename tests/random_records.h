/* What the tests that draw records at random have in common: how they end where a result is wrong, and the orders of a record. */
#ifndef RANDOM_RECORDS_H
#define RANDOM_RECORDS_H
#include <stdint.h>
#include <stdio.h>
#include <stdlib.h>

static void wrong(const char *what) {
  fprintf(stderr, "wrong: %s\n", what);
  exit(1);
}

/* A generator of our own, so that a seed tells the same on each system. */
typedef struct chance { uint64_t word; } chance;
static unsigned below(chance *from, unsigned most) {
  from->word = from->word * 6364136223846793005u + 1442695040888963407u;
  return (unsigned)(from->word >> 33) % most;
}

/* Adds a WCC and random orders to a record that has so many bytes; some are refused. */
static size_t put_orders(chance *from, uint8_t *record, size_t length) {
  record[length++] = (uint8_t)below(from, 256);
  for (unsigned orders = below(from, 12); orders > 0; orders--) {
    uint8_t address = (uint8_t)below(from, 26);
    switch (below(from, 9)) {
    case 0: case 1: record[length++] = 0x1D, record[length++] = (uint8_t)below(from, 64); break;
    case 2: record[length++] = 0x11, record[length++] = 0, record[length++] = address; break;
    case 3: record[length++] = 0x13; break;
    case 4: record[length++] = 0x05; break;
    case 5: record[length++] = 0x3C, record[length++] = 0, record[length++] = address, record[length++] = 0xC5; break;
    case 6: record[length++] = 0x12, record[length++] = 0, record[length++] = address; break;
    case 7: record[length++] = 0x08, record[length++] = (uint8_t)(0x40 + below(from, 0xBF)); break;
    default:
      for (unsigned characters = 1 + below(from, 6); characters > 0; characters--) record[length++] = below(from, 4) ? (uint8_t)(0xC1 + below(from, 9)) : 0;
    }
  }
  return length;
}
#endif
