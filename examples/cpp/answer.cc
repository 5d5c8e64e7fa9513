// Presses keys on a screen and prints what each did and what the terminal sends: answer RECORDS KEYS. An emulator compares the bytes
// with those that it sends itself. It ends with the status.
#include "takvorn.h"
#include <fstream>
#include <iostream>
#include <iterator>
#include <string>

static std::string contents(const char *name) {
  std::ifstream file(name, std::ios::binary);
  return {std::istreambuf_iterator<char>(file), {}};
}

// Never null, as no pointer to the library is.
static const uint8_t *bytes(const std::string &text) { return reinterpret_cast<const uint8_t *>(text.data()); }

int main(int count, char **words) {
  if (count != 3) return 2;
  const std::string records = contents(words[1]), keys = contents(words[2]);
  std::string out;
  size_t needed = 4096;
  int status;
  do { // once more where the text didn't fit, with room for all of it
    out.resize(needed);
    status = takvorn_press(bytes(records), records.size(), bytes(keys), keys.size(), reinterpret_cast<uint8_t *>(&out[0]), out.size(),
                           &needed);
  } while (needed > out.size());
  out.resize(needed);
  std::cout << out;
  return status;
}
