// In place of the header of csmith: a program that it made, for wasm32 and without a C library, gives its checksum as what the export `run` returns.
// safe_math.h is csmith's own (Debian's libcsmith-dev); memcpy and the like are those of the kit.
#include <float.h>
#include <limits.h>
#include <stdint.h>
#include "../../kit/c/foshqarel.h"

#define STATIC static
#define UNDEFINED(value) (value)
#define LOG_INDEX
#define LOG_EXEC
#define FUNC_NAME(name) (safe_##name)
#include <safe_math.h>

static uint32_t crc32_tab[256];
static uint32_t crc32_context = UINT32_MAX;
static uint32_t checksum;

static void crc32_gentab(void) {
  for (uint32_t at = 0; at < 256; at++) {
    crc32_tab[at] = at;
    for (int bit = 0; bit < 8; bit++) crc32_tab[at] = crc32_tab[at] >> 1 ^ (crc32_tab[at] & 1 ? 0xEDB88320 : 0);
  }
}

static void crc32_byte(uint8_t byte) { crc32_context = crc32_context >> 8 ^ crc32_tab[(crc32_context ^ byte) & 0xFF]; }

static void transparent_crc(uint64_t value, char *name, int flag) {
  for (int at = 0; at < 64; at += 8) crc32_byte(value >> at & 0xFF);
}

static void transparent_crc_bytes(char *bytes, int count, char *name, int flag) {
  for (int at = 0; at < count; at++) crc32_byte(bytes[at]);
}

static void platform_main_begin(void) {}
static void platform_main_end(uint32_t crc, int flag) { checksum = crc; }
static int printf(const char *format, ...) { return 0; }

#define main program
int program(void);
EXPORT(u32, run, void) {
  program();
  return checksum;
}
