// Compression: a text of words, 32 kilobytes, is packed by the longest match that a table of hashed places leads to, unpacked again, and compared.
#include "bench.h"

enum { SIZE = 32768, PLACES = 4096, LEAST = 4, MOST = 255 + LEAST, LOOKS = 8 };

static u8 text[SIZE], packed[2 * SIZE], again[SIZE];
static u32 newest[PLACES], older[SIZE];

// Words of two to nine letters, of which a few come often.
static void write_text(u32 seed) {
  u32 at = 0;
  while (at < SIZE) {
    u32 words = next(&seed) % 400 + 1, word = next(&seed) % words;
    u32 letters = word * 7 % 8 + 2;
    for (u32 i = 0; i < letters && at < SIZE; i++) text[at++] = 'a' + (word * 31 + i * i * 17) % 26;
    if (at < SIZE) text[at++] = ' ';
  }
}

static u32 place_of(const u8 *from) {
  u32 four = from[0] | from[1] << 8 | from[2] << 16 | (u32)from[3] << 24;
  return four * 2654435761u >> 20;
}

// A flag stands for eight items: a byte as it is, or a match by its length less LEAST and the two bytes of its distance.
static u32 pack(void) {
  u32 at = 0, out = 0, flags = 0, items = 8;
  for (u32 i = 0; i < PLACES; i++) newest[i] = SIZE;
  while (at < SIZE) {
    if (items == 8) {
      flags = out++;
      packed[flags] = 0;
      items = 0;
    }
    u32 length = 0, distance = 0;
    if (at + LEAST <= SIZE) {
      u32 place = place_of(text + at), from = newest[place];
      for (u32 looks = 0; from < SIZE && looks < LOOKS; looks++, from = older[from]) {
        u32 same = 0;
        while (same < MOST && at + same < SIZE && text[from + same] == text[at + same]) same++;
        if (same > length) length = same, distance = at - from;
      }
    }
    u32 end = at + 1;
    if (length >= LEAST) {
      packed[flags] |= 1 << items;
      packed[out++] = length - LEAST;
      packed[out++] = distance & 255;
      packed[out++] = distance >> 8;
      end = at + length;
    } else {
      packed[out++] = text[at];
    }
    items++;
    for (; at < end; at++) {
      if (at + LEAST > SIZE) continue;
      u32 place = place_of(text + at);
      older[at] = newest[place];
      newest[place] = at;
    }
  }
  return out;
}

static u32 unpack(u32 size) {
  u32 at = 0, out = 0;
  while (at < size) {
    u32 flags = packed[at++];
    for (u32 item = 0; item < 8 && at < size; item++, flags >>= 1) {
      if (flags & 1) {
        u32 length = packed[at] + LEAST, from = out - (packed[at + 1] | packed[at + 2] << 8);
        at += 3;
        while (length--) again[out++] = again[from++];
      } else {
        again[out++] = packed[at++];
      }
    }
  }
  return out;
}

u32 run(void) {
  u32 sum = 1;
  for (u32 round = 0; round < ROUNDS; round++) {
    write_text(round + 1);
    u32 size = pack();
    if (unpack(size) != SIZE) return 0;
    for (u32 i = 0; i < SIZE; i++) {
      if (text[i] != again[i]) return 0;
    }
    for (u32 i = 0; i < size; i++) sum = (sum ^ packed[i]) * 16777619u;
  }
  return sum;
}
