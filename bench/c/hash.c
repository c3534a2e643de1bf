// Hashing: SHA-256 of 16 kilobytes, CRC-32 of them by a table, and a 64-bit hash by multiplication.
#include "bench.h"

enum { SIZE = 16384 };

static u8 message[SIZE + 64 + 64];
static u32 table[256];

static const u32 constants[64] = {
    0x428a2f98, 0x71374491, 0xb5c0fbcf, 0xe9b5dba5, 0x3956c25b, 0x59f111f1, 0x923f82a4, 0xab1c5ed5, 0xd807aa98, 0x12835b01, 0x243185be,
    0x550c7dc3, 0x72be5d74, 0x80deb1fe, 0x9bdc06a7, 0xc19bf174, 0xe49b69c1, 0xefbe4786, 0x0fc19dc6, 0x240ca1cc, 0x2de92c6f, 0x4a7484aa,
    0x5cb0a9dc, 0x76f988da, 0x983e5152, 0xa831c66d, 0xb00327c8, 0xbf597fc7, 0xc6e00bf3, 0xd5a79147, 0x06ca6351, 0x14292967, 0x27b70a85,
    0x2e1b2138, 0x4d2c6dfc, 0x53380d13, 0x650a7354, 0x766a0abb, 0x81c2c92e, 0x92722c85, 0xa2bfe8a1, 0xa81a664b, 0xc24b8b70, 0xc76c51a3,
    0xd192e819, 0xd6990624, 0xf40e3585, 0x106aa070, 0x19a4c116, 0x1e376c08, 0x2748774c, 0x34b0bcb5, 0x391c0cb3, 0x4ed8aa4a, 0x5b9cca4f,
    0x682e6ff3, 0x748f82ee, 0x78a5636f, 0x84c87814, 0x8cc70208, 0x90befffa, 0xa4506ceb, 0xbef9a3f7, 0xc67178f2};

static u32 turned(u32 x, u32 by) { return x >> by | x << (32 - by); }

static void take_in(u32 state[8], const u8 *block) {
  u32 words[64], a = state[0], b = state[1], c = state[2], d = state[3], e = state[4], f = state[5], g = state[6], h = state[7];
  for (u32 i = 0; i < 16; i++) words[i] = (u32)block[4 * i] << 24 | block[4 * i + 1] << 16 | block[4 * i + 2] << 8 | block[4 * i + 3];
  for (u32 i = 16; i < 64; i++) {
    u32 x = words[i - 15], y = words[i - 2];
    words[i] = words[i - 16] + (turned(x, 7) ^ turned(x, 18) ^ x >> 3) + words[i - 7] + (turned(y, 17) ^ turned(y, 19) ^ y >> 10);
  }
  for (u32 i = 0; i < 64; i++) {
    u32 first = h + (turned(e, 6) ^ turned(e, 11) ^ turned(e, 25)) + ((e & f) ^ (~e & g)) + constants[i] + words[i];
    u32 second = (turned(a, 2) ^ turned(a, 13) ^ turned(a, 22)) + ((a & b) ^ (a & c) ^ (b & c));
    h = g, g = f, f = e, e = d + first, d = c, c = b, b = a, a = first + second;
  }
  state[0] += a, state[1] += b, state[2] += c, state[3] += d, state[4] += e, state[5] += f, state[6] += g, state[7] += h;
}

// The first 32 bits of SHA-256 of the message.
static u32 sha256(void) {
  u32 state[8] = {0x6a09e667, 0xbb67ae85, 0x3c6ef372, 0xa54ff53a, 0x510e527f, 0x9b05688c, 0x1f83d9ab, 0x5be0cd19};
  message[SIZE] = 128;
  for (u32 i = SIZE + 1; i < SIZE + 64; i++) message[i] = 0;
  for (u32 i = 0; i < 4; i++) message[SIZE + 60 + i] = (u32)SIZE * 8 >> (24 - 8 * i);
  for (u32 at = 0; at < SIZE + 64; at += 64) take_in(state, message + at);
  return state[0];
}

static u32 crc32(void) {
  u32 crc = ~0u;
  for (u32 i = 0; i < SIZE; i++) crc = table[(crc ^ message[i]) & 255] ^ crc >> 8;
  return ~crc;
}

static u64 multiplied(void) {
  u64 hash = 0x9e3779b97f4a7c15u;
  for (u32 at = 0; at < SIZE; at += 8) {
    u64 word = 0;
    for (u32 i = 0; i < 8; i++) word |= (u64)message[at + i] << 8 * i;
    hash = (hash ^ word) * 0xff51afd7ed558ccdu;
    hash ^= hash >> 32;
  }
  return hash;
}

u32 run(void) {
  u32 seed = 1, sum = 0;
  for (u32 i = 0; i < 256; i++) {
    u32 crc = i;
    for (u32 bit = 0; bit < 8; bit++) crc = crc & 1 ? 0xedb88320 ^ crc >> 1 : crc >> 1;
    table[i] = crc;
  }
  for (u32 round = 0; round < ROUNDS; round++) {
    for (u32 i = 0; i < SIZE; i++) message[i] = next(&seed);
    u64 hash = multiplied();
    sum = sum * 31 + (sha256() ^ crc32() ^ (u32)hash ^ (u32)(hash >> 32));
  }
  return sum;
}
