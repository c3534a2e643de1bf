// Parsing: a text of lists, objects, strings, numbers and words, in the manner of JSON, is written into memory and read by descent; and
// sums and products are written and worked out.
#include "bench.h"

enum { SIZE = 32768, MARGIN = 4096 };

static char text[SIZE + MARGIN];
static u32 end, at;
static u32 seed;

static void put(char c) { text[end++] = c; }

static void put_word(const char *word) {
  while (*word) put(*word++);
}

static void put_number(u32 n) {
  if (n > 9) put_number(n / 10);
  put('0' + n % 10);
}

static void put_value(u32 depth) {
  u32 kind = next(&seed) % (depth < 6 ? 9 : 6);
  u32 count = next(&seed) % 5 + 1;
  switch (kind) {
    case 0: put_word("true"); break;
    case 1: put_word("null"); break;
    case 2: put('-');  // and a number
    case 3: put_number(next(&seed) % 1000000); break;
    case 4:
    case 5:
      put('"');
      for (u32 i = 0; i < 3 * count; i++) {
        if (next(&seed) % 16 == 0) put('\\');
        put('a' + next(&seed) % 26);
      }
      put('"');
      break;
    case 6:
      put('[');
      for (u32 i = 0; i < count && end < SIZE; i++) {
        if (i) put_word(", ");
        put_value(depth + 1);
      }
      put(']');
      break;
    default:
      put('{');
      for (u32 i = 0; i < count && end < SIZE; i++) {
        if (i) put_word(",\n ");
        put_word("\"key");
        put_number(i);
        put_word("\": ");
        put_value(depth + 1);
      }
      put('}');
  }
}

static u32 mixed(u32 a, u32 b) { return (a ^ b) * 16777619u; }

static void skip_space(void) {
  while (text[at] == ' ' || text[at] == '\n') at++;
}

static u32 value(void);

static u32 string(void) {
  u32 hash = 1;
  for (at++; text[at] != '"'; at++) {
    if (text[at] == '\\') at++;
    hash = mixed(hash, text[at]);
  }
  at++;
  return hash;
}

static u32 number(void) {
  u32 n = 0;
  for (; text[at] >= '0' && text[at] <= '9'; at++) n = 10 * n + (text[at] - '0');
  return n;
}

static u32 items(char close, u32 hash) {
  at++;
  for (;;) {
    skip_space();
    if (text[at] == close) break;
    if (text[at] == ',') {
      at++;
      continue;
    }
    if (close == '}') {
      hash = mixed(hash, string());
      if (text[at] == ':') at++;
    }
    hash = mixed(hash, value());
  }
  at++;
  return hash;
}

static u32 value(void) {
  skip_space();
  switch (text[at]) {
    case '[': return items(']', 2);
    case '{': return items('}', 3);
    case '"': return string();
    case 't': at += 4; return 4;
    case 'n': at += 4; return 5;
    case '-': at++; return -number();
    case '0': case '1': case '2': case '3': case '4': case '5': case '6': case '7': case '8': case '9': return number();
    default: at++; return 6;
  }
}

static void put_sum(u32 depth) {
  for (u32 i = next(&seed) % 4 + 1; i-- > 0;) {
    if (depth < 5 && next(&seed) % 3 == 0) {
      put('(');
      put_sum(depth + 1);
      put(')');
    } else {
      put_number(next(&seed) % 1000);
    }
    if (i) put("+-*"[next(&seed) % 3]);
  }
}

static u32 sum_of(void);

static u32 factor(void) {
  if (text[at] != '(') return number();
  at++;
  u32 inner = sum_of();
  at++;
  return inner;
}

static u32 product(void) {
  u32 left = factor();
  while (text[at] == '*') {
    at++;
    left *= factor();
  }
  return left;
}

static u32 sum_of(void) {
  u32 left = product();
  while (text[at] == '+' || text[at] == '-') {
    if (text[at++] == '+') left += product(); else left -= product();
  }
  return left;
}

u32 run(void) {
  u32 hash = 1;
  seed = 1;
  for (u32 round = 0; round < ROUNDS; round++) {
    for (end = 0; end < SIZE;) put_value(0), put(' ');
    text[end] = 0;
    for (at = 0; at < end;) hash = mixed(hash, value()), skip_space();
    for (end = 0; end < SIZE;) put_sum(0), put(';');
    for (at = 0; at < end; at++) hash = mixed(hash, sum_of());
  }
  return hash;
}
