// What the files of this folder share. Each has a function `run` without parameters, which a build for wasm32 exports and a native build prints.
// ROUNDS says how much it does. What it gives is 0 where what it made is not what it has to be.
typedef unsigned char u8;
typedef unsigned int u32;
typedef unsigned long long u64;

u32 run(void);

// The next of a row of numbers of 24 bits that look like chance.
static inline u32 next(u32 *seed) {
  *seed = *seed * 1664525 + 1013904223;
  return *seed >> 8;
}

#ifdef NATIVE
int printf(const char *, ...);
int main(void) { return printf("%u\n", run()) < 0; }
#endif
