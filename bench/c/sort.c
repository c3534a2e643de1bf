// Sorting: 4,096 numbers by quicksort, the same by a heap, and as many records by merging; then each number is searched by halving.
#include "bench.h"

enum { COUNT = 4096, FEW = 12 };

struct record {
  u64 key;
  u32 number;
};

static u32 numbers[COUNT], heap[COUNT];
static struct record records[COUNT], spare[COUNT];

static void swap(u32 *a, u32 *b) {
  u32 was = *a;
  *a = *b;
  *b = was;
}

static void quicksort(u32 *from, u32 count) {
  while (count > FEW) {
    if (from[count / 2] < from[0]) swap(from, from + count / 2);
    if (from[count - 1] < from[0]) swap(from, from + count - 1);
    if (from[count - 1] < from[count / 2]) swap(from + count / 2, from + count - 1);
    u32 middle = from[count / 2], low = 0, high = count - 1;
    for (;;) {
      while (from[low] < middle) low++;
      while (from[high] > middle) high--;
      if (low >= high) break;
      swap(from + low++, from + high--);
    }
    // the smaller part first, so that calls stand at most 12 deep in one another
    u32 left = high + 1;
    if (left < count - left) {
      quicksort(from, left);
      from += left, count -= left;
    } else {
      quicksort(from + left, count - left);
      count = left;
    }
  }
  for (u32 i = 1; i < count; i++) {
    u32 x = from[i], at = i;
    for (; at > 0 && from[at - 1] > x; at--) from[at] = from[at - 1];
    from[at] = x;
  }
}

static void sink(u32 at, u32 count) {
  u32 x = heap[at];
  for (u32 child; (child = 2 * at + 1) < count; at = child) {
    if (child + 1 < count && heap[child + 1] > heap[child]) child++;
    if (heap[child] <= x) break;
    heap[at] = heap[child];
  }
  heap[at] = x;
}

static void heapsort(void) {
  for (u32 at = COUNT / 2; at-- > 0;) sink(at, COUNT);
  for (u32 count = COUNT; count-- > 1;) {
    swap(heap, heap + count);
    sink(0, count);
  }
}

// By key; records of one key stay in their order.
static void mergesort(void) {
  struct record *from = records, *to = spare;
  for (u32 width = 1; width < COUNT; width *= 2) {
    for (u32 start = 0; start < COUNT; start += 2 * width) {
      u32 a = start, b = start + width, end = start + 2 * width, a_end = b;
      for (u32 at = start; at < end; at++) {
        struct record *least = b >= end || (a < a_end && from[a].key <= from[b].key) ? &from[a++] : &from[b++];
        to[at].key = least->key;
        to[at].number = least->number;
      }
    }
    struct record *was = from;
    from = to;
    to = was;
  }
}

static u32 found(u32 x) {
  u32 low = 0, high = COUNT;
  while (low < high) {
    u32 middle = (low + high) / 2;
    if (numbers[middle] < x) low = middle + 1; else high = middle;
  }
  return low;
}

u32 run(void) {
  u32 seed = 1, sum = 0;
  for (u32 round = 0; round < ROUNDS; round++) {
    for (u32 i = 0; i < COUNT; i++) {
      u32 high = next(&seed);
      numbers[i] = heap[i] = high << 8 ^ next(&seed);
      records[i].key = (u64)(next(&seed) % 5000) << 32 | 7;
      records[i].number = i;
    }
    quicksort(numbers, COUNT);
    heapsort();
    mergesort();
    // 12 passes: the records are where they began
    for (u32 i = 0; i < COUNT; i++) {
      if (numbers[i] != heap[i] || found(numbers[i]) > i) return 0;
      if (i && (records[i - 1].key > records[i].key || (records[i - 1].key == records[i].key && records[i - 1].number > records[i].number))) return 0;
      sum = (sum ^ numbers[i] ^ records[i].number) * 16777619u;
    }
  }
  return sum;
}
