// Refuses memory and threads to a program that it is loaded into (`LD_PRELOAD`): from the allocation of number REFUSE_AT on, from 1, as many as REFUSE_COUNT says. They are
// counted from the program's `main` on, in all threads together. A byte to the file that REFUSE_FD numbers tells that the first was refused.
#define _GNU_SOURCE
#include <dlfcn.h>
#include <errno.h>
#include <pthread.h>
#include <stdatomic.h>
#include <stdlib.h>
#include <unistd.h>

void *__libc_malloc(size_t), *__libc_calloc(size_t, size_t), *__libc_realloc(void *, size_t), *__libc_memalign(size_t, size_t);

static atomic_ulong asked;
static unsigned long first, last;
static int told;

static int is_refused(void) {
  if (last == 0) return 0;
  unsigned long number = atomic_fetch_add(&asked, 1) + 1;
  if (number < first || number > last) return 0;
  if (number == first && write(told, "x", 1) != 1) _exit(99);
  errno = ENOMEM;
  return 1;
}

void *malloc(size_t size) { return is_refused() ? NULL : __libc_malloc(size); }
void *calloc(size_t count, size_t size) { return is_refused() ? NULL : __libc_calloc(count, size); }
void *realloc(void *block, size_t size) { return is_refused() ? NULL : __libc_realloc(block, size); }
void *memalign(size_t to, size_t size) { return is_refused() ? NULL : __libc_memalign(to, size); }
void *aligned_alloc(size_t to, size_t size) { return is_refused() ? NULL : __libc_memalign(to, size); }

int posix_memalign(void **block, size_t to, size_t size) {
  void *made = is_refused() ? NULL : __libc_memalign(to, size);
  if (made == NULL) return ENOMEM;
  *block = made;
  return 0;
}

int pthread_create(pthread_t *thread, const pthread_attr_t *how, void *(*run)(void *), void *with) {
  static int (*create)(pthread_t *, const pthread_attr_t *, void *(*)(void *), void *);
  if (create == NULL) create = (int (*)(pthread_t *, const pthread_attr_t *, void *(*)(void *), void *))dlsym(RTLD_NEXT, "pthread_create");
  return is_refused() ? EAGAIN : create(thread, how, run, with);
}

static int (*program)(int, char **, char **);

static int counted(int count, char **words, char **environment) {
  const char *at = getenv("REFUSE_AT"), *many = getenv("REFUSE_COUNT"), *file = getenv("REFUSE_FD");
  if (at != NULL && many != NULL && file != NULL) {
    told = atoi(file);
    first = strtoul(at, NULL, 10);
    last = first + strtoul(many, NULL, 10) - 1;
  }
  return program(count, words, environment);
}

int __libc_start_main(int (*main)(int, char **, char **), int count, char **words, void (*init)(void), void (*fini)(void), void (*end)(void), void *stack) {
  int (*start)(int (*)(int, char **, char **), int, char **, void (*)(void), void (*)(void), void (*)(void), void *);
  start = (int (*)(int (*)(int, char **, char **), int, char **, void (*)(void), void (*)(void), void (*)(void), void *))dlsym(RTLD_NEXT, "__libc_start_main");
  program = main;
  return start(counted, count, words, init, fini, end, stack);
}
