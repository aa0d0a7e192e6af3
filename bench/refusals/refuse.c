// A library to be loaded before the C library. It refuses the allocation of the number REFUSE, counted from 1, and with
// FROM=1 all behind it too. Where the program ends it writes a line `STATUS LEFT`, how it ended and how many blocks
// were not given back, and runs the program once more, in the same process, on the same words and input, with all
// memory that it asks for.
#define _GNU_SOURCE
#include <dlfcn.h>
#include <errno.h>
#include <stdatomic.h>
#include <stdint.h>
#include <stdio.h>
#include <stdlib.h>
#include <unistd.h>

extern void *__libc_malloc(size_t);
extern void *__libc_realloc(void *, size_t);
extern void __libc_free(void *);

// Stands before each block that malloc gave, and before none that calloc gave, which the C library calls for itself.
struct mark {
  uint64_t magic;
  uint64_t size;
};
static const uint64_t magic = 0x5bd1e9955bd1e995;

static _Atomic long seen, left;
static _Atomic int again;
static int (*program)(int, char **, char **);
static int words;
static char **word, **environment;

static int is_refused(void) {
  static _Atomic long nth = -1;
  static _Atomic int from;
  if (nth < 0) {
    const char *text = getenv("REFUSE");
    from = getenv("FROM") != 0;
    nth = text ? atol(text) : 0;
  }
  if (again || nth == 0) return 0;
  long number = atomic_fetch_add(&seen, 1) + 1;
  return number == nth || (from && number > nth);
}

static void *marked(struct mark *mark, size_t size) {
  if (!mark) return 0;
  mark->magic = magic;
  mark->size = size;
  return mark + 1;
}

void *malloc(size_t size) {
  if (is_refused()) {
    errno = ENOMEM;
    return 0;
  }
  void *block = marked(__libc_malloc(size + sizeof(struct mark)), size);
  if (block) left++;
  return block;
}

void free(void *block) {
  struct mark *mark = (struct mark *)block - 1;
  if (!block) return;
  if (mark->magic != magic) {
    __libc_free(block);
    return;
  }
  mark->magic = 0;
  left--;
  __libc_free(mark);
}

void *realloc(void *block, size_t size) {
  struct mark *mark = (struct mark *)block - 1;
  if (!block) return malloc(size);
  if (is_refused()) {
    errno = ENOMEM;
    return 0;
  }
  if (mark->magic != magic) return __libc_realloc(block, size);
  return marked(__libc_realloc(mark, size + sizeof(struct mark)), size);
}

// The program ends by this call, once all that it made is given back.
void _exit(int status) {
  void (*real_exit)(int) = dlsym(RTLD_NEXT, "_exit");
  if (!again) {
    char line[64];
    int length = snprintf(line, sizeof line, "%d %ld\n", status, (long)left);
    again = 1;
    if (write(1, line, length) == length && lseek(0, 0, SEEK_SET) == 0) status = program(words, word, environment);
  }
  real_exit(status);
  __builtin_unreachable();
}

int __libc_start_main(int (*main)(int, char **, char **), int argc, char **argv, void (*init)(void), void (*fini)(void),
                      void (*rtld_fini)(void), void *stack_end) {
  int (*real_start)(int (*)(int, char **, char **), int, char **, void (*)(void), void (*)(void), void (*)(void), void *) =
      dlsym(RTLD_NEXT, "__libc_start_main");
  program = main;
  words = argc;
  word = argv;
  environment = argv + argc + 1;
  return real_start(main, argc, argv, init, fini, rtld_fini, stack_end);
}
