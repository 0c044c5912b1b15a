#define _GNU_SOURCE
#include <errno.h>
#include <fcntl.h>
#include <stdatomic.h>
#include <stdio.h>
#include <stdlib.h>
#include <sys/syscall.h>
#include <unistd.h>

static atomic_long count;
static long failing;

static int fails(void) {
  if (atomic_fetch_add(&count, 1) + 1 != failing) return 0;
  errno = ENOMEM;
  return 1;
}

__attribute__((constructor)) static void begin(void) {
  const char *number = getenv("FAILING");
  atomic_store(&count, 0);
  failing = number ? atol(number) : 0;
}

/* The program ends by this call, which runs no destructor. */
void _exit(int status) {
  char text[32];
  int length = snprintf(text, sizeof text, "%ld\n", atomic_load(&count));
  const char *name = getenv("COUNTED");
  int told = name ? open(name, O_WRONLY | O_CREAT | O_TRUNC, 0600) : -1;
  if (told >= 0) {
    if (write(told, text, length) != length) status = 255;
    close(told);
  }
  syscall(SYS_exit_group, status);
  __builtin_unreachable();
}

extern void *__libc_malloc(size_t);
extern void *__libc_calloc(size_t, size_t);
extern void *__libc_realloc(void *, size_t);
extern void *__libc_memalign(size_t, size_t);

void *malloc(size_t size) {
  return fails() ? NULL : __libc_malloc(size);
}

void *calloc(size_t many, size_t size) {
  return fails() ? NULL : __libc_calloc(many, size);
}

void *realloc(void *room, size_t size) {
  return fails() ? NULL : __libc_realloc(room, size);
}

void *aligned_alloc(size_t align, size_t size) {
  return fails() ? NULL : __libc_memalign(align, size);
}

int posix_memalign(void **room, size_t align, size_t size) {
  void *got = fails() ? NULL : __libc_memalign(align, size);
  if (!got) return ENOMEM;
  *room = got;
  return 0;
}
