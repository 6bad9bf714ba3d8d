// Refuses one request for memory of a program. Built by `gcc -shared -fPIC` and set as LD_PRELOAD.
//
// Requests are counted from the program's first write to standard output to its second, or, where
// REFUSE_ALL is set, from its start to its end. With REFUSE=N the Nth of them is answered by null
// (with 0, or without it, none is), and how many there were goes to the file that REFUSE_COUNT names.
#include <errno.h>
#include <fcntl.h>
#include <stddef.h>
#include <stdio.h>
#include <stdlib.h>
#include <sys/syscall.h>
#include <sys/types.h>
#include <unistd.h>

void *__libc_malloc(size_t size);
void *__libc_calloc(size_t count, size_t size);
void *__libc_realloc(void *place, size_t size);
void *__libc_memalign(size_t alignment, size_t size);

static long writes = 0;
static long requests = 0;
static long refused = 0;
static int counts_all = 0;

__attribute__((constructor)) static void read_words(void) {
  const char *number = getenv("REFUSE");
  refused = number ? atol(number) : 0;
  counts_all = getenv("REFUSE_ALL") != NULL;
}

__attribute__((destructor)) static void tell_requests(void) {
  const char *name = getenv("REFUSE_COUNT");
  char text[32];
  int length = snprintf(text, sizeof text, "%ld\n", requests);
  int file = name ? open(name, O_WRONLY | O_CREAT | O_TRUNC, 0666) : -1;
  if (file >= 0) {
    syscall(SYS_write, file, text, length);
    close(file);
  }
}

// Counts a request; whether it is the one that is refused.
static int is_refused(void) {
  if ((writes != 1 && !counts_all) || ++requests != refused) {
    return 0;
  }
  errno = ENOMEM;
  return 1;
}

void *malloc(size_t size) {
  return is_refused() ? NULL : __libc_malloc(size);
}

void *calloc(size_t count, size_t size) {
  return is_refused() ? NULL : __libc_calloc(count, size);
}

void *realloc(void *place, size_t size) {
  return is_refused() ? NULL : __libc_realloc(place, size);
}

void *aligned_alloc(size_t alignment, size_t size) {
  return is_refused() ? NULL : __libc_memalign(alignment, size);
}

int posix_memalign(void **place, size_t alignment, size_t size) {
  if (is_refused()) {
    return ENOMEM;
  }
  *place = __libc_memalign(alignment, size);
  return *place ? 0 : ENOMEM;
}

ssize_t write(int file, const void *bytes, size_t count) {
  if (file == STDOUT_FILENO) {
    writes++;
  }
  return syscall(SYS_write, file, bytes, count);
}

ssize_t __write(int file, const void *bytes, size_t count) {
  return write(file, bytes, count);
}
