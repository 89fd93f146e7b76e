/* What check/alloc.sh and check/outside.sh put under a program, by LD_PRELOAD: something outside it refuses a call.
   Calls are counted from 1, from the start of `main` on; what comes before is the C library's own.
   REFUSE_ALLOC=N   the Nth of malloc, calloc, realloc, aligned_alloc and posix_memalign together gives no memory
   REFUSE_READ=N    the Nth read from standard input fails
   REFUSE_WRITE=N   the Nth write to standard output fails
   REFUSE_ROOM=N    standard output takes N bytes in all, and fails then
   REFUSE_TELL=FD   at the end the descriptor is told how many of each there were, and 1 if one was refused, else 0 */
#define _GNU_SOURCE
#include <dlfcn.h>
#include <errno.h>
#include <stdio.h>
#include <stdlib.h>
#include <sys/uio.h>
#include <unistd.h>

void *__libc_malloc(size_t);
void *__libc_calloc(size_t, size_t);
void *__libc_realloc(void *, size_t);
void *__libc_memalign(size_t, size_t);
ssize_t __read(int, void *, size_t);
ssize_t __write(int, const void *, size_t);

struct calls {
  const char *name;
  unsigned long made, number;
};

typedef int (*main_function)(int, char **, char **);
typedef void (*hook)(void);

static struct calls allocs = {"REFUSE_ALLOC", 0, 0}, reads = {"REFUSE_READ", 0, 0}, writes = {"REFUSE_WRITE", 0, 0};
static unsigned long room;
static int started, refused, has_room, told;
static main_function main_of_program;

static int refuse(int reason) {
  refused = 1;
  errno = reason;
  return 1;
}

static int is_refused(struct calls *calls, int reason) {
  return started && ++calls->made == calls->number && refuse(reason);
}

static unsigned long number_in(const char *name) {
  const char *text = getenv(name);
  return text ? strtoul(text, NULL, 10) : 0;
}

static void tell(void) {
  started = 0;
  if (told)
    dprintf(told, "%lu %lu %lu %d\n", allocs.made, reads.made, writes.made, refused);
}

static int counted_main(int count, char **words, char **environment) {
  allocs.number = number_in(allocs.name);
  reads.number = number_in(reads.name);
  writes.number = number_in(writes.name);
  has_room = getenv("REFUSE_ROOM") != NULL;
  room = number_in("REFUSE_ROOM");
  told = (int)number_in("REFUSE_TELL");
  atexit(tell);
  started = 1;
  int status = main_of_program(count, words, environment);
  started = 0;
  return status;
}

int __libc_start_main(main_function main, int count, char **words, hook init, hook fini, hook linker_fini,
                      void *stack) {
  int (*start)(main_function, int, char **, hook, hook, hook, void *);
  *(void **)&start = dlsym(RTLD_NEXT, "__libc_start_main");
  main_of_program = main;
  return start(counted_main, count, words, init, fini, linker_fini, stack);
}

void *malloc(size_t size) { return is_refused(&allocs, ENOMEM) ? NULL : __libc_malloc(size); }

void *calloc(size_t count, size_t size) { return is_refused(&allocs, ENOMEM) ? NULL : __libc_calloc(count, size); }

void *realloc(void *old, size_t size) { return is_refused(&allocs, ENOMEM) ? NULL : __libc_realloc(old, size); }

void *aligned_alloc(size_t align, size_t size) {
  return is_refused(&allocs, ENOMEM) ? NULL : __libc_memalign(align, size);
}

int posix_memalign(void **place, size_t align, size_t size) {
  if (is_refused(&allocs, ENOMEM))
    return ENOMEM;
  *place = __libc_memalign(align, size);
  return *place ? 0 : ENOMEM;
}

ssize_t read(int from, void *buffer, size_t size) {
  return from == STDIN_FILENO && is_refused(&reads, EIO) ? -1 : __read(from, buffer, size);
}

ssize_t write(int to, const void *buffer, size_t size) {
  if (started && to == STDOUT_FILENO) {
    if (is_refused(&writes, EIO))
      return -1;
    if (has_room && size > room && (size = room) == 0 && refuse(ENOSPC))
      return -1;
    room -= has_room ? size : 0;
  }
  return __write(to, buffer, size);
}

/* One part after the other, so that each is counted and takes of the room. */
ssize_t writev(int to, const struct iovec *parts, int count) {
  ssize_t all = 0;
  for (int i = 0; i < count; i++) {
    ssize_t taken = write(to, parts[i].iov_base, parts[i].iov_len);
    if (taken < 0)
      return all ? all : -1;
    all += taken;
    if ((size_t)taken < parts[i].iov_len)
      break;
  }
  return all;
}
