/* Refuses what a program asks the system for, so that it can be seen what it does then. Loaded before the C library by
   LD_PRELOAD. The environment says what is refused; numbers count from 1, and what is not said is not refused.

   REFUSED_MEMORY  the allocation of that number, and all behind it where AND_ALL_BEHIND is set
   REFUSED_THREAD  the thread of that number, after a twentieth of a second, in which the threads before it may run
   HELD_THREAD     the thread of that number is started fifteen seconds late, in which the threads before it wait
   REFUSED_WRITE   that write on standard output, with the error number WRITE_ERROR (no room, where there is none)
   REFUSED_FAULTS  that write on standard error
   SHORT_WRITES    a write on standard output takes no more than so many bytes
   FULL_AT         standard output has room for so many bytes in all
   HELD_WRITE      for how many seconds the first write on standard output is held
   REFUSED_READ    that read of standard input, with the error number READ_ERROR
   TOLD            an open file, to which goes a line for each refusal and each write, in their order, and, where
                   allocations are counted, one for each thread that is started, with how many there were before */
#define _GNU_SOURCE
#include <dlfcn.h>
#include <errno.h>
#include <limits.h>
#include <pthread.h>
#include <stdatomic.h>
#include <stddef.h>
#include <stdio.h>
#include <stdlib.h>
#include <string.h>
#include <sys/mman.h>
#include <sys/syscall.h>
#include <unistd.h>

extern void *__libc_malloc(size_t size);
extern void *__libc_calloc(size_t count, size_t size);
extern void *__libc_realloc(void *memory, size_t size);
extern void *__libc_memalign(size_t alignment, size_t size);

typedef int start_thread(pthread_t *, const pthread_attr_t *, void *(*)(void *), void *);

static start_thread *real_pthread_create;
static long refused_memory, refused_thread, held_thread, refused_write, refused_read;
static long short_writes, full_at, held_write, write_error, read_error, refused_faults, told;
static int all_behind;
static atomic_long allocations, threads, writes, reads, faults, written;
/* Whether this thread is starting another one, which takes memory of its own. */
static __thread int starts __attribute__((tls_model("initial-exec")));

static long number(const char *name, long otherwise) {
  const char *text = getenv(name);
  return text ? atol(text) : otherwise;
}

__attribute__((constructor)) static void read_environment(void) {
  real_pthread_create = (start_thread *)dlsym(RTLD_NEXT, "pthread_create");
  refused_thread = number("REFUSED_THREAD", 0);
  held_thread = number("HELD_THREAD", 0);
  refused_write = number("REFUSED_WRITE", 0);
  refused_read = number("REFUSED_READ", 0);
  refused_faults = number("REFUSED_FAULTS", 0);
  short_writes = number("SHORT_WRITES", LONG_MAX);
  full_at = number("FULL_AT", LONG_MAX);
  held_write = number("HELD_WRITE", 0);
  write_error = number("WRITE_ERROR", ENOSPC);
  read_error = number("READ_ERROR", EIO);
  told = number("TOLD", -1);
  all_behind = getenv("AND_ALL_BEHIND") != NULL;
  refused_memory = number("REFUSED_MEMORY", 0);
}

static void tell(const char *what, long first, long second) {
  char line[80];
  if (told >= 0)
    syscall(SYS_write, told, line, snprintf(line, sizeof line, "%s %ld %ld\n", what, first, second));
}

static int refuses(void) {
  if (refused_memory == 0)
    return 0;
  long at = atomic_fetch_add(&allocations, 1) + 1;
  if (at != refused_memory && !(all_behind && at > refused_memory))
    return 0;
  tell(starts ? "memory_of_thread" : "memory", at, 0);
  errno = ENOMEM;
  return 1;
}

void *malloc(size_t size) { return refuses() ? NULL : __libc_malloc(size); }

void *calloc(size_t count, size_t size) { return refuses() ? NULL : __libc_calloc(count, size); }

void *realloc(void *memory, size_t size) { return refuses() ? NULL : __libc_realloc(memory, size); }

void *aligned_alloc(size_t alignment, size_t size) { return refuses() ? NULL : __libc_memalign(alignment, size); }

int posix_memalign(void **memory, size_t alignment, size_t size) {
  void *found = refuses() ? NULL : __libc_memalign(alignment, size);
  if (found == NULL)
    return ENOMEM;
  *memory = found;
  return 0;
}

void *mmap(void *at, size_t size, int rights, int flags, int file, off_t offset) {
  return refuses() ? MAP_FAILED : (void *)syscall(SYS_mmap, at, size, rights, flags, file, offset);
}

int pthread_create(pthread_t *thread, const pthread_attr_t *attributes, void *(*body)(void *), void *argument) {
  long at = atomic_fetch_add(&threads, 1) + 1;
  if (at == refused_thread) {
    usleep(50000);
    tell("thread", at, 0);
    return EAGAIN;
  }
  if (at == held_thread)
    sleep(15);
  if (refused_memory != 0)
    tell("starts", at, atomic_load(&allocations));
  starts = 1;
  int result = real_pthread_create(thread, attributes, body, argument);
  starts = 0;
  return result;
}

/* How many bytes of the output are taken now: none where it is full. */
static size_t taken_of(size_t count) {
  long room = full_at - written;
  long most = short_writes < room ? short_writes : room;
  return count < (size_t)most ? count : (size_t)most;
}

static ssize_t write_output(const void *bytes, size_t count) {
  long at = atomic_fetch_add(&writes, 1) + 1;
  if (at == 1 && held_write > 0)
    sleep(held_write);
  size_t taken = taken_of(count);
  if (at == refused_write || (taken == 0 && count > 0)) {
    errno = write_error;
    return -1;
  }
  long result = syscall(SYS_write, STDOUT_FILENO, bytes, taken);
  if (result > 0)
    written += result;
  return result;
}

static ssize_t write_faults(const void *bytes, size_t count) {
  if (atomic_fetch_add(&faults, 1) + 1 != refused_faults)
    return syscall(SYS_write, STDERR_FILENO, bytes, count);
  errno = ENOSPC;
  return -1;
}

ssize_t write(int file, const void *bytes, size_t count) {
  if (file != STDOUT_FILENO && file != STDERR_FILENO)
    return syscall(SYS_write, file, bytes, count);
  ssize_t result = file == STDOUT_FILENO ? write_output(bytes, count) : write_faults(bytes, count);
  int error = errno;
  tell(file == STDOUT_FILENO ? "output" : "faults", result, (long)count);
  errno = error;
  return result;
}

ssize_t read(int file, void *bytes, size_t count) {
  if (file == STDIN_FILENO && atomic_fetch_add(&reads, 1) + 1 == refused_read) {
    errno = read_error;
    return -1;
  }
  return syscall(SYS_read, file, bytes, count);
}
