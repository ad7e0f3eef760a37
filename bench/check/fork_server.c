/* Forks a child for each run of a program: fork_server.py says what for, and compiles it. */
#define _GNU_SOURCE
#include <dlfcn.h>
#include <errno.h>
#include <stddef.h>
#include <stdint.h>
#include <stdio.h>
#include <stdlib.h>
#include <string.h>
#include <sys/mman.h>
#include <sys/resource.h>
#include <sys/wait.h>
#include <unistd.h>

void *__libc_malloc(size_t);
void *__libc_calloc(size_t, size_t);
void *__libc_realloc(void *, size_t);
void *__libc_memalign(size_t, size_t);

/* What is asked of a run. `refused` is the number of the request that is refused, or 0; `calls` a file that it tells the calls behind it to, or 0. */
struct order { char command[16]; uint64_t bytes, seconds, refused, behind, calls; };
struct told { int64_t status, microseconds, held, met; };

static struct order order;
/* How many requests a run has met, in memory that the server shares with it. */
static uint64_t *met;

/* The calls that led here, by the frames that each keeps. */
static void tell_calls(int file) {
  void **frame = __builtin_frame_address(0);
  for (int depth = 0; frame && depth < 100; depth++) {
    Dl_info of;
    if (!dladdr(frame[1], &of)) return;
    dprintf(file, "%s %lx\n", of.dli_fname, (unsigned long)((char *)frame[1] - (char *)of.dli_fbase));
    void **above = frame[0];
    if (above <= frame || above > frame + 1000000) return;
    frame = above;
  }
}

static int is_refused(void) {
  if (!met) return 0;
  uint64_t number = ++*met;
  if (!order.refused || number < order.refused || (number > order.refused && !order.behind)) return 0;
  if (number == order.refused && order.calls) tell_calls(order.calls);
  errno = ENOMEM;
  return 1;
}

void *malloc(size_t size) { return is_refused() ? NULL : __libc_malloc(size); }
void *calloc(size_t count, size_t size) { return is_refused() ? NULL : __libc_calloc(count, size); }
void *realloc(void *old, size_t size) { return is_refused() ? NULL : __libc_realloc(old, size); }
void *aligned_alloc(size_t align, size_t size) { return is_refused() ? NULL : __libc_memalign(align, size); }
int posix_memalign(void **made, size_t align, size_t size) {
  void *p = is_refused() ? NULL : __libc_memalign(align, size);
  if (!p) return ENOMEM;
  *made = p;
  return 0;
}

static void limit(int what, rlim_t most) {
  struct rlimit both = {most, most};
  setrlimit(what, &both);
}

/* In the server it never returns; in a child it returns to `main`, with the command of the order. */
__attribute__((constructor)) static void serve(int count, char **words, char **env) {
  const char *named = getenv("FORK_SERVER");
  if (!named || count < 2) return;
  int orders = atoi(named);
  uint64_t *shared = mmap(NULL, sizeof *shared, PROT_READ | PROT_WRITE, MAP_SHARED | MAP_ANONYMOUS, -1, 0);
  (void)env;
  while (shared != MAP_FAILED && read(orders, &order, sizeof order) == sizeof order) {
    *shared = 0;
    pid_t child = fork();
    if (child == 0) {
      close(orders);
      limit(RLIMIT_CPU, order.seconds);
      limit(RLIMIT_AS, order.bytes);
      limit(RLIMIT_CORE, 0);
      strcpy(words[1], order.command);
      met = shared;
      return;
    }
    int status = 0;
    struct rusage used = {0};
    if (child < 0 || wait4(child, &status, 0, &used) < 0) _exit(1);
    struct told told = {WIFEXITED(status) ? WEXITSTATUS(status) : -WTERMSIG(status),
                        (used.ru_utime.tv_sec + used.ru_stime.tv_sec) * 1000000 + used.ru_utime.tv_usec + used.ru_stime.tv_usec,
                        used.ru_maxrss * 1024, *shared};
    if (write(orders, &told, sizeof told) != sizeof told) _exit(1);
  }
  _exit(0);
}
