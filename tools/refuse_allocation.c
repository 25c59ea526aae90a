/* Loaded before a program: makes the allocation whose number REFUSED_ALLOCATION gives fail, the first being 1, and keeps their
   number in the file that COUNT_FILE names, as a long. For tools/test-memory. */
#include "libc.h"

static void *(*real_malloc)(size_t);
static void *(*real_realloc)(void *, size_t);
static void *(*real_calloc)(size_t, size_t);
static void *(*real_aligned_alloc)(size_t, size_t);
static int (*real_posix_memalign)(void **, size_t, size_t);
static atomic_long own_count;
static atomic_long *made = &own_count;
static long refused = -1;

/* A program may end without its destructors, so the count lies in the file all the time. */
static void count_in_file(const char *name) {
  int file = open(name, O_RDWR | O_CREAT | O_TRUNC, 0600);
  if (file < 0 || ftruncate(file, sizeof own_count) != 0)
    return;
  void *shared = mmap(NULL, sizeof own_count, PROT_READ | PROT_WRITE, MAP_SHARED, file, 0);
  if (shared != MAP_FAILED)
    made = shared;
  close(file);
}

__attribute__((constructor)) static void begin(void) {
  real_malloc = dlsym(RTLD_NEXT, "malloc");
  real_realloc = dlsym(RTLD_NEXT, "realloc");
  real_calloc = dlsym(RTLD_NEXT, "calloc");
  real_aligned_alloc = dlsym(RTLD_NEXT, "aligned_alloc");
  real_posix_memalign = dlsym(RTLD_NEXT, "posix_memalign");
  const char *number = getenv("REFUSED_ALLOCATION");
  if (number)
    refused = atol(number);
  const char *name = getenv("COUNT_FILE");
  if (name)
    count_in_file(name);
}

static int is_refused(void) {
  if (atomic_fetch_add(made, 1) + 1 != refused)
    return 0;
  errno = ENOMEM;
  return 1;
}

void *malloc(size_t size) {
  return is_refused() ? NULL : real_malloc(size);
}

void *realloc(void *block, size_t size) {
  return is_refused() ? NULL : real_realloc(block, size);
}

void *calloc(size_t count, size_t size) {
  /* dlsym itself asks before the real one is known, and does without. */
  return !real_calloc || is_refused() ? NULL : real_calloc(count, size);
}

void *aligned_alloc(size_t alignment, size_t size) {
  return is_refused() ? NULL : real_aligned_alloc(alignment, size);
}

int posix_memalign(void **block, size_t alignment, size_t size) {
  return is_refused() ? ENOMEM : real_posix_memalign(block, alignment, size);
}
