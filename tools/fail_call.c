/* Loaded before a program: makes the call FAILING_NUMBER, the first being 1, of the function FAILING_CALL fail with the error
   FAILING_ERRNO, and where FAILING_ON is set all later ones too; a write with no error takes nothing. With SHORT set, reads and writes
   take a byte at most. The file that COUNT_FILE names then has how often each function was called, as longs in the order of `names`, and
   the path of the first call that failed, ended by a NUL. For tools/test-faults. */
#include "libc.h"

enum { OPEN, OPENAT, GETDENTS, STATX, READ, WRITE, CLOSE, ISATTY, PTHREAD_CREATE, ALLOCATION, FUNCTIONS };
static const char *names[FUNCTIONS] = {"open",  "openat", "getdents64", "statx",          "read",
                                       "write", "close",  "isatty",     "pthread_create", "allocation"};

struct record {
  atomic_long counts[FUNCTIONS];
  char path[4200];
};

static int (*real_open)(const char *, int, ...);
static int (*real_openat)(int, const char *, int, ...);
static int (*real_close)(int);
static ssize_t (*real_getdents64)(int, void *, size_t);
static int (*real_statx)(int, const char *, int, unsigned, struct statx *);
static ssize_t (*real_read)(int, void *, size_t);
static ssize_t (*real_write)(int, const void *, size_t);
static int (*real_isatty)(int);
static int (*real_pthread_create)(pthread_t *, const pthread_attr_t *, void *(*)(void *), void *);
static void *(*real_malloc)(size_t);
static void *(*real_realloc)(void *, size_t);
static void *(*real_calloc)(size_t, size_t);
static void *(*real_aligned_alloc)(size_t, size_t);
static int (*real_posix_memalign)(void **, size_t, size_t);

static struct record own_record;
static struct record *record = &own_record;
static int failing = -1;
static long number = -1;
static int error = EIO;
static int goes_on;
static int is_short;

static void count_in_file(const char *name) {
  int file = real_open(name, O_RDWR | O_CREAT | O_TRUNC, 0600);
  if (file < 0 || ftruncate(file, sizeof own_record) != 0)
    return;
  void *shared = mmap(NULL, sizeof own_record, PROT_READ | PROT_WRITE, MAP_SHARED, file, 0);
  if (shared != MAP_FAILED)
    record = shared;
  real_close(file);
}

__attribute__((constructor)) static void begin(void) {
  real_open = dlsym(RTLD_NEXT, "open");
  real_openat = dlsym(RTLD_NEXT, "openat");
  real_close = dlsym(RTLD_NEXT, "close");
  real_getdents64 = dlsym(RTLD_NEXT, "getdents64");
  real_statx = dlsym(RTLD_NEXT, "statx");
  real_read = dlsym(RTLD_NEXT, "read");
  real_write = dlsym(RTLD_NEXT, "write");
  real_isatty = dlsym(RTLD_NEXT, "isatty");
  real_pthread_create = dlsym(RTLD_NEXT, "pthread_create");
  real_malloc = dlsym(RTLD_NEXT, "malloc");
  real_realloc = dlsym(RTLD_NEXT, "realloc");
  real_calloc = dlsym(RTLD_NEXT, "calloc");
  real_aligned_alloc = dlsym(RTLD_NEXT, "aligned_alloc");
  real_posix_memalign = dlsym(RTLD_NEXT, "posix_memalign");
  const char *text = getenv("FAILING_ERRNO");
  if (text)
    error = atoi(text);
  text = getenv("COUNT_FILE");
  if (text)
    count_in_file(text);
  for (int i = 0; i < FUNCTIONS; i++)
    atomic_store(&record->counts[i], 0);
  text = getenv("FAILING_NUMBER");
  if (text)
    number = atol(text);
  goes_on = getenv("FAILING_ON") != NULL;
  is_short = getenv("SHORT") != NULL;
  text = getenv("FAILING_CALL");
  for (int i = 0; text && i < FUNCTIONS; i++)
    if (strcmp(text, names[i]) == 0)
      failing = i;
}

static int fails(int function) {
  long made = atomic_fetch_add(&record->counts[function], 1) + 1;
  if (function != failing || number < 1 || !(made == number || (goes_on && made > number)))
    return 0;
  errno = error;
  return 1;
}

/* The same of a call that is given a path. */
static int fails_at(int function, const char *path) {
  int found = fails(function);
  if (found && !record->path[0])
    strncpy(record->path, path, sizeof record->path - 1);
  return found;
}

/* The same of a call that is given a file, whose path is that by which it was opened. */
static int fails_in(int function, int file) {
  int found = fails(function);
  if (found && !record->path[0]) {
    char link[40];
    snprintf(link, sizeof link, "/proc/self/fd/%d", file);
    if (readlink(link, record->path, sizeof record->path - 1) < 0)
      record->path[0] = '?';
    errno = error;
  }
  return found;
}

int open(const char *path, int flags, ...) {
  va_list rest;
  va_start(rest, flags);
  mode_t mode = va_arg(rest, mode_t);
  va_end(rest);
  return fails_at(OPEN, path) ? -1 : real_open(path, flags, mode);
}

int openat(int directory, const char *path, int flags, ...) {
  va_list rest;
  va_start(rest, flags);
  mode_t mode = va_arg(rest, mode_t);
  va_end(rest);
  return fails_at(OPENAT, path) ? -1 : real_openat(directory, path, flags, mode);
}

int close(int file) {
  int failed = fails(CLOSE), closed = real_close(file);
  if (failed)
    errno = error;
  return failed ? -1 : closed;
}

ssize_t getdents64(int file, void *buffer, size_t size) {
  return fails_in(GETDENTS, file) ? -1 : real_getdents64(file, buffer, size);
}

int statx(int directory, const char *path, int flags, unsigned mask, struct statx *found) {
  return fails_at(STATX, path) ? -1 : real_statx(directory, path, flags, mask, found);
}

ssize_t read(int file, void *buffer, size_t size) {
  return fails_in(READ, file) ? -1 : real_read(file, buffer, is_short && size > 1 ? 1 : size);
}

ssize_t write(int file, const void *buffer, size_t size) {
  return fails(WRITE) ? -(error != 0) : real_write(file, buffer, is_short && size > 1 ? 1 : size);
}

int isatty(int file) {
  return fails(ISATTY) ? 0 : real_isatty(file);
}

int pthread_create(pthread_t *thread, const pthread_attr_t *attributes, void *(*run)(void *), void *argument) {
  return fails(PTHREAD_CREATE) ? error : real_pthread_create(thread, attributes, run, argument);
}

void *malloc(size_t size) {
  return fails(ALLOCATION) ? NULL : real_malloc(size);
}

void *realloc(void *block, size_t size) {
  return fails(ALLOCATION) ? NULL : real_realloc(block, size);
}

void *calloc(size_t count, size_t size) {
  /* dlsym itself asks before the real one is known, and does without. */
  return !real_calloc || fails(ALLOCATION) ? NULL : real_calloc(count, size);
}

void *aligned_alloc(size_t alignment, size_t size) {
  return fails(ALLOCATION) ? NULL : real_aligned_alloc(alignment, size);
}

int posix_memalign(void **block, size_t alignment, size_t size) {
  return fails(ALLOCATION) ? ENOMEM : real_posix_memalign(block, alignment, size);
}
