/* What the files that are loaded before a program need of the C library of Linux on x86-64: the kit's compiler comes without its headers. */
#ifndef LIBC_H
#define LIBC_H

typedef unsigned long size_t;
typedef long ssize_t;
typedef unsigned mode_t;
typedef unsigned long pthread_t;
typedef union pthread_attr_t pthread_attr_t;
typedef __builtin_va_list va_list;
typedef _Atomic long atomic_long;
struct statx;

#define NULL ((void *)0)
#define va_start __builtin_va_start
#define va_arg __builtin_va_arg
#define va_end __builtin_va_end
#define atomic_fetch_add(at, number) __c11_atomic_fetch_add(at, number, __ATOMIC_SEQ_CST)
#define atomic_store(at, number) __c11_atomic_store(at, number, __ATOMIC_SEQ_CST)

enum { O_RDWR = 02, O_CREAT = 0100, O_TRUNC = 01000 };
enum { PROT_READ = 1, PROT_WRITE = 2, MAP_SHARED = 1 };
enum { EIO = 5, ENOMEM = 12 };
#define MAP_FAILED ((void *)-1)
#define RTLD_NEXT ((void *)-1)

extern int *__errno_location(void);
#define errno (*__errno_location())

void *dlsym(void *handle, const char *name);
char *getenv(const char *name);
int atoi(const char *text);
long atol(const char *text);
int strcmp(const char *one, const char *other);
char *strncpy(char *to, const char *from, size_t size);
int snprintf(char *to, size_t size, const char *format, ...);
int open(const char *path, int flags, ...);
int openat(int directory, const char *path, int flags, ...);
int close(int file);
int ftruncate(int file, long size);
void *mmap(void *at, size_t size, int access, int flags, int file, long from);
ssize_t readlink(const char *path, char *to, size_t size);
int usleep(unsigned microseconds);

#endif
