/* What a program of examples/c needs on a bare Cortex-M: vectors, the start, the routines that compiled code calls (memcpy, memset,
 * memclr), and enough of stdio over Arm's semihosting to print and to read files of the machine that runs the emulator.
 * A board of yours has its own start-up code and its own C library; of this file it needs nothing. */
#include <stddef.h>
#include <stdint.h>
#include <stdio.h>
#include <string.h>

/* ---- bytes: volatile, so that the compiler does not make these loops calls of themselves */
void *memcpy(void *to, const void *from, size_t n) {
  volatile uint8_t *t = to;
  const uint8_t *f = from;
  while (n--) *t++ = *f++;
  return to;
}
void *memset(void *to, int byte, size_t n) {
  volatile uint8_t *t = to;
  while (n--) *t++ = (uint8_t)byte;
  return to;
}
int memcmp(const void *a, const void *b, size_t n) {
  const uint8_t *x = a, *y = b;
  for (; n; n--, x++, y++)
    if (*x != *y) return *x < *y ? -1 : 1;
  return 0;
}
/* the names by which Arm's run-time ABI calls them */
void __aeabi_memcpy(void *to, const void *from, size_t n) { memcpy(to, from, n); }
void __aeabi_memset(void *to, size_t n, int byte) { memset(to, byte, n); }
void __aeabi_memclr(void *to, size_t n) { memset(to, 0, n); }
void __aeabi_memcpy4(void *, const void *, size_t) __attribute__((alias("__aeabi_memcpy")));
void __aeabi_memcpy8(void *, const void *, size_t) __attribute__((alias("__aeabi_memcpy")));
void __aeabi_memset4(void *, size_t, int) __attribute__((alias("__aeabi_memset")));
void __aeabi_memset8(void *, size_t, int) __attribute__((alias("__aeabi_memset")));
void __aeabi_memclr4(void *, size_t) __attribute__((alias("__aeabi_memclr")));
void __aeabi_memclr8(void *, size_t) __attribute__((alias("__aeabi_memclr")));

/* ---- semihosting */
static int semihost(int operation, const void *block) {
  register int r0 __asm__("r0") = operation;
  register const void *r1 __asm__("r1") = block;
  __asm__ volatile("bkpt 0xab" : "+r"(r0) : "r"(r1) : "memory");
  return r0;
}
enum { OPEN = 1, CLOSE = 2, WRITE = 5, READ = 6, COMMAND_LINE = 0x15, EXIT = 0x20 };

struct file { int handle; };
static struct file files[3]; /* standard output, standard error, one file */
FILE *const stderr = &files[1];

static size_t length(const char *s) {
  size_t n = 0;
  while (s[n]) n++;
  return n;
}
static int open_handle(const char *name, uintptr_t mode) {
  const uintptr_t block[] = {(uintptr_t)name, mode, length(name)};
  return semihost(OPEN, block);
}
FILE *fopen(const char *name, const char *mode) {
  (void)mode;
  int handle = open_handle(name, 1); /* "rb" */
  if (handle == -1) return NULL;
  files[2].handle = handle;
  return &files[2];
}
size_t fread(void *to, size_t one, size_t n, FILE *file) { /* bytes alone: one is 1 */
  const uintptr_t block[] = {(uintptr_t)file->handle, (uintptr_t)to, n};
  return one == 1 ? n - (size_t)semihost(READ, block) : 0;
}
int fclose(FILE *file) {
  const uintptr_t block[] = {(uintptr_t)file->handle};
  return semihost(CLOSE, block);
}

/* ---- printing: each file has its bytes gathered, and written at the end of a call */
static void put(struct file *file, const char *s, size_t n) {
  const uintptr_t block[] = {(uintptr_t)file->handle, (uintptr_t)s, n};
  if (n) semihost(WRITE, block);
}
/* by subtraction: an M0 has no instruction that divides */
static size_t decimal(char *to, uint32_t n) {
  size_t k = 0;
  static const uint32_t powers[] = {1000000000u, 100000000u, 10000000u, 1000000u, 100000u, 10000u, 1000u, 100u, 10u, 1u};
  for (size_t i = 0; i < 10; i++) {
    char digit = '0';
    for (; n >= powers[i]; n -= powers[i]) digit++;
    if (digit != '0' || k || i == 9) to[k++] = digit;
  }
  return k;
}
static void print(struct file *file, const char *format, __builtin_va_list list) {
  char line[256];
  size_t n = 0;
  for (; *format; format++) {
    if (n > sizeof line - 16) {
      put(file, line, n);
      n = 0;
    }
    if (*format != '%') {
      line[n++] = *format;
      continue;
    }
    if (*++format == 'z') format++;
    if (*format == 'u') n += decimal(line + n, __builtin_va_arg(list, uint32_t));
    if (*format == 'c') line[n++] = (char)__builtin_va_arg(list, int);
    if (*format == 's') {
      const char *s = __builtin_va_arg(list, const char *);
      put(file, line, n);
      put(file, s, length(s));
      n = 0;
    }
  }
  put(file, line, n);
}
int printf(const char *format, ...) {
  __builtin_va_list list;
  __builtin_va_start(list, format);
  print(&files[0], format, list);
  __builtin_va_end(list);
  return 0;
}
int fprintf(FILE *file, const char *format, ...) {
  __builtin_va_list list;
  __builtin_va_start(list, format);
  print(file, format, list);
  __builtin_va_end(list);
  return 0;
}

/* ---- the start: memory cleared, the command line taken apart at its spaces, main, and its status handed on */
int main(int argc, char **argv);
extern uint64_t bss[], bss_end[], stack_top[];

static void leave(uintptr_t status) {
  const uintptr_t block[] = {0x20026, status};
  for (;;) semihost(EXIT, block);
}
static void fault(void) { leave(99); }

void reset(void) {
  static char line[256], *argv[8];
  for (uint64_t *p = bss; p < bss_end; p++) *(volatile uint64_t *)p = 0;
  files[0].handle = open_handle(":tt", 4);
  files[1].handle = open_handle(":tt", 8);
  uintptr_t block[] = {(uintptr_t)line, sizeof line};
  int argc = 0;
  if (semihost(COMMAND_LINE, block) == 0)
    for (char *p = line; *p && argc < 8;) {
      argv[argc++] = p;
      while (*p && *p != ' ') p++;
      if (*p) *p++ = 0;
    }
  leave((uintptr_t)main(argc, argv));
}

__attribute__((section(".vectors"), used)) static void *const vectors[16] = {
    stack_top, (void *)reset, (void *)fault, (void *)fault, (void *)fault, (void *)fault, (void *)fault, (void *)fault,
};
