// How deep the stack goes: work runs on a thread whose stack was filled with one byte before, and the bytes that changed are counted.
#ifndef STACK_H
#define STACK_H
#include <pthread.h>
#include <stdint.h>
#include <stdlib.h>
#include <string.h>

enum { STACK = 1 << 18, FILL = 0xa5 };
static _Alignas(4096) uint8_t stack[STACK];

static size_t stack_of(void *(*what)(void *), void *side) {
  pthread_t thread;
  pthread_attr_t attr;
  memset(stack, FILL, STACK);
  pthread_attr_init(&attr);
  pthread_attr_setstack(&attr, stack, STACK);
  if (pthread_create(&thread, &attr, what, side) != 0) abort();
  pthread_join(thread, NULL);
  size_t untouched = 0;
  while (untouched < STACK && stack[untouched] == FILL) untouched++;
  return STACK - untouched;
}
#endif
