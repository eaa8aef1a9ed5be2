/* What a woven program needs to be compiled and run: put it before the program, `gcc -include woven.h -pthread program.c`.
   An atomic section holds one lock, an assumption that does not hold gives the run up, an assertion that does not hold ends it,
   and inputs are drawn at random by the number in the environment's WOVEN_SEED. The exit status is 0 where the program ended, 1 where an
   assertion failed (standard error has its text), 2 where the run was given up. WOVEN_ROWS is the length of the program's wm_len, and
   is not set where it has none. */
#ifndef WOVEN_H
#define WOVEN_H
#include <pthread.h>
#include <sched.h>
#include <stdio.h>
#include <stdlib.h>
#include <unistd.h>

static pthread_mutex_t woven_section = PTHREAD_MUTEX_INITIALIZER;
static unsigned woven_threads;
static __thread unsigned long woven_state;
static __thread int woven_inside;

/* xorshift64* by Vigna, with a state of its own for each thread */
static unsigned woven_random(void) {
  if (woven_state == 0) {
    const char *seed = getenv("WOVEN_SEED");
    unsigned thread = __atomic_fetch_add(&woven_threads, 1, __ATOMIC_SEQ_CST);
    woven_state = (seed ? strtoul(seed, 0, 10) : 1) * 0x9E3779B97F4A7C15ul + (thread + 1) * 0xD1B54A32D192ED03ul;
    woven_state |= 1;
  }
  woven_state ^= woven_state >> 12;
  woven_state ^= woven_state << 25;
  woven_state ^= woven_state >> 27;
  return (unsigned)((woven_state * 0x2545F4914F6CDD1Dul) >> 33);
}

/* other threads come first at random */
static void woven_wait(void) {
  unsigned turns = woven_random() % 4;
  while (turns-- > 0)
    sched_yield();
  if (woven_random() % 3 == 0)
    usleep(woven_random() % 200);
}

static void __CPROVER_atomic_begin(void) {
  woven_wait();
  pthread_mutex_lock(&woven_section);
  woven_inside = 1;
}

static void __CPROVER_atomic_end(void) {
  woven_inside = 0;
  pthread_mutex_unlock(&woven_section);
}

static void __CPROVER_assume(int holds) {
  if (!holds)
    _exit(2);
}

static void __CPROVER_assert(int holds, const char *text) {
  if (!holds) {
    fprintf(stderr, "%s failed\n", text);
    _exit(1);
  }
}

#ifdef WOVEN_ROWS
extern int wm_len[WOVEN_ROWS];

/* a row with a pending store and one, or 0 */
static int woven_flush(void) {
  int row;
  int from = (int)(woven_random() % WOVEN_ROWS);
  if (woven_random() % 2 == 0)
    return 0;
  for (row = 0; row < WOVEN_ROWS; row++)
    if (wm_len[(from + row) % WOVEN_ROWS] > 0)
      return (from + row) % WOVEN_ROWS + 1;
  return 0;
}
#endif

/* inside a section which row is flushed, elsewhere an input of the program */
int nondet_wm(void);
int nondet_wm(void) {
#ifdef WOVEN_ROWS
  if (woven_inside)
    return woven_flush();
#endif
  return (int)(woven_random() % 8) - 2;
}
#endif
