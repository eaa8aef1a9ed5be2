#include <pthread.h>
#include <assert.h>
/* Taken by compare-and-swap, given back by a plain store. */
int held;
int count;
void acquire(void) {
  int taken = 0;
  while (!taken) {
    taken = __sync_bool_compare_and_swap(&held, 0, 1);
  }
}
void release(void) {
  __sync_synchronize();
  held = 0;
}
void *worker(void *arg) {
  acquire();
  count = count + 1;
  release();
  return NULL;
}
int main(void) {
  pthread_t a, b;
  pthread_create(&a, NULL, worker, NULL);
  pthread_create(&b, NULL, worker, NULL);
  pthread_join(a, NULL);
  pthread_join(b, NULL);
  assert(count == 2);
  return 0;
}
