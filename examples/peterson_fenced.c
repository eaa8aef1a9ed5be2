#include <pthread.h>
#include <assert.h>
/* Each thread says that it wants to enter, and lets the other go first. */
int wants0, wants1, turn;
int count;
void *first(void *arg) {
  wants0 = 1;
  __sync_synchronize();
  turn = 1;
  __sync_synchronize();
  while (wants1 == 1 && turn == 1) {
  }
  count = count + 1;
  __sync_synchronize();
  wants0 = 0;
  return NULL;
}
void *second(void *arg) {
  wants1 = 1;
  __sync_synchronize();
  turn = 0;
  __sync_synchronize();
  while (wants0 == 1 && turn == 0) {
  }
  count = count + 1;
  __sync_synchronize();
  wants1 = 0;
  return NULL;
}
int main(void) {
  pthread_t a, b;
  pthread_create(&a, NULL, first, NULL);
  pthread_create(&b, NULL, second, NULL);
  pthread_join(a, NULL);
  pthread_join(b, NULL);
  assert(count == 2);
  return 0;
}
