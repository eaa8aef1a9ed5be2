#include <pthread.h>
#include <assert.h>
/* Two threads that each say that they want to enter, and take turns where both do. */
int wants0, wants1, turn;
int count;
void *first(void *arg) {
  wants0 = 1;
  __sync_synchronize();
  while (wants1 == 1) {
    if (turn == 1) {
      wants0 = 0;
      while (turn == 1) {
      }
      wants0 = 1;
      __sync_synchronize();
    }
  }
  count = count + 1;
  __sync_synchronize();
  turn = 1;
  wants0 = 0;
  return NULL;
}
void *second(void *arg) {
  wants1 = 1;
  __sync_synchronize();
  while (wants0 == 1) {
    if (turn == 0) {
      wants1 = 0;
      while (turn == 0) {
      }
      wants1 = 1;
      __sync_synchronize();
    }
  }
  count = count + 1;
  __sync_synchronize();
  turn = 0;
  wants1 = 0;
  return NULL;
}
int main(void) {
  pthread_t a, b;
  pthread_create(&a, NULL, first, NULL);
  pthread_create(&b, NULL, second, NULL);
  pthread_join(a, NULL);
  pthread_join(b, NULL);
  assert(count == 2);
  return 0;
}
