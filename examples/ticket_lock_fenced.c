#include <pthread.h>
#include <assert.h>
/* Each thread draws a ticket, and waits until it is served. */
int next_ticket, serving;
int count;
void *worker(void *arg) {
  int mine = __sync_fetch_and_add(&next_ticket, 1);
  while (serving != mine) {
  }
  count = count + 1;
  __sync_synchronize();
  serving = mine + 1;
  return NULL;
}
int main(void) {
  pthread_t a, b;
  pthread_create(&a, NULL, worker, NULL);
  pthread_create(&b, NULL, worker, NULL);
  pthread_join(a, NULL);
  pthread_join(b, NULL);
  assert(count == 2);
  return 0;
}
