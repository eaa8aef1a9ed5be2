#include <pthread.h>
#include <assert.h>
/* One producer and one consumer; written counts what went in, taken what came out. */
int slots[2];
int written, taken;
void *producer(void *arg) {
  for (int item = 1; item <= 3; item++) {
    while (written - taken == 2) {
    }
    slots[written & 1] = item;
    written = written + 1;
  }
  return NULL;
}
void *consumer(void *arg) {
  for (int item = 1; item <= 3; item++) {
    while (taken == written) {
    }
    assert(slots[taken & 1] == item);
    taken = taken + 1;
  }
  return NULL;
}
int main(void) {
  pthread_t p, c;
  pthread_create(&p, NULL, producer, NULL);
  pthread_create(&c, NULL, consumer, NULL);
  pthread_join(p, NULL);
  pthread_join(c, NULL);
  return 0;
}
