#include <pthread.h>
#include <assert.h>
int data, ready;
void *sender(void *arg) {
  data = 1;
  __sync_synchronize();
  ready = 1;
  return NULL;
}
void *receiver(void *arg) {
  if (ready == 1) {
    assert(data == 1);
  }
  return NULL;
}
int main(void) {
  pthread_t s, r;
  pthread_create(&s, NULL, sender, NULL);
  pthread_create(&r, NULL, receiver, NULL);
  pthread_join(s, NULL);
  pthread_join(r, NULL);
  return 0;
}
