#include <pthread.h>
#include <assert.h>
/* The number is odd while the pair is written; a reader whose number is even and stays has a whole pair. */
int number;
int left, right;
void *writer(void *arg) {
  number = number + 1;
  left = 1;
  right = 1;
  number = number + 1;
  return NULL;
}
void *reader(void *arg) {
  int before = number;
  int l = left;
  int r = right;
  if ((before & 1) == 0 && number == before) {
    assert(l == r);
  }
  return NULL;
}
int main(void) {
  pthread_t w, r;
  pthread_create(&w, NULL, writer, NULL);
  pthread_create(&r, NULL, reader, NULL);
  pthread_join(w, NULL);
  pthread_join(r, NULL);
  return 0;
}
