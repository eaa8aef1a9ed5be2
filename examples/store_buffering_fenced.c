#include <pthread.h>
#include <assert.h>
int x, y;
int r1, r2;
void *p0(void *arg) {
  x = 1;
  __sync_synchronize();
  r1 = y;
  return NULL;
}
void *p1(void *arg) {
  y = 1;
  __sync_synchronize();
  r2 = x;
  return NULL;
}
int main(void) {
  pthread_t t0, t1;
  pthread_create(&t0, NULL, p0, NULL);
  pthread_create(&t1, NULL, p1, NULL);
  pthread_join(t0, NULL);
  pthread_join(t1, NULL);
  assert(!(r1 == 0 && r2 == 0));
  return 0;
}
