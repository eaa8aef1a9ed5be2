/* goto-mm 1 tso 8 */
#include <pthread.h>
int nondet_wm();
int x = 0;
int p = 1;
int a[2] = {0, 0};
int wm_mem[4] = {5, 0, 0, 0};
pthread_mutex_t m = PTHREAD_MUTEX_INITIALIZER;
pthread_mutex_t n = PTHREAD_MUTEX_INITIALIZER;
pthread_t wm_t1;
void *wm_thread1(void *wm_arg) {
  int wm_r0;
  wm_0: wm_r0 = wm_mem[p - 1];
  wm_1: wm_mem[0] = wm_r0 * 2;
  wm_2: return 0;
}
int main(void) {
  int wm_r0;
  int wm_r1;
  wm_0: wm_r0 = a[wm_r1];
  wm_1: a[1] = wm_r0 >> 1;
  wm_2: wm_r0 = x;
  x = wm_r0 + 1;
  wm_3: wm_r0 = wm_mem[wm_r1 - 1];
  if (wm_r0 == 0) {
    wm_mem[wm_r1 - 1] = 1;
  }
  wm_r0 = wm_r0 == 0;
  wm_4: __sync_synchronize();
  wm_5: pthread_mutex_lock(&m);
  wm_6: pthread_mutex_unlock(&n);
  wm_7: pthread_create(&wm_t1, 0, wm_thread1, 0);
  wm_8: pthread_join(wm_t1, 0);
  wm_9: wm_r1 = (wm_r0 != 0) && (wm_r1 <= 2147483647);
  wm_10: return 0;
}
