/* goto-mm 1 pso 1 */
/* buffered #0 T1 4:23 cycle #0 #1 #2 #3 */
#include <pthread.h>
int nondet_wm();
int flag = 0;
int wm_mem[2] = {0, 0};
int wm_len[6];
int wm_val[6];
pthread_t wm_t1;
pthread_t wm_t2;
void wm_pop(int wm_b) {
  int wm_j;
  wm_mem[wm_b % 2] = wm_val[wm_b * 1];
  wm_len[wm_b] = wm_len[wm_b] - 1;
  wm_j = 0;
  while (wm_j < wm_len[wm_b]) {
    wm_val[(wm_b * 1) + wm_j] = wm_val[((wm_b * 1) + wm_j) + 1];
    wm_j = wm_j + 1;
  }
}
void wm_flush(void) {
  int wm_n;
  wm_n = nondet_wm();
  while (wm_n != 0) {
    __CPROVER_assume((wm_n > 0) && (wm_n <= 6));
    __CPROVER_assume(wm_len[wm_n - 1] > 0);
    wm_pop(wm_n - 1);
    wm_n = nondet_wm();
  }
}
void wm_empty(int wm_t) {
  int wm_c;
  wm_c = 0;
  while (wm_c < 2) {
    __CPROVER_assume(wm_len[(wm_t * 2) + wm_c] == 0);
    wm_c = wm_c + 1;
  }
}
void wm_put(int wm_t, int wm_c, int wm_v) {
  int wm_b;
  wm_b = (wm_t * 2) + wm_c;
  __CPROVER_assume(wm_len[wm_b] < 1);
  wm_val[(wm_b * 1) + wm_len[wm_b]] = wm_v;
  wm_len[wm_b] = wm_len[wm_b] + 1;
}
int wm_get(int wm_t, int wm_c) {
  int wm_b;
  wm_b = (wm_t * 2) + wm_c;
  if (wm_len[wm_b] > 0) {
    return wm_val[((wm_b * 1) + wm_len[wm_b]) - 1];
  }
  return wm_mem[wm_c];
}
void wm_set(int wm_t, int wm_c, int wm_v) {
  __CPROVER_assume(wm_len[(wm_t * 2) + wm_c] == 0);
  wm_mem[wm_c] = wm_v;
}
void *wm_thread1(void *wm_arg) {
  wm_0: __CPROVER_atomic_begin();
  wm_flush();
  wm_put(1, 0, 1);
  __CPROVER_atomic_end();
  wm_1: __CPROVER_atomic_begin();
  flag = 1;
  __CPROVER_atomic_end();
  wm_2: goto wm_3;
  wm_3: return 0;
}
void *wm_thread2(void *wm_arg) {
  int wm_r0;
  int wm_r1;
  int wm_r2;
  wm_0: __CPROVER_atomic_begin();
  wm_r0 = flag;
  __CPROVER_atomic_end();
  wm_1: __CPROVER_atomic_begin();
  wm_flush();
  wm_r1 = wm_get(2, 0);
  __CPROVER_atomic_end();
  wm_2: wm_r2 = 0;
  wm_3: if (!(wm_r0 == 1)) goto wm_5;
  wm_4: wm_r2 = (wm_r1 == 0) != 0;
  wm_5: __CPROVER_assert(!wm_r2, "assertion 1");
  wm_6: goto wm_7;
  wm_7: return 0;
}
int main(void) {
  wm_0: __CPROVER_atomic_begin();
  __CPROVER_atomic_end();
  pthread_create(&wm_t1, 0, wm_thread1, 0);
  wm_1: __CPROVER_atomic_begin();
  __CPROVER_atomic_end();
  pthread_create(&wm_t2, 0, wm_thread2, 0);
  wm_2: pthread_join(wm_t1, 0);
  __CPROVER_atomic_begin();
  wm_flush();
  wm_empty(0);
  wm_empty(1);
  __CPROVER_atomic_end();
  wm_3: pthread_join(wm_t2, 0);
  __CPROVER_atomic_begin();
  __CPROVER_atomic_end();
  wm_4: goto wm_5;
  wm_5: return 0;
}
