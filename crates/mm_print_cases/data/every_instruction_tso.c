/* goto-mm 1 tso 2 */
/* buffered #0 T0 6:3 cycle #0 #1 #2147483647 #3 */
/* buffered #3 T0 2147483647:77 cycle #3 */
#include <pthread.h>
int nondet_wm();
int x = -2147483647;
int a[3] = {1, -2, 3};
int wm_mem[6] = {0, 0, 0, 7, -8, 0};
int wm_len[2];
int wm_cell[4];
int wm_val[4];
pthread_mutex_t m = PTHREAD_MUTEX_INITIALIZER;
pthread_t wm_t1;
void wm_pop(int wm_t) {
  int wm_j;
  wm_mem[wm_cell[wm_t * 2]] = wm_val[wm_t * 2];
  wm_len[wm_t] = wm_len[wm_t] - 1;
  wm_j = 0;
  while (wm_j < wm_len[wm_t]) {
    wm_cell[(wm_t * 2) + wm_j] = wm_cell[((wm_t * 2) + wm_j) + 1];
    wm_val[(wm_t * 2) + wm_j] = wm_val[((wm_t * 2) + wm_j) + 1];
    wm_j = wm_j + 1;
  }
}
void wm_flush(void) {
  int wm_n;
  wm_n = nondet_wm();
  while (wm_n != 0) {
    __CPROVER_assume((wm_n > 0) && (wm_n <= 2));
    __CPROVER_assume(wm_len[wm_n - 1] > 0);
    wm_pop(wm_n - 1);
    wm_n = nondet_wm();
  }
}
void wm_empty(int wm_t) {
  __CPROVER_assume(wm_len[wm_t] == 0);
}
void wm_put(int wm_t, int wm_c, int wm_v) {
  __CPROVER_assume(wm_len[wm_t] < 2);
  wm_cell[(wm_t * 2) + wm_len[wm_t]] = wm_c;
  wm_val[(wm_t * 2) + wm_len[wm_t]] = wm_v;
  wm_len[wm_t] = wm_len[wm_t] + 1;
}
int wm_get(int wm_t, int wm_c) {
  int wm_j;
  wm_j = wm_len[wm_t];
  while (wm_j > 0) {
    wm_j = wm_j - 1;
    if (wm_cell[(wm_t * 2) + wm_j] == wm_c) {
      return wm_val[(wm_t * 2) + wm_j];
    }
  }
  return wm_mem[wm_c];
}
void wm_set(int wm_t, int wm_c, int wm_v) {
  __CPROVER_assume(wm_len[wm_t] == 0);
  wm_mem[wm_c] = wm_v;
}
void *wm_thread1(void *wm_arg) {
  wm_0: goto wm_1;
  wm_1: return 0;
}
int main(void) {
  int wm_r0;
  int wm_r1;
  wm_0: __CPROVER_atomic_begin();
  wm_flush();
  wm_r0 = wm_get(0, 4 + (wm_r1 % 2));
  __CPROVER_atomic_end();
  wm_1: __CPROVER_atomic_begin();
  wm_flush();
  wm_r0 = wm_get(0, wm_r1 - 1);
  __CPROVER_atomic_end();
  wm_2: __CPROVER_atomic_begin();
  wm_r0 = a[wm_r1];
  __CPROVER_atomic_end();
  wm_3: __CPROVER_atomic_begin();
  wm_flush();
  wm_put(0, 4 + wm_r0, wm_r0 + 1);
  __CPROVER_atomic_end();
  wm_4: __CPROVER_atomic_begin();
  wm_flush();
  wm_set(0, wm_r0 - 1, -wm_r1);
  __CPROVER_atomic_end();
  wm_5: __CPROVER_atomic_begin();
  wm_empty(0);
  a[wm_r0 + 1] = (wm_r0 < 3) ? (wm_r1 + 1) : (-(-wm_r1));
  __CPROVER_atomic_end();
  wm_6: __CPROVER_atomic_begin();
  wm_flush();
  wm_empty(0);
  wm_r0 = wm_mem[wm_r1 - 1];
  wm_mem[wm_r1 - 1] = wm_r0 + 5;
  __CPROVER_atomic_end();
  wm_7: __CPROVER_atomic_begin();
  wm_flush();
  wm_empty(0);
  wm_r0 = x;
  if (wm_r0 == 1) {
    x = 2;
  }
  wm_r0 = wm_r0 == 1;
  __CPROVER_atomic_end();
  wm_8: __CPROVER_atomic_begin();
  wm_flush();
  wm_empty(0);
  __CPROVER_atomic_end();
  __sync_synchronize();
  wm_9: __CPROVER_atomic_begin();
  wm_flush();
  wm_empty(0);
  __CPROVER_atomic_end();
  pthread_mutex_lock(&m);
  wm_10: __CPROVER_atomic_begin();
  wm_flush();
  wm_empty(0);
  __CPROVER_atomic_end();
  pthread_mutex_unlock(&m);
  wm_11: __CPROVER_atomic_begin();
  wm_flush();
  wm_empty(0);
  __CPROVER_atomic_end();
  pthread_create(&wm_t1, 0, wm_thread1, 0);
  wm_12: pthread_join(wm_t1, 0);
  __CPROVER_atomic_begin();
  wm_flush();
  wm_empty(0);
  wm_empty(1);
  __CPROVER_atomic_end();
  wm_13: wm_r0 = nondet_wm();
  wm_14: wm_r1 = ~(!(-wm_r0));
  wm_15: if (!((wm_r0 & 1) == 0)) goto wm_13;
  wm_16: __CPROVER_assert((wm_r0 == 1) | ((wm_r1 << 2) >= (wm_r0 ^ 3)), "assertion 12");
  wm_17: __CPROVER_assume((wm_r0 / 2) != (wm_r1 * (wm_r0 - 1)));
  wm_18: ;
  wm_19: __CPROVER_assert(0 < 4, "assertion 0");
  wm_20: goto wm_21;
  wm_21: return 0;
}
