/* goto-mm 1 tso 1 */
/* buffered #6 T1 6:3 cycle #6 #7 #9 #10 */
/* buffered #9 T2 11:3 cycle #9 #10 #6 #7 */
#include <pthread.h>
int nondet_wm();
int r1 = 0;
int r2 = 0;
int wm_mem[4] = {0, 0, 0, 0};
int wm_len[3];
int wm_cell[3];
int wm_val[3];
pthread_t wm_t1;
pthread_t wm_t2;
void wm_pop(int wm_t) {
  int wm_j;
  wm_mem[wm_cell[wm_t * 1]] = wm_val[wm_t * 1];
  wm_len[wm_t] = wm_len[wm_t] - 1;
  wm_j = 0;
  while (wm_j < wm_len[wm_t]) {
    wm_cell[(wm_t * 1) + wm_j] = wm_cell[((wm_t * 1) + wm_j) + 1];
    wm_val[(wm_t * 1) + wm_j] = wm_val[((wm_t * 1) + wm_j) + 1];
    wm_j = wm_j + 1;
  }
}
void wm_flush(void) {
  int wm_n;
  wm_n = nondet_wm();
  while (wm_n != 0) {
    __CPROVER_assume((wm_n > 0) && (wm_n <= 3));
    __CPROVER_assume(wm_len[wm_n - 1] > 0);
    wm_pop(wm_n - 1);
    wm_n = nondet_wm();
  }
}
void wm_empty(int wm_t) {
  __CPROVER_assume(wm_len[wm_t] == 0);
}
void wm_put(int wm_t, int wm_c, int wm_v) {
  __CPROVER_assume(wm_len[wm_t] < 1);
  wm_cell[(wm_t * 1) + wm_len[wm_t]] = wm_c;
  wm_val[(wm_t * 1) + wm_len[wm_t]] = wm_v;
  wm_len[wm_t] = wm_len[wm_t] + 1;
}
int wm_get(int wm_t, int wm_c) {
  int wm_j;
  wm_j = wm_len[wm_t];
  while (wm_j > 0) {
    wm_j = wm_j - 1;
    if (wm_cell[(wm_t * 1) + wm_j] == wm_c) {
      return wm_val[(wm_t * 1) + wm_j];
    }
  }
  return wm_mem[wm_c];
}
void wm_set(int wm_t, int wm_c, int wm_v) {
  __CPROVER_assume(wm_len[wm_t] == 0);
  wm_mem[wm_c] = wm_v;
}
void *wm_thread1(void *wm_arg) {
  int wm_r0;
  wm_0: __CPROVER_atomic_begin();
  wm_flush();
  wm_put(1, 0, 1);
  __CPROVER_atomic_end();
  wm_1: __CPROVER_atomic_begin();
  wm_flush();
  wm_r0 = wm_get(1, 1);
  __CPROVER_atomic_end();
  wm_2: __CPROVER_atomic_begin();
  wm_flush();
  wm_empty(1);
  r1 = wm_r0;
  __CPROVER_atomic_end();
  wm_3: goto wm_4;
  wm_4: return 0;
}
void *wm_thread2(void *wm_arg) {
  int wm_r0;
  wm_0: __CPROVER_atomic_begin();
  wm_flush();
  wm_put(2, 1, 1);
  __CPROVER_atomic_end();
  wm_1: __CPROVER_atomic_begin();
  wm_flush();
  wm_r0 = wm_get(2, 0);
  __CPROVER_atomic_end();
  wm_2: __CPROVER_atomic_begin();
  wm_flush();
  wm_empty(2);
  r2 = wm_r0;
  __CPROVER_atomic_end();
  wm_3: goto wm_4;
  wm_4: return 0;
}
int main(void) {
  int wm_r0;
  int wm_r1;
  int wm_r2;
  wm_0: __CPROVER_atomic_begin();
  wm_flush();
  wm_empty(0);
  __CPROVER_atomic_end();
  pthread_create(&wm_t1, 0, wm_thread1, 0);
  wm_1: __CPROVER_atomic_begin();
  wm_flush();
  wm_empty(0);
  __CPROVER_atomic_end();
  pthread_create(&wm_t2, 0, wm_thread2, 0);
  wm_2: pthread_join(wm_t1, 0);
  __CPROVER_atomic_begin();
  wm_flush();
  wm_empty(0);
  wm_empty(1);
  __CPROVER_atomic_end();
  wm_3: pthread_join(wm_t2, 0);
  __CPROVER_atomic_begin();
  wm_flush();
  wm_empty(0);
  wm_empty(2);
  __CPROVER_atomic_end();
  wm_4: __CPROVER_atomic_begin();
  wm_flush();
  wm_r0 = r1;
  __CPROVER_atomic_end();
  wm_5: wm_r1 = 0;
  wm_6: if (!(wm_r0 == 0)) goto wm_9;
  wm_7: __CPROVER_atomic_begin();
  wm_flush();
  wm_r2 = r2;
  __CPROVER_atomic_end();
  wm_8: wm_r1 = (wm_r2 == 0) != 0;
  wm_9: __CPROVER_assert(!wm_r1, "assertion 1");
  wm_10: goto wm_11;
  wm_11: return 0;
}
