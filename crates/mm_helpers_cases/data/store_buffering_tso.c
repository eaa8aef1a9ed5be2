/* 3 threads, 4 cells */
/* goto-mm 1 tso 1 */
#include <pthread.h>
int wm_len[3];
int wm_cell[3];
int wm_val[3];
void wm_pop(int wm_t) {
  int wm_j;
  wm_mem[wm_cell[wm_t * 1]] = wm_val[wm_t * 1];
  wm_len[wm_t] = wm_len[wm_t] - 1;
  wm_j = 0;
  while (wm_j < wm_len[wm_t]) {
    wm_cell[(wm_t * 1) + wm_j] = wm_cell[((wm_t * 1) + wm_j) + 1];
    wm_val[(wm_t * 1) + wm_j] = wm_val[((wm_t * 1) + wm_j) + 1];
    wm_j = wm_j + 1;
  }
}
void wm_flush(void) {
  int wm_n;
  wm_n = nondet_wm();
  while (wm_n != 0) {
    __CPROVER_assume((wm_n > 0) && (wm_n <= 3));
    __CPROVER_assume(wm_len[wm_n - 1] > 0);
    wm_pop(wm_n - 1);
    wm_n = nondet_wm();
  }
}
void wm_empty(int wm_t) {
  __CPROVER_assume(wm_len[wm_t] == 0);
}
void wm_put(int wm_t, int wm_c, int wm_v) {
  __CPROVER_assume(wm_len[wm_t] < 1);
  wm_cell[(wm_t * 1) + wm_len[wm_t]] = wm_c;
  wm_val[(wm_t * 1) + wm_len[wm_t]] = wm_v;
  wm_len[wm_t] = wm_len[wm_t] + 1;
}
int wm_get(int wm_t, int wm_c) {
  int wm_j;
  wm_j = wm_len[wm_t];
  while (wm_j > 0) {
    wm_j = wm_j - 1;
    if (wm_cell[(wm_t * 1) + wm_j] == wm_c) {
      return wm_val[(wm_t * 1) + wm_j];
    }
  }
  return wm_mem[wm_c];
}
void wm_set(int wm_t, int wm_c, int wm_v) {
  __CPROVER_assume(wm_len[wm_t] == 0);
  wm_mem[wm_c] = wm_v;
}
