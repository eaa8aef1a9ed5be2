/* 16 threads, 256 cells */
/* goto-mm 1 pso 8 */
#include <pthread.h>
int wm_len[4096];
int wm_val[32768];
void wm_pop(int wm_b) {
  int wm_j;
  wm_mem[wm_b % 256] = wm_val[wm_b * 8];
  wm_len[wm_b] = wm_len[wm_b] - 1;
  wm_j = 0;
  while (wm_j < wm_len[wm_b]) {
    wm_val[(wm_b * 8) + wm_j] = wm_val[((wm_b * 8) + wm_j) + 1];
    wm_j = wm_j + 1;
  }
}
void wm_flush(void) {
  int wm_n;
  wm_n = nondet_wm();
  while (wm_n != 0) {
    __CPROVER_assume((wm_n > 0) && (wm_n <= 4096));
    __CPROVER_assume(wm_len[wm_n - 1] > 0);
    wm_pop(wm_n - 1);
    wm_n = nondet_wm();
  }
}
void wm_empty(int wm_t) {
  int wm_c;
  wm_c = 0;
  while (wm_c < 256) {
    __CPROVER_assume(wm_len[(wm_t * 256) + wm_c] == 0);
    wm_c = wm_c + 1;
  }
}
void wm_put(int wm_t, int wm_c, int wm_v) {
  int wm_b;
  wm_b = (wm_t * 256) + wm_c;
  __CPROVER_assume(wm_len[wm_b] < 8);
  wm_val[(wm_b * 8) + wm_len[wm_b]] = wm_v;
  wm_len[wm_b] = wm_len[wm_b] + 1;
}
int wm_get(int wm_t, int wm_c) {
  int wm_b;
  wm_b = (wm_t * 256) + wm_c;
  if (wm_len[wm_b] > 0) {
    return wm_val[((wm_b * 8) + wm_len[wm_b]) - 1];
  }
  return wm_mem[wm_c];
}
void wm_set(int wm_t, int wm_c, int wm_v) {
  __CPROVER_assume(wm_len[(wm_t * 256) + wm_c] == 0);
  wm_mem[wm_c] = wm_v;
}
