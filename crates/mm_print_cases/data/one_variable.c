/* goto-mm 1 tso 1 */
#include <pthread.h>
int nondet_wm();
int x = 0;
int main(void) {
  int wm_r0;
  wm_0: x = 1;
  wm_1: wm_r0 = x;
  wm_2: __CPROVER_assert(wm_r0 == 1, "assertion 1");
  wm_3: goto wm_4;
  wm_4: return 0;
}
