int ready;
int seen;
int main(void) {
  ready = 1;
  seen = ready;
  assert(seen == 1);
  return 0;
}
