// The machines of `replay.sh`, as plain C: the loop of its threads is a table of instructions, and a schedule is read and taken.
#include <stdio.h>
#include <stdlib.h>
#include <string.h>

enum op { CONST, LOCAL, ADD, XOR, SHL, LT };
struct expr { enum op op; int value; const struct expr *left, *right; };
enum kind { SET, LOAD, STORE, JUMP, BRANCH, START, END };
struct instr { enum kind kind; int local, cell, place; const struct expr *expr; };
struct line { enum { STEP, FLUSH } item; unsigned thread, cell, count; };
struct pending { int cell, value; };
struct thread {
  const struct instr *code;
  int started, ended, place, waiting;
  int locals[4];
  struct pending pending[64];
};

static struct thread threads[9];
static int memory[1];
static int bound, buffers, per_cell;

static int eval(const struct expr *e, const int *locals) {
  switch (e->op) {
    case CONST: return e->value;
    case LOCAL: return locals[e->value];
    case ADD: return (int)((unsigned)eval(e->left, locals) + (unsigned)eval(e->right, locals));
    case XOR: return eval(e->left, locals) ^ eval(e->right, locals);
    case SHL: return (int)((unsigned)eval(e->left, locals) << (eval(e->right, locals) & 31));
    case LT: return eval(e->left, locals) < eval(e->right, locals);
  }
  return 0;
}

static int load(const struct thread *t, int cell) {
  for (int i = t->waiting; i > 0; i--)
    if (t->pending[i - 1].cell == cell) return t->pending[i - 1].value;
  return memory[cell];
}

static int store(struct thread *t, int cell, int value) {
  if (!buffers) { memory[cell] = value; return 1; }
  int counted = 0;
  for (int i = 0; i < t->waiting; i++) counted += !per_cell || t->pending[i].cell == cell;
  if (counted == bound) return 0;
  t->pending[t->waiting++] = (struct pending){cell, value};
  return 1;
}

static int step(struct thread *t) {
  if (!t->started || t->ended) return 0;
  const struct instr *i = &t->code[t->place];
  switch (i->kind) {
    case SET: t->locals[i->local] = eval(i->expr, t->locals); break;
    case LOAD: t->locals[i->local] = load(t, i->cell); break;
    case STORE: if (!store(t, i->cell, eval(i->expr, t->locals))) return 0; break;
    case JUMP: t->place = i->place; return 1;
    case BRANCH: if (eval(i->expr, t->locals) == 0) { t->place = i->place; return 1; } break;
    case START: if (t->waiting || threads[i->place].started) return 0; threads[i->place].started = 1; break;
    case END: t->ended = 1; return 1;
  }
  t->place++;
  return 1;
}

static int flush(struct thread *t, int cell) {
  if (!buffers) return 0;
  for (int i = 0; i < t->waiting; i++)
    if (!per_cell || t->pending[i].cell == cell) {
      memory[t->pending[i].cell] = t->pending[i].value;
      memmove(&t->pending[i], &t->pending[i + 1], (size_t)(--t->waiting - i) * sizeof *t->pending);
      return 1;
    }
  return 0;
}

static const struct expr k = {LOCAL, 0, 0, 0}, s = {LOCAL, 1, 0, 0}, r = {LOCAL, 2, 0, 0};
static const struct expr zero = {CONST, 0, 0, 0}, one = {CONST, 1, 0, 0}, three = {CONST, 3, 0, 0}, many = {CONST, 1000000, 0, 0};
static const struct expr is_less = {LT, 0, &k, &many}, sum = {ADD, 0, &r, &k}, shifted = {SHL, 0, &s, &three};
static const struct expr mixed = {XOR, 0, &s, &shifted}, next = {ADD, 0, &k, &one};
static const struct instr loop[] = {
  {SET, 0, 0, 0, &zero}, {SET, 1, 0, 0, &zero}, {BRANCH, 0, 0, 9, &is_less}, {LOAD, 2, 0, 0, 0}, {SET, 1, 0, 0, &sum},
  {SET, 1, 0, 0, &mixed}, {SET, 0, 0, 0, &next}, {STORE, 0, 0, 0, &s}, {JUMP, 0, 0, 2, 0}, {JUMP, 0, 0, 10, 0}, {END, 0, 0, 0, 0},
};
static struct instr starts[] = {
  {START, 0, 0, 1, 0}, {START, 0, 0, 2, 0}, {START, 0, 0, 3, 0}, {START, 0, 0, 4, 0}, {START, 0, 0, 5, 0}, {START, 0, 0, 6, 0},
  {START, 0, 0, 7, 0}, {START, 0, 0, 8, 0}, {JUMP, 0, 0, 9, 0}, {END, 0, 0, 0, 0},
};

int main(int count_of_words, char **words) {
  if (count_of_words != 3) return 1;
  buffers = strcmp(words[1], "sc") != 0;
  per_cell = strcmp(words[1], "pso") == 0;
  bound = atoi(words[2]);
  for (int t = 0; t < 9; t++) threads[t].code = t ? loop : starts;
  threads[0].started = 1;
  size_t room = 1 << 24, length = 0, count = 0, taken = 0;
  char *text = malloc(room + 1);
  length = fread(text, 1, room, stdin);
  text[length] = 0;
  struct line *lines = NULL;
  char *at = strchr(strstr(text, "\n%%\n") + 4, '\n') + 1;
  while (strncmp(at, "end\n", 4) != 0) {
    if (count == taken) lines = realloc(lines, (taken = taken ? 2 * taken : 64) * sizeof *lines);
    struct line *line = &lines[count++];
    if (strncmp(at, "steps ", 6) == 0) {
      line->item = STEP;
      line->thread = strtoul(at + 6, &at, 10);
      line->count = strtoul(at + 1, &at, 10);
    } else {
      line->item = FLUSH;
      line->thread = strtoul(at + 6, &at, 10);
      line->cell = *at == ' ' ? strtoul(at + 1, &at, 10) : 0;
      line->count = 1;
    }
    at++;
  }
  size_t entry = 0;
  for (size_t i = 0; i < count; i++)
    for (unsigned n = 0; n < lines[i].count; n++) {
      struct thread *t = &threads[lines[i].thread];
      entry++;
      if (!(lines[i].item == STEP ? step(t) : flush(t, (int)lines[i].cell))) {
        printf("stuck: entry %zu\n", entry);
        return 6;
      }
    }
  puts("no failure");
  return 0;
}
