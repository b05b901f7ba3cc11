// Parts that come to the table of rules.h.
#include "rules.h"

static uint64_t receive_at(struct table *t, uint64_t time, const struct call *c, const struct lent *l) {
  uint64_t early = take_time(t, time, l);
  if (early != 0) return early;
  struct key key = {.src = {{1, c->src}, 0}, .dst = {1, c->dst}, .size = c->size, .tag = c->tag};
  if (!is_gateway(t, &key.src)) return NOT_GATEWAY;
  return take_part(t, time, &key, c, &(struct sum){c->elided ? ELIDED : NONE, 0, 40}, l);
}

static void fresh(void *table) {
  struct table *t = table;
  memset(t, 0, sizeof *t);
  for (size_t i = 0; i < 4; i++) t->gateways[i] = (struct source){{1, i + 1}, 0};
}

static uint64_t receive(void *table, const struct call *c, const struct lent *l) { return receive_at(table, c->time, c, l); }

static uint64_t run(void *table, const struct calls *first, const struct calls *lap, size_t laps, const struct lent *l) {
  uint64_t sum = 0;
  fresh(table);
  for (size_t i = 0; i < first->count; i++) sum += receive_at(table, 0, &first->of[i], l);
  for (size_t k = 1; k <= laps; k++)
    for (size_t i = 0; i < lap->count; i++) sum += receive_at(table, k, &lap->of[i], l);
  return sum;
}
