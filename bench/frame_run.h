// A call at its own time, and a run of calls, over the `begin` and `receive_at` of the file that includes this.
static uint64_t receive(void *table, const struct frame_call *c, const struct lent *l) { return receive_at(table, c->time, c, l); }

static uint64_t run(void *table, const struct frame_run *r, const struct lent *l) {
  uint64_t sum = 0;
  begin(table, r->gateways, r->gateway_numbers);
  for (size_t k = 0; k <= r->laps; k++) {
    const struct frame_calls *list = k == 0 ? &r->first : &r->lap;
    for (size_t i = 0; i < list->count; i++) sum += (i + 1) * receive_at(table, k + list->of[i].time, &list->of[i], l);
  }
  return sum;
}
