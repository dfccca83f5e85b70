/* A meter keeps its last eight samples in a ring, and now and then adds them to a total. It
   crashes in `report`, but the bug is elsewhere: docs/GUIDE.md finds it from the crash. */
struct total { int count, sum; };
struct meter { int next, ring[8]; struct total *total; };

static struct total total;
static struct meter meter = { .total = &total };

static __attribute__((noinline)) void sample(struct meter *m, int value) {
    m->ring[m->next] = value;
    if (m->next++ == 8)
        m->next = 0;
}

static __attribute__((noinline)) void report(struct meter *m) {
    for (int i = 0; i < 8; i++)
        m->total->sum += m->ring[i];
    m->total->count++;
}

void _start(void) {
    for (int i = 1;; i++) {
        sample(&meter, i * i);
        if (i % 12 == 0)
            report(&meter);
    }
}
