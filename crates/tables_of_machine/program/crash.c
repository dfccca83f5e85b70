/* Counts in a table, and writes to address 0 at the fourth count. */
static volatile int counters[64];
static int limit = 3;

static int *next(int i)
{
    return i < limit ? (int *)&counters[i] : 0;
}

void _start(void)
{
    for (int i = 0; i < 8; i++)
        *next(i) = i * 7;
    __builtin_trap();
}
