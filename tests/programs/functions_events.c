/* Handlers that are entered in a queue and enter others. */
int printf(const char *, ...);
void abort(void);

struct queue;
typedef void handler(struct queue *, long);

struct event {
    long time, value;
    handler *handler;
};

struct queue {
    struct event all[16];
    int count;
    long now;
};

static void enter(struct queue *q, long after, handler *h, long value)
{
    int at = q->count++;
    struct event fresh = { q->now + after, value, h };
    if (q->count > 16)
        abort();
    while (at > 0 && q->all[at - 1].time <= fresh.time) {
        q->all[at] = q->all[at - 1];
        at--;
    }
    q->all[at] = fresh;
}

static void run(struct queue *q)
{
    while (q->count > 0) {
        struct event e = q->all[--q->count];
        q->now = e.time;
        e.handler(q, e.value);
    }
}

static void tick(struct queue *q, long left)
{
    printf("%ld: tick, %ld left\n", q->now, left);
    if (left > 1)
        enter(q, 5, tick, left - 1);
}

static void split(struct queue *q, long value)
{
    printf("%ld: %ld\n", q->now, value);
    if (value > 3) {
        enter(q, value / 2, split, value / 2);
        enter(q, value / 3, split, value / 3);
    }
}

int main(void)
{
    static struct queue q;
    enter(&q, 1, tick, 6);
    enter(&q, 2, split, 20);
    run(&q);
    return (int)q.now;
}
