/* Both ears in one transaction: a child's left and right ear are two entries that change together or not at all.
 *
 * Two tablets test the same child at the same time. Whoever comes second is told so and starts again, so that both ears are always of one
 * test. Run it by `bindings/c/run-example`. */
#include "gemandrolo.h"

#include <inttypes.h>
#include <stdbool.h>
#include <stdio.h>
#include <stdlib.h>

enum { SERVERS = 2, SLOTS = 64, TABLETS = 2, RUNS = 10 };

struct store {
    uint8_t *mem;
    size_t bytes;
    uint8_t *out; /* lent to every step; only lists write there */
    size_t out_bytes;
};

struct operation {
    uint64_t op, key, value;
};

struct outcome {
    uint64_t number, a, b;
};

struct ears {
    uint64_t left, right;
};

static struct outcome step(struct store s, uint64_t kind, uint64_t tablet, uint64_t op, uint64_t key, uint64_t value, uint64_t server)
{
    struct outcome o;
    o.number = gemandrolo_step(s.mem, s.bytes, s.out, s.out_bytes, kind, tablet, op, key, value, server, &o.a, &o.b);
    return o;
}

/* Gives an operation and works until it is answered or the transaction has ended. */
static struct outcome ask(struct store s, uint64_t tablet, struct operation asked)
{
    struct outcome o = step(s, GEMANDROLO_GIVE, tablet, asked.op, asked.key, asked.value, 0);
    if (o.number != GEMANDROLO_DONE)
        return o;
    do
        o = step(s, GEMANDROLO_WORK, tablet, 0, 0, 0, 0);
    while (o.number == GEMANDROLO_FETCHED);
    return o;
}

/* A step of this kind at each participant. A server that takes no part refuses by 9, and nothing happens there. */
static struct outcome at_participants(struct store s, uint64_t kind, uint64_t tablet)
{
    struct outcome o = {GEMANDROLO_DONE, 0, 0};
    for (uint64_t server = 0; server < SERVERS; server++) {
        struct outcome here = step(s, kind, tablet, 0, 0, 0, server);
        if (here.number == GEMANDROLO_REFUSED && here.a == GEMANDROLO_UNFIT)
            continue;
        o = here;
        if (o.number != GEMANDROLO_PREPARED && o.number != GEMANDROLO_APPLIED)
            break;
    }
    return o;
}

/* Commits: the outcome is committed, aborted or refused. */
static struct outcome commit(struct store s, uint64_t tablet)
{
    struct outcome o = step(s, GEMANDROLO_COMMIT, tablet, 0, 0, 0, 0);
    if (o.number == GEMANDROLO_DONE)
        o = at_participants(s, GEMANDROLO_PREPARE, tablet);
    if (o.number == GEMANDROLO_DECIDED)
        o = at_participants(s, GEMANDROLO_APPLY, tablet);
    return o;
}

static bool may_pass_later(struct outcome o)
{
    return o.number == GEMANDROLO_ABORTED && o.a <= GEMANDROLO_NO_TREE;
}

/* These operations in one transaction, with an answer each; again while it may pass. */
static bool transaction(struct store s, uint64_t tablet, const struct operation *asked, size_t count, struct outcome *answers)
{
    for (int run = 0; run < RUNS; run++) {
        step(s, GEMANDROLO_BEGIN, tablet, 0, 0, 0, 0);
        struct outcome end = {GEMANDROLO_ANSWERED, 0, 0};
        for (size_t i = 0; i < count && end.number == GEMANDROLO_ANSWERED; i++)
            end = answers[i] = ask(s, tablet, asked[i]);
        if (end.number == GEMANDROLO_ANSWERED)
            end = commit(s, tablet);
        if (end.number == GEMANDROLO_COMMITTED)
            return true;
        if (!may_pass_later(end)) {
            step(s, GEMANDROLO_GIVE_UP, tablet, 0, 0, 0, 0);
            return false;
        }
    }
    return false;
}

/* Two operations of the same kind, one for each ear. Each ear becomes its answer's b. */
static bool both(struct store s, uint64_t tablet, uint64_t op, uint64_t child, struct ears *db)
{
    struct operation asked[2] = {{op, 2 * child, db->left}, {op, 2 * child + 1, db->right}};
    struct outcome answers[2];
    if (!transaction(s, tablet, asked, 2, answers))
        return false;
    *db = (struct ears){answers[0].b, answers[1].b};
    return true;
}

static void store_both(struct store s, uint64_t tablet, uint64_t child, struct ears db)
{
    if (!both(s, tablet, GEMANDROLO_INSERT, child, &db)) {
        fprintf(stderr, "child %" PRIu64 " could not be stored\n", child);
        exit(1);
    }
}

static void show(struct store s, uint64_t tablet, uint64_t child, const char *when)
{
    struct ears db = {0, 0};
    if (!both(s, tablet, GEMANDROLO_LOOKUP, child, &db))
        exit(1);
    printf("%s: left %" PRIu64 " dB, right %" PRIu64 " dB\n", when, db.left, db.right);
}

/* A number in the output: lowest byte first. */
static uint64_t number(const uint8_t *bytes)
{
    uint64_t n = 0;
    for (int i = 8; i-- > 0;)
        n = n << 8 | bytes[i];
    return n;
}

/* The class list from a child on: its entries in order, as they are in one moment. */
static void show_class(struct store s, uint64_t tablet, uint64_t child, uint64_t entries)
{
    struct operation list = {GEMANDROLO_LIST, 2 * child, entries};
    struct outcome answer;
    if (!transaction(s, tablet, &list, 1, &answer))
        exit(1);
    printf("class list from child %" PRIu64 " on:", child);
    for (uint64_t i = 0; i < answer.a; i++) {
        const uint8_t *pair = s.out + i * GEMANDROLO_PAIR_BYTES;
        uint64_t key = number(pair);
        printf("%s %" PRIu64 " %s %" PRIu64 " dB", i ? "," : "", key / 2, key % 2 ? "right" : "left", number(pair + 8));
    }
    printf("\n");
}

int main(void)
{
    uint8_t out[GEMANDROLO_MAX_PAIRS * GEMANDROLO_PAIR_BYTES];
    struct store s = {NULL, gemandrolo_length(SERVERS, SLOTS, TABLETS), out, sizeof out};
    s.mem = malloc(s.bytes);
    if (!s.mem || gemandrolo_open(s.mem, s.bytes, SERVERS, SLOTS, TABLETS) != 0)
        return 1;
    for (uint64_t child = 0; child < 40; child++)
        store_both(s, 0, child, (struct ears){20, 20});
    printf("40 children stored, both ears at 20 dB\n");

    /* Tablet 0 has written the left ear in its transaction, and is not done: nobody sees it. */
    uint64_t child = 17;
    step(s, GEMANDROLO_BEGIN, 0, 0, 0, 0, 0);
    ask(s, 0, (struct operation){GEMANDROLO_INSERT, 2 * child, 45});
    show(s, 1, child, "tablet 0 has measured the left ear only");

    /* Tablet 1 tests the same child and is done first. */
    store_both(s, 1, child, (struct ears){30, 35});
    show(s, 1, child, "tablet 1 has stored both ears");

    /* Tablet 0 goes on from what it read before, and is told that it has changed. */
    struct outcome told = ask(s, 0, (struct operation){GEMANDROLO_INSERT, 2 * child + 1, 50});
    printf("tablet 0 goes on with the right ear: outcome %" PRIu64 " (aborted), reason %" PRIu64 " (differs)\n", told.number, told.a);
    show(s, 1, child, "still");

    /* It starts again, and is now the second of the two. */
    store_both(s, 0, child, (struct ears){45, 50});
    show(s, 1, child, "tablet 0 again");

    /* The nurse at tablet 1 wants children 16 to 18 in order, both ears of each; and from child 38 on there are no more than two. */
    show_class(s, 1, 16, 6);
    show_class(s, 1, 38, 6);
    free(s.mem);
    return 0;
}
