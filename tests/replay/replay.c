// Replays lists of answers from elsewhere (beside/README.md says how each is made) through the library's calls: how many there were of each call,
// how many of them are refused, how many differ, and the first that does.
//
// An entry is the call's number in a byte, the refusal's number or 0 in a byte, the inputs as words and, after a 0, the outputs. A byte 255 ends a list.
#include "../lists.h"

static uint64_t word_at(size_t at);
static double float_at(size_t at);
static const uint64_t *given(size_t at, size_t n);
static uint64_t *lent(size_t at, size_t n);
#define WORD(at) word_at(at)
#define NUMBER(at) float_at(at)
#define GIVEN(at, n) given(at, n), n
#define OUT(at, n) lent(at, n), n
#include "numbers.h"

// The entry's inputs, and the lists that are lent, one after another, before its call and after it.
static uint64_t inputs[MOST_IN], out[MOST_OUT];
// Every list that is given to a call or lent is in a room of its own.
static struct room given_rooms[MOST_LISTS];
static struct {
    struct room room;
    size_t at, n;
    const uint64_t *words;
} lists[MOST_LISTS];
static size_t givens, lents;

static uint64_t word_at(size_t at) {
    return inputs[at];
}

static double float_at(size_t at) {
    double x;
    memcpy(&x, &inputs[at], sizeof x);
    return x;
}

static const uint64_t *given(size_t at, size_t n) {
    return show(&given_rooms[givens++], inputs + at, n);
}

static uint64_t *lent(size_t at, size_t n) {
    uint64_t *words = lend(&lists[lents].room, out + at, n);
    lists[lents].at = at;
    lists[lents].n = n;
    lists[lents++].words = words;
    return words;
}

// What stands in a lent place that holds no record: no call writes it.
#define UNWRITTEN 0x7ff4deadbeef0001ULL

struct entry {
    unsigned call, refusal;
    uint64_t left[MOST_OUT]; // the lists as the call must leave them: after a refusal as they were lent
};

static void words(FILE *file, size_t n, uint64_t *room) {
    for (size_t k = 0; k < n; k++)
        room[k] = number(file, 8);
}

// Whether there is a next entry; its inputs are read, and its lists are as they are lent.
static int next(FILE *file, struct entry *e) {
    e->call = number(file, 1);
    if (KINDS <= e->call)
        return 0;
    e->refusal = number(file, 1);
    words(file, INPUTS[e->call], inputs);
    for (size_t k = 0; k < MOST_OUT; k++)
        out[k] = UNWRITTEN;
    memcpy(out, inputs + INPUTS[e->call] - LENT[e->call], 8 * LENT[e->call]);
    memcpy(e->left, out, sizeof e->left);
    if (!e->refusal)
        words(file, OUTPUTS[e->call], e->left);
    return 1;
}

// Makes the entry's call, and has its lists in `out` as it left them; its refusal, and whether nothing was written before a list.
static unsigned call(const struct entry *e, int *within) {
    givens = lents = 0;
    unsigned refusal = called(e->call);
    *within = 1;
    for (size_t k = 0; k < lents; k++) {
        memcpy(out + lists[k].at, lists[k].words, 8 * lists[k].n);
        *within &= kept_before(&lists[k].room, 8 * lists[k].n);
    }
    return refusal;
}

// Whether an entry's call answers as it should and leaves every lent list as it should; where it is the first that does not, it is named.
static int same(const char *list, const struct entry *e, uint64_t n, int named) {
    int within;
    snprintf(entry, sizeof entry, "%s, entry %llu, call %u", list, (unsigned long long)n, e->call);
    unsigned refusal = call(e, &within);
    size_t at = 0;
    while (at < MOST_OUT && out[at] == e->left[at])
        at++;
    int agrees = refusal == e->refusal && at == MOST_OUT && within;
    if (agrees || named)
        return agrees;
    printf("%s: refusal %u for %u", entry, refusal, e->refusal);
    if (at < MOST_OUT)
        say_difference("; word", at, out[at], e->left[at]);
    printf(within ? "\n" : "; written before a list\n");
    return 0;
}

// Replays a list; how many entries differ, with those before it.
static uint64_t replay(const char *list, uint64_t differ, uint64_t *counts, uint64_t *refused) {
    FILE *file = opened(list);
    struct entry e;
    for (uint64_t n = 0; next(file, &e); n++) {
        counts[e.call]++;
        refused[e.call] += e.refusal != 0;
        differ += !same(list, &e, n, 0 < differ);
    }
    fclose(file);
    return differ;
}

int main(void) {
    static const char *const files[] = {"list", "flat", "readings"};
    static uint64_t counts[KINDS], refused[KINDS];
    uint64_t all = 0, differ = 0;
    watched();
    for (size_t k = 0; k < MOST_LISTS; k++) {
        given_rooms[k] = room_of(8 * MOST_IN);
        lists[k].room = room_of(8 * MOST_OUT);
    }
    for (size_t k = 0; k < sizeof files / sizeof *files; k++)
        differ = replay(files[k], differ, counts, refused);
    for (unsigned k = 0; k < KINDS; k++) {
        all += counts[k];
        if (counts[k])
            printf("call %u: %llu, refused %llu\n", k, (unsigned long long)counts[k], (unsigned long long)refused[k]);
    }
    say("calls replayed ", all);
    say(", differ ", differ);
    printf("\n");
    return differ != 0;
}
