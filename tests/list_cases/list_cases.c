// Makes the calls in the file `list` (tools/list_cases.py says how it is made) with their lists, and holds the answer and every list to what stands
// there: a line a kind of call, and one for each thing that differs.
#define LARGEST (297 * 4096) // the records of a report that has one too many
#include "../lists.h"

// The lists of an entry. The parameters, the limits and the corotated law cannot be written.
enum { PARAMETERS, LIMITS, COROTATED, ZONES, RECORDS, ANSWERS, TALLIES, BYTES, LISTS };
static struct list {
    const char *name;
    size_t size, most; // of an entry, and how many there are at most
    struct room room;
    size_t length;
    uint8_t *first;
} lists[LISTS] = {
    {.name = "parameters", .size = 8, .most = 20},   {.name = "limits", .size = 8, .most = 20},
    {.name = "corotated", .size = 8, .most = 20},    {.name = "zones", .size = 8, .most = 300},
    {.name = "records", .size = 8, .most = 151600},  {.name = "answers", .size = 8, .most = 410},
    {.name = "tallies", .size = 8, .most = 1300},    {.name = "bytes", .size = 1, .most = 59300},
};

#define WORDS(list) (uint64_t *)lists[list].first, lists[list].length
#define P WORDS(PARAMETERS)
#define L WORDS(LIMITS)
#define C WORDS(COROTATED)
#define Z WORDS(ZONES)
#define R WORDS(RECORDS)
#define A WORDS(ANSWERS)
#define T WORDS(TALLIES)
#define B lists[BYTES].first, lists[BYTES].length

// An entry's call, by its number in tools/list_cases.py: its refusal or 0. `x` is the model or how many particles, `y` a move's particle and `w` its
// zone. Two reports stand in P and L, the progress in Z; counts, a header, a state, a report, or the length written in T.
static uint8_t called(uint64_t number, uint64_t x, uint64_t y, uint64_t w) {
    switch (number) {
    case 0:
        return pasoletu_pass(x, P, R, A, T);
    case 1:
        return pasoletu_pass_factored(x, P, R, A, T);
    case 2:
        return pasoletu_flat_pass(x, P, R, A, T);
    case 3:
        return pasoletu_factor_list(R, A, T);
    case 4:
        return pasoletu_fill_determinants(R);
    case 5:
        return pasoletu_pass_with_failure(x, P, L, C, R, A, T);
    case 6:
        return pasoletu_pass_factored_with_failure(x, P, L, C, R, A, T);
    case 7:
        return pasoletu_pass_by_zone(x, P, Z, R, A, T);
    case 8:
        return pasoletu_pass_with_failure_by_zone(x, P, L, C, Z, R, A, T);
    case 9:
        return pasoletu_clear_tallies(x, Z, T);
    case 10:
        return pasoletu_move_particle(x, y, w, Z, T);
    case 11:
        return pasoletu_read_sheet(B, T, R);
    case 12:
        return pasoletu_run_sheet(B, R, A, T);
    case 13:
        return pasoletu_write_sheet(x, P, R, B, T);
    case 14:
        return pasoletu_begin_parts(T);
    case 15:
        return pasoletu_part(B, T, R, A, Z);
    case 16:
        return pasoletu_end_parts(R, A, T, Z);
    case 17:
        return pasoletu_report(R, T);
    case 18:
        return pasoletu_join_reports(P, L, T);
    default:
        return 255;
    }
}

// A list in the file is its length, how many of its entries stand there, the entry that all others have, and those that stand there.
struct spelled {
    size_t length, there;
    uint64_t other;
};

static struct spelled heading(FILE *file) {
    size_t length = number(file, 8), there = number(file, 8);
    return (struct spelled){length, there, number(file, 8)};
}

static void entries_into(FILE *file, struct spelled s, size_t size, uint8_t *room) {
    for (size_t k = 0; k < s.length; k++) {
        uint64_t n = k < s.there ? number(file, size) : s.other;
        memcpy(room + size * k, &n, size);
    }
}

static void no_room(size_t length, size_t most) {
    if (length <= most)
        return;
    printf("a list of %zu in a room of %zu\n", length, most);
    exit(1);
}

// The next list, as it is before the call.
static void before(FILE *file, struct list *l) {
    struct spelled s = heading(file);
    no_room(s.length, l->most);
    size_t bytes = l->size * s.length;
    l->length = s.length;
    l->first = lend_bytes(&l->room, bytes);
    entries_into(file, s, l->size, l->first);
    if (l - lists < ZONES)
        l->first = l->room.read + l->room.bytes - bytes;
}

static uint64_t entry_at(const uint8_t *list, size_t size, size_t k) {
    uint64_t n = 0;
    memcpy(&n, list + size * k, size);
    return n;
}

// Whether a list after the call is the file's next; where it isn't, the first place is named. All of the file's list is read.
static int after(FILE *file, struct list *l) {
    struct spelled s = heading(file);
    no_room(s.length, l->most);
    size_t bytes = l->size * l->length, at = 0;
    uint8_t *want = wanted_bytes(&l->room, l->size * s.length);
    entries_into(file, s, l->size, want);
    if (s.length == l->length && memcmp(l->first, want, bytes) == 0 && kept_before(&l->room, bytes))
        return 1;
    printf("%s: ", entry);
    if (s.length != l->length) {
        say_difference(l->name, s.length, l->length, s.length);
    } else {
        while (at < l->length && entry_at(l->first, l->size, at) == entry_at(want, l->size, at))
            at++;
        if (at < l->length)
            say_difference(l->name, at, entry_at(l->first, l->size, at), entry_at(want, l->size, at));
        else
            printf("%s: written before the list", l->name);
    }
    printf("\n");
    return 0;
}

// The next entry: whether its call answered, and left every list, as the file has it.
static int same(FILE *file, uint64_t call) {
    uint64_t wanted = number(file, 8), x = number(file, 8), y = number(file, 8), w = number(file, 8);
    for (size_t k = 0; k < LISTS; k++)
        before(file, &lists[k]);
    uint8_t answer = called(call, x, y, w);
    int agrees = answer == wanted;
    if (!agrees) {
        printf("%s", entry);
        say(": returns ", answer);
        say(" for ", wanted);
        printf("\n");
    }
    for (size_t k = ZONES; k < LISTS; k++)
        agrees &= after(file, &lists[k]);
    return agrees;
}

static void say_counted(const char *name, uint64_t entries, uint64_t differ) {
    printf("%s", name);
    say(": entries ", entries);
    say(", differ ", differ);
    printf("\n");
}

// The next kind of call: its name, its number, how many entries it has, and these, numbered from the first on. How many there were, and how many differ, are
// added to those before.
static void kind(FILE *file, uint64_t *entries, uint64_t *differ) {
    char name[60] = "";
    struct spelled s = heading(file);
    no_room(s.length, sizeof name - 1);
    entries_into(file, s, 1, (uint8_t *)name);
    uint64_t call = number(file, 8), count = number(file, 8), wrong = 0;
    for (uint64_t k = 0; k < count; k++) {
        snprintf(entry, sizeof entry, "%s, entry %llu", name, (unsigned long long)(*entries + k));
        wrong += !same(file, call);
    }
    say_counted(name, count, wrong);
    *entries += count;
    *differ += wrong;
}

static int ended(FILE *file) {
    int next = getc(file);
    ungetc(next, file);
    return next == EOF;
}

int main(void) {
    uint64_t entries = 0, differ = 0;
    watched();
    for (size_t k = 0; k < LISTS; k++)
        lists[k].room = room_of(lists[k].size * lists[k].most);
    FILE *file = opened("list");
    while (!ended(file))
        kind(file, &entries, &differ);
    fclose(file);
    say_counted("all", entries, differ);
    return differ != 0;
}
