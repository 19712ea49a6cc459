// What the programs share that make the calls of a list: the file's words, rooms for the lists that are lent (fuzz/rooms.h), how a difference is said.
#include "../fuzz/rooms.h"
#include "calls.h"
#include <signal.h>

// The entry whose call is made. A call that touches what it was not lent ends the program, with a line that names it.
static char entry[120];

static void stopped(int number) {
    static const char told[] = ": touches what it was not lent\n";
    (void)number;
    if (write(STDOUT_FILENO, entry, strlen(entry)) < 0 || write(STDOUT_FILENO, told, sizeof told - 1) < 0)
        _exit(2);
    _exit(1);
}

static void watched(void) {
    setvbuf(stdout, NULL, _IOLBF, BUFSIZ);
    signal(SIGSEGV, stopped);
    signal(SIGBUS, stopped);
}

static FILE *opened(const char *name) {
    FILE *file = fopen(name, "rb");
    if (!file) {
        perror(name);
        exit(2);
    }
    return file;
}

// The next number of so many bytes, low byte first.
static uint64_t number(FILE *file, size_t size) {
    uint8_t bytes[8];
    uint64_t n = 0;
    if (fread(bytes, 1, size, file) != size) {
        printf("the list breaks off\n");
        exit(1);
    }
    while (size--)
        n = n << 8 | bytes[size];
    return n;
}

static void say(const char *word, uint64_t n) {
    printf("%s%llu", word, (unsigned long long)n);
}

// The word or byte at a place, and what was wanted there.
static void say_difference(const char *list, size_t at, uint64_t is, uint64_t wanted) {
    printf("%s %zu is %016llx for %016llx", list, at, (unsigned long long)is, (unsigned long long)wanted);
}
