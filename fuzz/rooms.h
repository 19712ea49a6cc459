// Lists that are lent to a call. A list ends where a page begins that cannot be touched, so a write or a read past its end stops the
// run. What stands before it in its pages is marked, and the whole of the pages is compared after the call; before them is again a page
// that cannot be touched. A list that is only read is lent through a second view of its pages that cannot be written.
#define _GNU_SOURCE
#include <stdint.h>
#include <stdio.h>
#include <stdlib.h>
#include <string.h>
#include <sys/mman.h>
#include <unistd.h>

#define PAGE 4096
#define MARK 0x7ff4dead0badf00dULL
#ifndef LARGEST
#define LARGEST (16 * PAGE)
#endif

static uint64_t marks[LARGEST / 8];

struct room {
    size_t bytes;        // of its pages
    uint8_t *write, *read; // the two views
    uint8_t *want;       // what the pages are to hold after the call
};

static inline uint8_t *view(int file, size_t bytes, int protection) {
    uint8_t *p = mmap(NULL, bytes + 2 * PAGE, PROT_NONE, MAP_PRIVATE | MAP_ANONYMOUS, -1, 0);
    if (p == MAP_FAILED || mmap(p + PAGE, bytes, protection, MAP_SHARED | MAP_FIXED, file, 0) == MAP_FAILED) {
        perror("rooms: mmap");
        exit(2);
    }
    return p + PAGE;
}

static inline struct room room_of(size_t bytes) {
    struct room r;
    r.bytes = (bytes + PAGE - 1) / PAGE * PAGE;
    int file = memfd_create("room", 0);
    if (file < 0 || ftruncate(file, r.bytes)) {
        perror("rooms: memfd_create");
        exit(2);
    }
    r.write = view(file, r.bytes, PROT_READ | PROT_WRITE);
    r.read = view(file, r.bytes, PROT_READ);
    r.want = malloc(r.bytes);
    close(file);
    for (size_t k = 0; k < LARGEST / 8; k++)
        marks[k] = MARK;
    return r;
}

// The last n words of the pages, which have at most LARGEST bytes; all the words are marked, then these hold what is given (marks where nothing is).
static inline uint64_t *lend(struct room *r, const uint64_t *given, size_t n) {
    size_t at = r->bytes - 8 * n;
    memcpy(r->write, marks, r->bytes);
    memcpy(r->want, marks, r->bytes);
    if (given && n) {
        memcpy(r->write + at, given, 8 * n);
        memcpy(r->want + at, given, 8 * n);
    }
    return (uint64_t *)(r->write + at);
}

// The same, only to be read.
static inline const uint64_t *show(struct room *r, const uint64_t *given, size_t n) {
    if (n)
        memcpy(r->write + r->bytes - 8 * n, given, 8 * n);
    return (const uint64_t *)(r->read + r->bytes - 8 * n);
}

static inline const uint8_t *show_bytes(struct room *r, const uint8_t *given, size_t n, int at_start) {
    size_t at = at_start ? 0 : r->bytes - n;
    if (n)
        memcpy(r->write + at, given, n);
    return r->read + at;
}

// The last n bytes of the pages, all of which are marked.
static inline uint8_t *lend_bytes(struct room *r, size_t n) {
    return (uint8_t *)lend(r, NULL, 0) - n;
}

// Where the lent list of n bytes is to hold what it should.
static inline uint8_t *wanted_bytes(struct room *r, size_t n) {
    return r->want + r->bytes - n;
}

// Where the lent list of n words is to hold what it should.
static inline uint64_t *wanted(struct room *r, size_t n) {
    return (uint64_t *)(r->want + r->bytes) - n;
}

static inline int kept(const struct room *r) {
    return memcmp(r->write, r->want, r->bytes) == 0;
}

// Whether all that stands before the lent list of n bytes is as it was.
static inline int kept_before(const struct room *r, size_t n) {
    return memcmp(r->write, r->want, r->bytes - n) == 0;
}
