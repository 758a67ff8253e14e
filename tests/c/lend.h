/*
 * Memory to lend to the library, exactly as long as stated. In pages: the neighbour page on one side can't be
 * touched, so that a byte read or written too far stops the program on any machine; on the other side stand guard
 * bytes. The same page is seen a second time read-only, for what the library may read and not write. On the heap:
 * for AddressSanitizer. Before including this, define _DEFAULT_SOURCE.
 */
#ifndef LEND_H
#define LEND_H

#include <stdint.h>
#include <stdio.h>
#include <stdlib.h>
#include <string.h>
#include <sys/mman.h>
#include <unistd.h>

#define GUARDS 64
#define GUARD_BYTE 0xC7

enum placing { AT_END, AT_START, ON_HEAP, PLACINGS };

struct room {
    uint8_t *writable, *readable; /* the page, seen twice */
    size_t page;
};

struct lent {
    uint8_t *writable;
    const uint8_t *readable;
    uint8_t *guards; /* NULL on the heap */
    void *heap;
};

static void must(int holds, const char *what)
{
    if (!holds) {
        perror(what);
        exit(2);
    }
}

/* One page of the file between two pages that can't be touched. */
static uint8_t *view(int file, size_t page, int rights)
{
    uint8_t *all = (uint8_t *)mmap(NULL, 3 * page, PROT_NONE, MAP_PRIVATE | MAP_ANONYMOUS, -1, 0);
    must(all != MAP_FAILED, "mmap");
    must(mmap(all + page, page, rights, MAP_SHARED | MAP_FIXED, file, 0) != MAP_FAILED, "mmap of a file");
    return all + page;
}

static void make_room(struct room *room)
{
    FILE *file = tmpfile();
    must(file != NULL, "tmpfile");
    room->page = (size_t)sysconf(_SC_PAGESIZE);
    must(ftruncate(fileno(file), (off_t)room->page) == 0, "ftruncate");
    room->writable = view(fileno(file), room->page, PROT_READ | PROT_WRITE);
    room->readable = view(fileno(file), room->page, PROT_READ);
    fclose(file);
}

/* A copy of these bytes. Of length 0: a place that can't be read at all, but at the start of a page. */
static struct lent lend(const struct room *room, enum placing placing, const void *bytes, size_t length)
{
    struct lent out = {NULL, NULL, NULL, NULL};
    size_t at = placing == AT_END ? room->page - length : 0;

    if (placing == ON_HEAP) {
        out.heap = malloc(length == 0 ? 1 : length);
        must(out.heap != NULL, "malloc");
        out.writable = (uint8_t *)out.heap + (length == 0 ? 1 : 0);
        out.readable = out.writable;
    } else {
        out.writable = room->writable + at;
        out.readable = room->readable + at;
        out.guards = placing == AT_END ? out.writable - GUARDS : out.writable + length;
        memset(out.guards, GUARD_BYTE, GUARDS);
    }
    memcpy(out.writable, bytes, length);
    return out;
}

/* Ends the loan; 1 when the guard bytes are as they were. */
static int give_back(struct lent *lent)
{
    int i, kept = 1;
    for (i = 0; lent->guards != NULL && i < GUARDS; i++) {
        kept = kept && lent->guards[i] == GUARD_BYTE;
    }
    free(lent->heap);
    return kept;
}

#endif
