/*
 * lend.c: hands sheets from standard input to the proved engine, the buffers lent in one of three ways, so that a byte read or
 * written outside them, or a stack that is too deep, ends the program:
 *
 *     lend heap           each buffer its own block of just its length: for valgrind
 *     lend edge           each buffer once at the end of mapped pages and once at their beginning, with pages that can't be
 *                         touched before and behind; the sheet's pages can only be read
 *     lend stack BYTES    in a thread with a stack of so many bytes, and a page that can't be touched below it; says on
 *                         standard error how many bytes of it were touched at most
 *
 * Standard input: for each sheet two lengths of four bytes, big-endian (sheet, report buffer), and the sheet. Standard output: for
 * each the number returned, four bytes, and the whole report buffer, every byte of which was A5 before.
 */
#define _GNU_SOURCE
#include "vachodien.h"

#include <pthread.h>
#include <stdio.h>
#include <stdlib.h>
#include <string.h>
#include <sys/mman.h>
#include <unistd.h>

enum { FILL = 0xA5, PAINT = 0x5C };

static size_t page;

static void *or_die(void *pointer, const char *what) {
    if (pointer == NULL || pointer == MAP_FAILED) {
        perror(what);
        exit(2);
    }
    return pointer;
}

static void allow(void *start, size_t length, int how) {
    if (mprotect(start, length, how) != 0) {
        perror("mprotect");
        exit(2);
    }
}

/* Pages for so many bytes, one at least, between two that can't be touched. */
static uint8_t *pages(size_t length, size_t *whole) {
    *whole = (length / page + 1) * page;
    uint8_t *map = or_die(mmap(NULL, *whole + 2 * page, PROT_NONE, MAP_PRIVATE | MAP_ANONYMOUS, -1, 0), "mmap");
    allow(map + page, *whole, PROT_READ | PROT_WRITE);
    return map + page;
}

struct call {
    const uint8_t *sheet;
    size_t sheet_length;
    uint8_t *report;
    size_t report_length;
    uint32_t number;
};

static void run(struct call *call) {
    call->number = vachodien_report(call->sheet, call->sheet_length, call->report, call->report_length);
    uint32_t checked = vachodien_check(call->sheet, call->sheet_length);
    /* The two agree on whether a sheet is malformed, and where. */
    int malformed = VACHODIEN_ANSWER(call->number) == VACHODIEN_MALFORMED;
    if (malformed ? checked != call->number : VACHODIEN_ANSWER(checked) != VACHODIEN_DONE) {
        fprintf(stderr, "check says %u, report %u\n", checked, call->number);
        exit(1);
    }
}

/* Buffers of their own blocks, just long enough. */
static void heap(struct call *call) {
    uint8_t *sheet = or_die(malloc(call->sheet_length + !call->sheet_length), "malloc");
    uint8_t *report = or_die(malloc(call->report_length + !call->report_length), "malloc");
    memcpy(sheet, call->sheet, call->sheet_length);
    memset(report, FILL, call->report_length);
    struct call lent = {sheet, call->sheet_length, report, call->report_length, 0};
    run(&lent);
    memcpy(call->report, report, call->report_length);
    call->number = lent.number;
    free(report);
    free(sheet);
}

/* Both buffers at the end of their pages, or both at the beginning. */
static void at(struct call *call, int end) {
    size_t sheet_pages, report_pages;
    uint8_t *sheet_map = pages(call->sheet_length, &sheet_pages);
    uint8_t *report_map = pages(call->report_length, &report_pages);
    uint8_t *sheet = end ? sheet_map + sheet_pages - call->sheet_length : sheet_map;
    uint8_t *report = end ? report_map + report_pages - call->report_length : report_map;
    memcpy(sheet, call->sheet, call->sheet_length);
    memset(report, FILL, call->report_length);
    allow(sheet_map, sheet_pages, PROT_READ);
    struct call lent = {sheet, call->sheet_length, report, call->report_length, 0};
    run(&lent);
    memcpy(call->report, report, call->report_length);
    call->number = lent.number;
    munmap(sheet_map - page, sheet_pages + 2 * page);
    munmap(report_map - page, report_pages + 2 * page);
}

static void edge(struct call *call) {
    uint8_t *first = or_die(malloc(call->report_length + 1), "malloc");
    at(call, 1);
    uint32_t number = call->number;
    memcpy(first, call->report, call->report_length);
    at(call, 0);
    if (number != call->number || memcmp(first, call->report, call->report_length) != 0) {
        fprintf(stderr, "at the end %u, at the beginning %u\n", number, call->number);
        exit(1);
    }
    free(first);
}

static uint8_t *stack;
static size_t stack_length, deepest;

static void *on_the_stack(void *argument) {
    run(argument);
    return NULL;
}

static void *idle(void *argument) {
    return argument;
}

/* Runs a function on the stack, painted before; gives how many bytes from its top were touched. */
static size_t thread(void *(*function)(void *), struct call *call) {
    pthread_attr_t attributes;
    pthread_t id;
    memset(stack, PAINT, stack_length);
    if (pthread_attr_init(&attributes) != 0 || pthread_attr_setstack(&attributes, stack, stack_length) != 0 ||
        pthread_create(&id, &attributes, function, call) != 0 || pthread_join(id, NULL) != 0) {
        fprintf(stderr, "no thread with %zu bytes of stack\n", stack_length);
        exit(2);
    }
    pthread_attr_destroy(&attributes);
    size_t untouched = 0;
    while (untouched < stack_length && stack[untouched] == PAINT)
        untouched++;
    return stack_length - untouched;
}

static void small_stack(struct call *call) {
    memset(call->report, FILL, call->report_length);
    size_t used = thread(on_the_stack, call);
    if (used > deepest)
        deepest = used;
}

static int read_number(size_t *number) {
    uint8_t bytes[4];
    if (fread(bytes, 1, 4, stdin) != 4)
        return 0;
    *number = (size_t)bytes[0] << 24 | (size_t)bytes[1] << 16 | (size_t)bytes[2] << 8 | bytes[3];
    return 1;
}

static void write_reply(const struct call *call) {
    uint32_t n = call->number;
    uint8_t bytes[4] = {(uint8_t)(n >> 24), (uint8_t)(n >> 16), (uint8_t)(n >> 8), (uint8_t)n};
    if (fwrite(bytes, 1, 4, stdout) != 4 || fwrite(call->report, 1, call->report_length, stdout) != call->report_length)
        exit(2);
}

static void all(void (*way)(struct call *)) {
    size_t sheet_length, report_length;
    while (read_number(&sheet_length) && read_number(&report_length)) {
        uint8_t *sheet = or_die(malloc(sheet_length + 1), "malloc");
        uint8_t *report = or_die(malloc(report_length + 1), "malloc");
        if (fread(sheet, 1, sheet_length, stdin) != sheet_length)
            exit(2);
        struct call call = {sheet, sheet_length, report, report_length, 0};
        way(&call);
        write_reply(&call);
        free(report);
        free(sheet);
    }
}

int main(int count, char **words) {
    page = (size_t)sysconf(_SC_PAGESIZE);
    if (count == 2 && strcmp(words[1], "heap") == 0) {
        all(heap);
    } else if (count == 2 && strcmp(words[1], "edge") == 0) {
        all(edge);
    } else if (count == 3 && strcmp(words[1], "stack") == 0) {
        size_t whole;
        stack_length = strtoul(words[2], NULL, 10) / page * page;
        stack = pages(stack_length, &whole);
        size_t empty = thread(idle, NULL);
        all(small_stack);
        fprintf(stderr, "stack: %zu of %zu bytes touched, %zu of them by a thread that does nothing\n", deepest,
                stack_length, empty);
    } else {
        fprintf(stderr, "use: lend heap | lend edge | lend stack BYTES\n");
        return 2;
    }
    return fflush(stdout) == 0 ? 0 : 2;
}
