/* Measures the stack that each call uses: a thread whose stack is painted makes the call, and the deepest word that lost its paint is looked for.
 * The calls run on the largest layout, A = 96 and D = 256, of each kind and edition: on what is accepted and on what is refused late. The frame of the function that
 * makes the call is counted in, since it holds the arguments that go by the stack. Prints a line for each call. */
#include "zagalume.h"

#include <pthread.h>
#include <stdio.h>
#include <stdlib.h>
#include <string.h>

enum { A = ZL_MOST_ANALOGS, D = ZL_MOST_STATUSES, ROWS = 3, STACK_WORDS = 1 << 17, ALIGNMENT = 16 };

static const uint64_t paint = 0xA5A5A5A55A5A5A5A;

static const uint32_t editions[2] = {ZL_EDITION_2013, ZL_EDITION_1999};

static uint8_t cfg[ZL_MOST_CONFIG_BYTES], files[2][3][ROWS * ZL_MOST_ROW_BYTES], out[ZL_MOST_CONFIG_BYTES];
static size_t cfg_length, file_lengths[2][3];
static int64_t shown[ZL_MOST_ROW_PLACES], row[ZL_MOST_ROW_PLACES];

static volatile uint64_t *stack;
static size_t deepest;

/* One call of the library with its arguments. edition, which counts the editions above, kind and new_kind choose a file and what is made of it; room is what is lent to be
 * written. */
struct call {
    const char *name;
    zl_answer (*make)(const struct call *call);
    uint32_t edition, kind, new_kind;
    size_t room;
    zl_answer answer;
};

static zl_answer make_config(const struct call *c)
{
    return zl_config(cfg, cfg_length, shown, c->room);
}

static zl_answer make_write_config(const struct call *c)
{
    return zl_write_config(cfg, cfg_length, c->new_kind, out, c->room);
}

static zl_answer make_check(const struct call *c)
{
    return zl_check(A, D, ROWS, c->kind, editions[c->edition], files[c->edition][c->kind], file_lengths[c->edition][c->kind]);
}

static zl_answer make_row(const struct call *c)
{
    return zl_row(A, D, ROWS, c->kind, editions[c->edition], files[c->edition][c->kind], file_lengths[c->edition][c->kind], ROWS, shown, c->room);
}

static zl_answer make_write_row(const struct call *c)
{
    return zl_write_row(A, D, ROWS, c->kind, editions[c->edition], ROWS, row, ZL_MOST_ROW_PLACES, out, c->room);
}

static zl_answer make_length(const struct call *c)
{
    return zl_length(A, D, ROWS, c->kind, editions[c->edition], files[c->edition][c->kind], file_lengths[c->edition][c->kind], c->new_kind);
}

static zl_answer make_change(const struct call *c)
{
    return zl_change(A, D, ROWS, c->kind, editions[c->edition], files[c->edition][c->kind], file_lengths[c->edition][c->kind], c->new_kind, out, c->room);
}

static zl_answer make_reason(const struct call *c)
{
    return zl_reason(c->new_kind + 1, out, c->room);
}

static inline __attribute__((always_inline)) volatile uint64_t *stack_pointer(void)
{
    volatile uint64_t *pointer;
#if defined(__x86_64__)
    __asm__ volatile("mov %%rsp, %0" : "=r"(pointer));
#elif defined(__aarch64__)
    __asm__ volatile("mov %0, sp" : "=r"(pointer));
#else
#error "how to read the stack pointer of this machine is not written here"
#endif
    return pointer;
}

/* Paints the stack below its own frame, by stores alone so that no other frame comes between, makes the call and measures. A frame begins at a
 * multiple of the stack's alignment, whether or not its first word is touched. */
static void *measure(void *given)
{
    struct call *call = given;
    volatile uint64_t *frame = stack_pointer(), *low = stack;
    for (volatile uint64_t *word = stack; word < frame; word++)
        *word = paint;
    call->answer = call->make(call);
    while (low < frame && *low == paint)
        low++;
    size_t touched = (size_t)(frame - low) * sizeof *frame;
    deepest = (touched + ALIGNMENT - 1) / ALIGNMENT * ALIGNMENT;
    return NULL;
}

/* The depth of one call, made in a thread of its own. */
static size_t depth(struct call *call)
{
    pthread_t thread;
    pthread_attr_t attributes;
    if (pthread_attr_init(&attributes) != 0 || pthread_attr_setstack(&attributes, (void *)stack, STACK_WORDS * sizeof *stack) != 0 ||
        pthread_create(&thread, &attributes, measure, call) != 0 || pthread_join(thread, NULL) != 0) {
        fprintf(stderr, "stack: no thread could be made\n");
        exit(1);
    }
    pthread_attr_destroy(&attributes);
    return deepest;
}

/* Adds a line to the configuration. */
static void add(const char *line)
{
    cfg_length += (size_t)sprintf((char *)cfg + cfg_length, "%s\r\n", line);
}

/* The largest configuration: every channel, eight rates; spaces before some of its numbers. */
static void make_configuration(void)
{
    char line[200];
    cfg_length = 0;
    add("Bench,R7,2013");
    add("352,96A,256D");
    for (int k = 1; k <= A; k++) {
        sprintf(line, "%d,Ia,A,,A,-1.234567890123456789E-100,0.5,0,-3.4028235E38,3.4028235E38,400,1,S", k);
        add(line);
    }
    for (int k = 1; k <= D; k++) {
        sprintf(line, " %d,Trip,,,0", k);
        add(line);
    }
    add("50");
    add("8");
    for (int k = 1; k <= ZL_MOST_RATES; k++) {
        sprintf(line, "1.5E3,%d", k);
        add(line);
    }
    add("28/02/2012,23:59:59.999999999");
    add("01/03/2012,00:00:00.000000");
    add("BINARY32");
    add("1");
    add("-14h59,x");
    add("F,3");
}

/* A file of each kind that an edition has, whose samples fit every kind, the first of each row missing, made by the library itself. */
static void make_files(uint32_t edition)
{
    row[ZL_ROW_TIME] = UINT32_MAX;
    for (int k = 1; k < ZL_MOST_ROW_PLACES; k++)
        row[k] = k <= A ? -32767 : 1;
    row[ZL_ROW_SAMPLES] = ZL_NONE;
    for (uint32_t kind = ZL_ASCII; kind <= ZL_BINARY32; kind++) {
        size_t length = 0;
        for (uint32_t n = 1; n <= ROWS; n++)
            length += zl_write_row(A, D, ROWS, kind, editions[edition], n, row, ZL_MOST_ROW_PLACES, files[edition][kind] + length,
                                   ZL_MOST_ROW_BYTES).length;
        file_lengths[edition][kind] = length;
    }
}

/* The deepest use of a call over the kinds and the editions, with room and without, on a good file and on one whose last row is bad, for so many new kinds or numbers. */
static size_t deepest_of(struct call call, uint32_t numbers)
{
    size_t most = 0, room = call.room;
    for (uint32_t k = 0; k < 24 * numbers; k++) {
        call.kind = k % 3;
        call.room = k / 3 % 2 == 0 ? room : 0;
        call.edition = k / 12 % 2;
        call.new_kind = k / 24;
        size_t length = file_lengths[call.edition][call.kind];
        if (length == 0) /* the edition lacks the kind */
            continue;
        uint8_t *near_end = &files[call.edition][call.kind][length - 3], kept = *near_end;
        if (k / 6 % 2 == 1)
            *near_end = '!';
        depth(&call); /* once before it counts, so that the linker's own work at a first call is done */
        size_t used = depth(&call);
        *near_end = kept;
        if (k % 24 == 0 && call.answer.number != ZL_YES) {
            fprintf(stderr, "stack: %s is refused with %u\n", call.name, (unsigned)call.answer.number);
            exit(1);
        }
        most = used > most ? used : most;
    }
    return most;
}

int main(void)
{
    static const struct call config = {"zl_config", make_config, 0, 0, 0, ZL_CONFIG_PLACES, {0, 0, 0, 0}};
    static const struct call write_config = {"zl_write_config", make_write_config, 0, 0, 0, sizeof out, {0, 0, 0, 0}};
    static const struct call check = {"zl_check", make_check, 0, 0, 0, 0, {0, 0, 0, 0}};
    static const struct call show = {"zl_row", make_row, 0, 0, 0, ZL_MOST_ROW_PLACES, {0, 0, 0, 0}};
    static const struct call write = {"zl_write_row", make_write_row, 0, 0, 0, sizeof out, {0, 0, 0, 0}};
    static const struct call length = {"zl_length", make_length, 0, 0, 0, 0, {0, 0, 0, 0}};
    static const struct call change = {"zl_change", make_change, 0, 0, 0, sizeof out, {0, 0, 0, 0}};
    static const struct call reason = {"zl_reason", make_reason, 0, 0, 0, sizeof out, {0, 0, 0, 0}};
    const struct call *const calls[] = {&config, &write_config, &check, &show, &write, &length, &change, &reason};
    const uint32_t numbers[] = {1, 3, 1, 1, 1, 3, 3, ZL_REFUSED_NO_ROOM};
    void *memory;
    if (posix_memalign(&memory, 4096, STACK_WORDS * sizeof *stack) != 0)
        return 1;
    stack = memory;
    make_configuration();
    make_files(0);
    make_files(1);
    for (size_t k = 0; k < sizeof calls / sizeof calls[0]; k++)
        printf("%-17s%zu\n", calls[k]->name, deepest_of(*calls[k], numbers[k]));
    free(memory);
    return 0;
}
