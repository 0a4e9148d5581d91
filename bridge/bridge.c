/*
 * The bridge: makes calls of the proved library on behalf of another process, for hosts whose own programs cannot link x86-64 code,
 * and for measuring. Requests come on standard input, replies go to standard output. All numbers are 64 bits, low byte first.
 *
 *   request  op (1 analyse, 2 direct, 3 list), times, stack (0 or 1), file_len, setting_len, out_len, then the bytes of file, setting
 *            and out
 *   reply    answer, nanoseconds of all `times` calls together, bytes of stack that the library used (0 unless asked), then the
 *            bytes of out as the last call left them
 *
 * A buffer of length 0 is lent as NULL. With stack 1 the calls are made on a thread of their own, whose stack is measured.
 *
 * Exit status: 0 the input ended after a whole request; 2 a request is malformed or too large, or could not be served; 3 the library
 * wrote where it must not.
 */
#include "jorulbani.h"

/* There are no headers of the C library to build this with: here is what is used of it. */
typedef struct file FILE;
extern FILE *stdin, *stdout, *stderr;
size_t fread(void *to, size_t size, size_t count, FILE *from);
size_t fwrite(const void *from, size_t size, size_t count, FILE *to);
int fflush(FILE *to);
int fprintf(FILE *to, const char *format, ...);
int ferror(FILE *of);
_Noreturn void exit(int status);
void *malloc(size_t size);
void free(void *block);
void *memset(void *to, int byte, size_t count);
int memcmp(const void *one, const void *other, size_t count);
void *memcpy(void *restrict to, const void *restrict from, size_t count);

struct timespec {
    int64_t seconds;
    int64_t nanoseconds;
};
enum { CLOCK_MONOTONIC = 1 };
int clock_gettime(int clock, struct timespec *now);

typedef union {
    uint8_t bytes[56];
    uint64_t alignment;
} pthread_attr_t;
typedef unsigned long pthread_t;
int pthread_attr_init(pthread_attr_t *attributes);
int pthread_attr_setstack(pthread_attr_t *attributes, void *lowest, size_t size);
int pthread_create(pthread_t *thread, const pthread_attr_t *attributes, void *(*run)(void *), void *argument);
int pthread_join(pthread_t thread, void **result);

enum { OP_ANALYSE = 1, OP_DIRECT = 2, OP_LIST = 3 };
enum { STATUS_REQUEST = 2, STATUS_BROKEN = 3 };
enum { FILE_LIMIT = 16 << 20, SETTING_LIMIT = 1 << 20, OUT_LIMIT = 64 << 20 };
enum { GUARD = 512, GUARD_BYTE = 0xc9 };
enum { STACK = 8 << 20, STACK_BYTE = 0xa7 };
enum { STACK_MARGIN = 256 }; /* more than the frames of run_painted and memset together */

struct request {
    uint64_t op, times, stack, file_len, setting_len, out_len;
};

struct reply {
    uint64_t answer, nanoseconds, stack;
};

/* Bytes that are lent to a call, between two guards. */
struct lent {
    uint8_t *block;
    uint8_t *bytes;
    size_t len;
};

struct task {
    uint64_t op, times;
    struct lent file, setting, out;
    const uint8_t *standing; /* where the stack stood when the library was called */
    struct reply reply;
};

static uint8_t stack[STACK] __attribute__((aligned(4096)));

static _Noreturn void fail(int status, const char *why)
{
    fprintf(stderr, "bridge: %s\n", why);
    exit(status);
}

static void *allocated(size_t size)
{
    void *block = malloc(size);

    if (block == 0) {
        fail(STATUS_REQUEST, "out of memory");
    }
    return block;
}

static struct lent read_lent(size_t len)
{
    uint8_t *block = allocated(GUARD + len + GUARD);
    struct lent lent = {block, block + GUARD, len};

    memset(block, GUARD_BYTE, GUARD);
    if (fread(lent.bytes, 1, len, stdin) != len) {
        fail(STATUS_REQUEST, "the input ends inside a request, or cannot be read");
    }
    memset(lent.bytes + len, GUARD_BYTE, GUARD);
    return lent;
}

static uint8_t *copied(struct lent lent)
{
    return memcpy(allocated(GUARD + lent.len + GUARD), lent.block, GUARD + lent.len + GUARD);
}

/* Checks that a lent buffer that is only to be read still is, with both guards, what was copied before the call. */
static void check_unchanged(struct lent lent, uint8_t *copy, const char *why)
{
    if (memcmp(lent.block, copy, GUARD + lent.len + GUARD) != 0) {
        fail(STATUS_BROKEN, why);
    }
    free(copy);
}

/* Whether a guard still has only its byte: it starts with it, and each byte equals the next. */
static int intact(const uint8_t *guard)
{
    return guard[0] == GUARD_BYTE && memcmp(guard, guard + 1, GUARD - 1) == 0;
}

static void check_guards(struct lent lent)
{
    if (!intact(lent.block)) {
        fail(STATUS_BROKEN, "the library wrote before out");
    }
    if (!intact(lent.bytes + lent.len)) {
        fail(STATUS_BROKEN, "the library wrote behind out");
    }
}

static uint64_t nanoseconds(void)
{
    struct timespec now;

    if (clock_gettime(CLOCK_MONOTONIC, &now) != 0) {
        fail(STATUS_REQUEST, "no clock");
    }
    return (uint64_t)now.seconds * 1000000000 + (uint64_t)now.nanoseconds;
}

/* What C callers may lend where there is nothing to lend: NULL. */
static uint8_t *pointer(struct lent lent)
{
    return lent.len == 0 ? 0 : lent.bytes;
}

static __attribute__((noinline)) uint64_t call(struct task *t)
{
    /* above the frame pointer that was saved there and the return address, which count as the library's */
    t->standing = (const uint8_t *)__builtin_frame_address(0) + 16;
    switch (t->op) {
    case OP_ANALYSE:
        return jorulbani_analyse(pointer(t->file), t->file.len, pointer(t->out), t->out.len);
    case OP_DIRECT:
        return jorulbani_direct(pointer(t->file), t->file.len, pointer(t->setting), t->setting.len, pointer(t->out), t->out.len);
    default:
        return jorulbani_list(pointer(t->file), t->file.len, pointer(t->out), t->out.len);
    }
}

static void run(struct task *t)
{
    uint64_t start = nanoseconds();

    for (uint64_t i = 0; i < t->times; i++) {
        t->reply.answer = call(t);
    }
    t->reply.nanoseconds = nanoseconds() - start;
}

/*
 * On a thread of its own: runs a task on a painted stack, and finds the bytes from the lowest touched one up to where the stack stood
 * at the call. That is what the library used, or, where it used less, up to the margin. The paint is put on here, because the start of a
 * thread has reached deeper than the call will stand.
 */
static void *run_painted(void *argument)
{
    struct task *t = argument;
    const uint8_t *here = __builtin_frame_address(0);
    const uint8_t *lowest = stack;

    memset(stack, STACK_BYTE, (size_t)(here - stack) - STACK_MARGIN);
    run(t);
    while (*lowest == STACK_BYTE) {
        lowest++;
    }
    t->reply.stack = (uint64_t)(t->standing - lowest);
    return 0;
}

static void run_on_thread(struct task *t)
{
    pthread_attr_t attributes;
    pthread_t thread;

    if (pthread_attr_init(&attributes) != 0 || pthread_attr_setstack(&attributes, stack, STACK) != 0 ||
        pthread_create(&thread, &attributes, run_painted, t) != 0 || pthread_join(thread, 0) != 0) {
        fail(STATUS_REQUEST, "no thread");
    }
}

/* Reads a request's numbers and checks them. Gives 0 where the input has ended. */
static int read_request(struct request *r)
{
    size_t got = fread(r, 1, sizeof *r, stdin);

    if (got == 0 && !ferror(stdin)) {
        return 0;
    }
    if (got != sizeof *r) {
        fail(STATUS_REQUEST, "the input ends inside a request, or cannot be read");
    }
    if (r->op < OP_ANALYSE || r->op > OP_LIST || r->times == 0 || r->stack > 1 || (r->op != OP_DIRECT && r->setting_len != 0)) {
        fail(STATUS_REQUEST, "malformed request");
    }
    if (r->file_len > FILE_LIMIT || r->setting_len > SETTING_LIMIT || r->out_len > OUT_LIMIT) {
        fail(STATUS_REQUEST, "request too large");
    }
    return 1;
}

static void write_reply(const struct task *t)
{
    if (fwrite(&t->reply, 1, sizeof t->reply, stdout) != sizeof t->reply ||
        fwrite(t->out.bytes, 1, t->out.len, stdout) != t->out.len || fflush(stdout) != 0) {
        fail(STATUS_REQUEST, "cannot write a reply");
    }
}

static void serve(const struct request *r)
{
    struct task t = {.op = r->op, .times = r->times};

    t.file = read_lent(r->file_len);
    t.setting = read_lent(r->setting_len);
    t.out = read_lent(r->out_len);
    uint8_t *file_copy = copied(t.file);
    uint8_t *setting_copy = copied(t.setting);

    if (r->stack != 0) {
        run_on_thread(&t);
    } else {
        run(&t);
    }

    check_unchanged(t.file, file_copy, "the library changed file, or wrote beside it");
    check_unchanged(t.setting, setting_copy, "the library changed setting, or wrote beside it");
    check_guards(t.out);
    write_reply(&t);
    free(t.file.block);
    free(t.setting.block);
    free(t.out.block);
}

int main(void)
{
    struct request r;

    while (read_request(&r)) {
        serve(&r);
    }
    return 0;
}
