/* Refuses calls of the program that it is loaded into (LD_PRELOAD), for tests/refuse.py.
 *
 * REFUSED says what is refused: a request for memory, or a read or write, which fails, moves one byte, or is interrupted. From the
 * FIRSTth on every STEPth call is refused, each in a process of its own that is forked there and goes on from there; the first process
 * goes on as if nothing were. REPORT is a descriptor, to which a record of each of these processes is written: a line `run CALL STATUS
 * PRINTED OUTPUT ERROR FILE`, and what it printed, told and left in the file KEPT, which is taken away. PRINTED is how much was printed
 * before it began, OUTPUT to FILE count bytes. STATUS is that of `waitpid`. At the end stands `end CALLS PRINTED MARKS`.
 *
 * LINES is a file that comes as standard input, one line with each read; a record `line PRINTED` stands for each. Where the line that
 * came last is answered that there is no memory, the lines of AGAIN come, that line again, and the rest.
 *
 * With ONLY the call of that number is refused in this process, which may have threads, and nothing is reported but the end. With MARKS
 * no request for memory is met between `no memory` and `memory`, which the program writes on standard error. */
#define _GNU_SOURCE
#include <dlfcn.h>
#include <errno.h>
#include <fcntl.h>
#include <pthread.h>
#include <stdio.h>
#include <stdlib.h>
#include <string.h>
#include <sys/mman.h>
#include <sys/stat.h>
#include <sys/syscall.h>
#include <sys/wait.h>
#include <unistd.h>

extern void *__libc_malloc(size_t), *__libc_realloc(void *, size_t), *__libc_calloc(size_t, size_t);
enum { MEMORY = 'm', FAILS = 'f', SHORT = 's', INTERRUPTED = 'i' };
enum { FIRST_FILES = 16, SECONDS = 600 };
static const char REFUSAL[] = "refused 40 NoMemory\n";

/* What is refused: the first letter of its name. How many of these calls there were. */
static char kind;
static long first, step, only, calls;
/* How much was printed, and where reports go. */
static long printed;
static int report = -1;
/* What a process that is refused a call prints and tells. */
static int output = -1, error = -1;
static int is_refused, is_marked, is_gone;
/* How often there was no memory to be had. */
static long marks;
/* The lines that come, and where the last one begins. */
static const char *next_line, *last_line, *lines_end, *again;
static long again_length;

static long number(const char *name) {
    const char *text = getenv(name);
    return text ? strtol(text, 0, 10) : 0;
}

/* Writes all these bytes to a descriptor. */
static void put(int file, const char *bytes, long length) {
    while (length > 0) {
        long count = syscall(SYS_write, file, bytes, length);
        if (count <= 0) return;
        bytes += count;
        length -= count;
    }
}

/* The bytes of an open file, and how many they are. */
static char *mapped(int file, long *length) {
    struct stat found;
    *length = file >= 0 && !fstat(file, &found) ? found.st_size : 0;
    return *length ? mmap(0, *length, PROT_READ, MAP_PRIVATE, file, 0) : 0;
}

static const char *mapped_name(const char *variable, long *length) {
    const char *name = getenv(variable);
    int file = name ? open(name, O_RDONLY) : -1;
    const char *bytes = mapped(file, length);
    if (file >= 0) close(file);
    return bytes;
}

static void tell(const char *word, const long *numbers, int count) {
    char text[200];
    int place, length = snprintf(text, sizeof text, "%s", word);
    for (place = 0; place < count; place++) length += snprintf(text + length, sizeof text - length, " %ld", numbers[place]);
    text[length++] = '\n';
    if (report >= 0) put(report, text, length);
}

static void end(int status, void *none) {
    (void)status;
    (void)none;
    if (!is_refused) tell("end", (long[]){calls, printed, marks}, 3);
}

__attribute__((constructor)) static void begin(void) {
    long length;
    if (getenv("REFUSED")) kind = *getenv("REFUSED");
    if (getenv("REPORT")) report = number("REPORT");
    first = number("FIRST");
    step = number("STEP");
    only = number("ONLY");
    is_marked = getenv("MARKS") != 0;
    next_line = mapped_name("LINES", &length);
    lines_end = next_line + length;
    again = mapped_name("AGAIN", &again_length);
    output = memfd_create("output", MFD_CLOEXEC);
    error = memfd_create("error", MFD_CLOEXEC);
    on_exit(end, 0);
    calls = printed = 0;
}

/* Reports the process that was refused a call, which has ended. */
static void report_run(int status) {
    const char *name = getenv("KEPT");
    int files[] = {output, error, name ? open(name, O_RDONLY) : -1};
    long lengths[3];
    char *bytes[3];
    int place;
    for (place = 0; place < 3; place++) bytes[place] = mapped(files[place], &lengths[place]);
    tell("run", (long[]){calls, status, printed, lengths[0], lengths[1], lengths[2]}, 6);
    for (place = 0; place < 3; place++) {
        put(report, bytes[place], lengths[place]);
        if (lengths[place]) munmap(bytes[place], lengths[place]);
    }
    if (files[2] >= 0) {
        close(files[2]);
        unlink(name);
    }
}

/* Has a new process be refused this call, waits for its end, and goes on: whether this is that process. */
static int is_new(void) {
    off_t places[FIRST_FILES];
    int file, status = 0;
    pid_t child;
    for (file = 0; file < FIRST_FILES; file++) places[file] = lseek(file, 0, SEEK_CUR);
    if (ftruncate(output, 0) || ftruncate(error, 0)) return 0;
    if ((child = fork()) == 0) {
        alarm(SECONDS);
        lseek(output, 0, SEEK_SET);
        lseek(error, 0, SEEK_SET);
        return is_refused = dup2(output, 1) == 1 && dup2(error, 2) == 2;
    }
    if (child < 0 || waitpid(child, &status, 0) < 0) status = -1;
    report_run(status);
    for (file = 0; file < FIRST_FILES; file++) if (places[file] >= 0) lseek(file, places[file], SEEK_SET);
    return 0;
}

/* Whether a call of this kind is refused here. */
static int refuses(char asked) {
    long call;
    if (is_refused || kind != asked) return 0;
    call = __sync_add_and_fetch(&calls, 1);
    if (only || !step) return call == only;
    return call >= first && (call - first) % step == 0 && is_new();
}

/* Whether this thread starts another. What the C library asks for then is none of the program's requests. */
static __thread int starts_thread;

int pthread_create(pthread_t *thread, const pthread_attr_t *attributes, void *(*run)(void *), void *given) {
    int (*create)(pthread_t *, const pthread_attr_t *, void *(*)(void *), void *) = dlsym(RTLD_NEXT, "pthread_create");
    int status;
    starts_thread = 1;
    status = create(thread, attributes, run, given);
    starts_thread = 0;
    return status;
}

/* Whether a request for memory is refused. */
static int has_no_memory(void) {
    if (starts_thread || (!is_gone && !refuses(MEMORY))) return 0;
    errno = ENOMEM;
    return 1;
}

void *malloc(size_t size) { return has_no_memory() ? 0 : __libc_malloc(size); }
void *calloc(size_t count, size_t size) { return has_no_memory() ? 0 : __libc_calloc(count, size); }
void *realloc(void *old, size_t size) { return has_no_memory() ? 0 : __libc_realloc(old, size); }

/* Whether a read or a write fails here, with the error in `errno`. */
static int fails(void) {
    int found = refuses(FAILS) ? EIO : refuses(INTERRUPTED) ? EINTR : 0;
    if (found) errno = found;
    return found != 0;
}

/* The next of the lines. */
static ssize_t give_line(void *bytes, size_t size) {
    const char *newline = memchr(next_line, '\n', lines_end - next_line);
    size_t length = (newline ? newline + 1 : lines_end) - next_line;
    if (length > size) length = size;
    memcpy(bytes, next_line, length);
    if (!is_refused && length) tell("line", &printed, 1);
    last_line = next_line;
    next_line += length;
    return length;
}

/* Has the last line come again, after those of AGAIN. */
static void give_again(void) {
    long left = lines_end - last_line;
    char *all = __libc_malloc(again_length + left);
    memcpy(all, again, again_length);
    memcpy(all + again_length, last_line, left);
    next_line = all;
    lines_end = all + again_length + left;
}

ssize_t read(int file, void *bytes, size_t size) {
    if (fails()) return -1;
    if (file == 0 && next_line) return give_line(bytes, size);
    return syscall(SYS_read, file, bytes, size > 1 && refuses(SHORT) ? 1 : size);
}

ssize_t write(int file, const void *bytes, size_t size) {
    long count;
    if (fails()) return -1;
    if (is_marked && file == 2 && size > 5) marks += is_gone = !memcmp(bytes, "no memory", 6);
    if (is_refused && again && file == 1 && size == strlen(REFUSAL) && !memcmp(bytes, REFUSAL, size)) give_again();
    count = syscall(SYS_write, file, bytes, size > 1 && refuses(SHORT) ? 1 : size);
    if (file == 1 && count > 0 && !is_refused) printed += count;
    return count;
}

ssize_t __write(int file, const void *bytes, size_t size) { return write(file, bytes, size); }

void _exit(int status) {
    end(status, 0);
    syscall(SYS_exit_group, status);
    __builtin_unreachable();
}
