/* Makes one allocation of a program fail: the FAIL_ALLOC-th call of malloc and realloc, counted from
   1, gives NULL. Where FAIL_ALLOC_COUNT names a file, the number of calls is written there at the end.
   tests/fail_alloc has the C library's own functions replaced by these (LD_PRELOAD).

   Where FAIL_ALLOC_EACH names a file of numbers, one a line, the program is run once for each of them,
   in a process of its own, with that allocation failing and with the file FAIL_ALLOC_INPUT as its
   input. A line for each is written to standard output: the number; the status, or the negative
   signal that ended it, that of an alarm after FAIL_ALLOC_SECONDS; the length of its output; 1 where
   that is a prefix of the file FAIL_ALLOC_OUTPUT in whole answers, else 0; the length of what it wrote
   on standard error. An answer ends with its line, or where FAIL_ALLOC_ENDS names a file of numbers,
   one a line, at each of these lengths of the output. */
#define _GNU_SOURCE
#include <fcntl.h>
#include <stdio.h>
#include <stdlib.h>
#include <string.h>
#include <sys/mman.h>
#include <sys/stat.h>
#include <sys/wait.h>
#include <unistd.h>

extern void *__libc_malloc(size_t size);
extern void *__libc_realloc(void *old, size_t size);

static long calls;
static long failing;

/* Octets of a file in memory. */
struct octets {
    const char *at;
    size_t length;
};

static void give_up(const char *what)
{
    perror(what);
    _exit(125);
}

static struct octets octets_of(int file, const char *what)
{
    struct octets all = {"", 0};
    struct stat said;
    if (file < 0 || fstat(file, &said) < 0)
        give_up(what);
    all.length = (size_t)said.st_size;
    if (all.length && (all.at = mmap(NULL, all.length, PROT_READ, MAP_PRIVATE, file, 0)) == MAP_FAILED)
        give_up(what);
    return all;
}

/* Whether a number is one of a file of numbers, one a line. */
static int is_there(size_t number, struct octets numbers)
{
    size_t each = 0;
    for (size_t k = 0; k < numbers.length; k++) {
        if (numbers.at[k] != '\n') {
            each = 10 * each + (size_t)(numbers.at[k] - '0');
            continue;
        }
        if (each == number)
            return 1;
        each = 0;
    }
    return 0;
}

/* Whether octets are a prefix of others, and end where an answer ends. */
static int is_prefix(struct octets some, struct octets all)
{
    static struct octets ends;
    const char *path = getenv("FAIL_ALLOC_ENDS");
    if (path && ends.length == 0)
        ends = octets_of(open(path, O_RDONLY), path);
    return some.length <= all.length && memcmp(some.at, all.at, some.length) == 0 &&
           (some.length == 0 || (path ? is_there(some.length, ends) : some.at[some.length - 1] == '\n'));
}

/* A file for what a process writes, which no other has. */
static int new_file(const char *name)
{
    int file = memfd_create(name, 0);
    if (file < 0)
        give_up(name);
    return file;
}

static void in_place_of(int stream, int file)
{
    if (file < 0 || dup2(file, stream) < 0)
        give_up("stream");
    close(file);
}

/* Becomes, in a process of its own, the program whose allocation of this number fails; the other says how it ended. */
static int run_in_child(long number, const char *input, struct octets whole)
{
    int output = new_file("output"), errors = new_file("errors"), status, length;
    struct octets wrote, said;
    char line[160];
    pid_t child = fork();
    if (child < 0)
        give_up("fork");
    if (child == 0) {
        in_place_of(0, open(input, O_RDONLY));
        in_place_of(1, output);
        in_place_of(2, errors);
        failing = number;
        alarm((unsigned)atoi(getenv("FAIL_ALLOC_SECONDS")));
        return 1;
    }
    if (waitpid(child, &status, 0) < 0)
        give_up("wait");
    wrote = octets_of(output, "output");
    said = octets_of(errors, "errors");
    length = snprintf(line, sizeof line, "%ld %d %zu %d %zu\n", number, WIFEXITED(status) ? WEXITSTATUS(status) : -WTERMSIG(status),
                      wrote.length, is_prefix(wrote, whole), said.length);
    if (write(1, line, (size_t)length) != length)
        give_up("standard output");
    if (wrote.length)
        munmap((void *)wrote.at, wrote.length);
    if (said.length)
        munmap((void *)said.at, said.length);
    close(output);
    close(errors);
    return 0;
}

static void run_each(const char *path)
{
    struct octets whole = octets_of(open(getenv("FAIL_ALLOC_OUTPUT"), O_RDONLY), "FAIL_ALLOC_OUTPUT");
    struct octets numbers = octets_of(open(path, O_RDONLY), path);
    long number = 0;
    for (size_t k = 0; k < numbers.length; k++) {
        if (numbers.at[k] != '\n') {
            number = 10 * number + (numbers.at[k] - '0');
            continue;
        }
        if (run_in_child(number, getenv("FAIL_ALLOC_INPUT"), whole))
            return;
        number = 0;
    }
    _exit(0);
}

__attribute__((constructor)) static void begin(void)
{
    const char *number = getenv("FAIL_ALLOC"), *each = getenv("FAIL_ALLOC_EACH");
    failing = number ? atol(number) : 0;
    if (each)
        run_each(each);
    calls = 0;
}

__attribute__((destructor)) static void end(void)
{
    const char *path = getenv("FAIL_ALLOC_COUNT");
    char line[32];
    long count = calls;
    int file = path ? open(path, O_WRONLY | O_CREAT | O_TRUNC, 0600) : -1;
    if (file < 0)
        return;
    if (write(file, line, snprintf(line, sizeof line, "%ld\n", count)) < 0)
        perror(path);
    close(file);
}

void *malloc(size_t size)
{
    return ++calls == failing ? NULL : __libc_malloc(size);
}

void *realloc(void *old, size_t size)
{
    return ++calls == failing ? NULL : __libc_realloc(old, size);
}
