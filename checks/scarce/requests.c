/* Goes before the C library by LD_PRELOAD, and runs a program many times in the place of once: with all its memory, and then with the
   first, the second, .. of its requests for memory refused, and if ONWARD is set, also with all after it refused. Each run has to end as
   the one with all its memory, or with status 6 and then with fronts of both texts. A line is printed for each that does not, and at last
   the counts of runs, of those with status 6, and of those lines. */
#define _GNU_SOURCE
#include <stdio.h>
#include <stdlib.h>
#include <string.h>
#include <sys/mman.h>
#include <sys/wait.h>
#include <unistd.h>

enum { NO_MEMORY = 6 };

extern void *__libc_malloc(size_t);
extern void *__libc_realloc(void *, size_t);

/* What a run gave: its status as `wait` has it, its count of requests, and its texts on both streams. */
struct run {
    int status;
    long requests;
    size_t length[2];
    char *text[2];
};

static long refused, onward, *requests;

static int is_refused(void) {
    if (!requests)
        return 0;
    *requests += 1;
    return refused && (onward ? *requests >= refused : *requests == refused);
}

void *malloc(size_t size) { return is_refused() ? 0 : __libc_malloc(size); }

void *realloc(void *old, size_t size) { return is_refused() ? 0 : __libc_realloc(old, size); }

static void stop(const char *why) {
    perror(why);
    _exit(99);
}

/* Makes a run, and gives 1 in it, which goes on to the program; or waits for its end. */
static int is_in_run(struct run *run) {
    int streams[2] = {memfd_create("out", 0), memfd_create("err", 0)};
    pid_t child = fork();
    if (child < 0 || streams[0] < 0 || streams[1] < 0)
        stop("no run");
    if (child == 0) {
        dup2(streams[0], 1);
        dup2(streams[1], 2);
        *requests = 0;
        return 1;
    }
    waitpid(child, &run->status, 0);
    run->requests = *requests;
    for (int stream = 0; stream < 2; stream += 1) {
        off_t end = lseek(streams[stream], 0, SEEK_END);
        run->length[stream] = end;
        run->text[stream] = end ? mmap(0, end, PROT_READ, MAP_PRIVATE, streams[stream], 0) : 0;
        close(streams[stream]);
    }
    return 0;
}

static void forget(struct run *run) {
    for (int stream = 0; stream < 2; stream += 1)
        if (run->length[stream])
            munmap(run->text[stream], run->length[stream]);
}

static int is_front(const struct run *run, const struct run *whole, int stream) {
    size_t length = run->length[stream];
    return length <= whole->length[stream] && (length == 0 || memcmp(run->text[stream], whole->text[stream], length) == 0);
}

static int is_right(const struct run *run, const struct run *whole) {
    int is_whole = run->status == whole->status && run->length[0] == whole->length[0] && run->length[1] == whole->length[1];
    int is_short = WIFEXITED(run->status) && WEXITSTATUS(run->status) == NO_MEMORY;
    return (is_whole || is_short) && is_front(run, whole, 0) && is_front(run, whole, 1);
}

__attribute__((constructor)) static void begin(void) {
    int most = getenv("ONWARD") ? 1 : 0;
    long runs = 0, short_runs = 0, wrong = 0;
    struct run whole, run;
    unsetenv("LD_PRELOAD");
    requests = mmap(0, sizeof *requests, PROT_READ | PROT_WRITE, MAP_SHARED | MAP_ANONYMOUS, -1, 0);
    if (is_in_run(&whole))
        return;
    for (refused = 1; refused <= whole.requests; refused += 1)
        for (onward = 0; onward <= most; onward += 1) {
            if (is_in_run(&run))
                return;
            runs += 1;
            short_runs += WIFEXITED(run.status) && WEXITSTATUS(run.status) == NO_MEMORY;
            if (!is_right(&run, &whole)) {
                wrong += 1;
                dprintf(1, "request %ld%s of %ld: status %d by wait, %zu bytes on out\n", refused, onward ? " and all after it" : "",
                        whole.requests, run.status, run.length[0]);
            }
            forget(&run);
        }
    dprintf(1, "%ld %ld %ld\n", runs, short_runs, wrong);
    _exit(0);
}
