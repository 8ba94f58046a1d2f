/* Times two programs that answer lines, taking turns: lines RATTLE C INPUT... runs both on each input, first to see that their answers are
 * the same, then from the input to /dev/null in many rounds. Prints the medians of the wall time, with the start and the end of the process,
 * the ratio Rattle / C, and the peak memory of both, on the input and on ten times the input through a pipe. A process is counted from its
 * fork on, so its peak is at least that of this program's copy, about 450 KB. */
#include <fcntl.h>
#include <stdio.h>
#include <string.h>
#include <sys/resource.h>
#include <sys/wait.h>
#include <unistd.h>

#include "timing.h"

enum { ROUNDS = 31, TIMES = 10 };

typedef struct {
    double ms;
    long peak; /* kilobytes */
} measured;

static void fail(const char *what, const char *name)
{
    fprintf(stderr, "lines: %s %s\n", name, what);
    exit(1);
}

static int opened(const char *name, int mode)
{
    int file = open(name, mode | O_CLOEXEC);
    if (file < 0)
        fail("cannot be opened", name);
    return file;
}

static pid_t forked(void)
{
    fflush(stdout);
    pid_t child = fork();
    if (child < 0)
        fail("cannot be forked", "the program");
    return child;
}

static measured run(const char *program, int in, int out)
{
    struct rusage usage;
    int status;
    double start = now();
    pid_t child = forked();
    if (child == 0) {
        if (dup2(in, 0) == 0 && dup2(out, 1) == 1)
            execl(program, program, (char *)NULL);
        _exit(127);
    }
    if (wait4(child, &status, 0, &usage) != child || status != 0)
        fail("fails", program);
    return (measured){(now() - start) / 1e6, usage.ru_maxrss};
}

static measured run_from_start(const char *program, int in, int out)
{
    lseek(in, 0, SEEK_SET);
    return run(program, in, out);
}

/* writes the input ten times */
static void feed(int in, int out)
{
    char piece[4096];
    for (int i = 0; i < TIMES; i++) {
        ssize_t length;
        lseek(in, 0, SEEK_SET);
        while ((length = read(in, piece, sizeof piece)) > 0)
            if (write(out, piece, (size_t)length) != length)
                _exit(1);
    }
    _exit(0);
}

/* the peak memory on ten times the input */
static long peak_of_many(const char *program, int in, int out)
{
    int ends[2], status;
    if (pipe(ends) != 0)
        fail("cannot be made", "a pipe");
    pid_t feeder = forked();
    if (feeder == 0) {
        close(ends[0]);
        feed(in, ends[1]);
    }
    close(ends[1]);
    long peak = run(program, ends[0], out).peak;
    close(ends[0]);
    if (waitpid(feeder, &status, 0) != feeder || status != 0)
        fail("does not read all of its input", program);
    return peak;
}

/* both give the same answers */
static int agree(const char *const programs[2], int in)
{
    FILE *answers[2];
    for (int who = 0; who < 2; who++) {
        answers[who] = tmpfile();
        if (answers[who] == NULL)
            fail("cannot be made", "a file");
        run_from_start(programs[who], in, fileno(answers[who]));
        rewind(answers[who]);
    }
    int a, b;
    do {
        a = getc(answers[0]);
        b = getc(answers[1]);
    } while (a == b && a != EOF);
    fclose(answers[0]);
    fclose(answers[1]);
    return a == b;
}

/* the two programs on one input, taking turns */
static void measure(const char *const programs[2], const char *name, int in, int out)
{
    static double times[2][ROUNDS];
    long peak[2] = {0, 0};
    for (int round = 0; round < ROUNDS; round++) {
        for (int who = 0; who < 2; who++) {
            measured m = run_from_start(programs[who], in, out);
            times[who][round] = m.ms;
            peak[who] = m.peak > peak[who] ? m.peak : peak[who];
        }
    }
    double rattle = median(times[0], ROUNDS), c = median(times[1], ROUNDS);
    const char *slash = strrchr(name, '/');
    printf("%-16s %12.2f %12.2f %8.2f %12ld %12ld %12ld %12ld\n", slash == NULL ? name : slash + 1, rattle, c, rattle / c, peak[0],
           peak_of_many(programs[0], in, out), peak[1], peak_of_many(programs[1], in, out));
}

int main(int count, char **words)
{
    if (count < 4) {
        fprintf(stderr, "usage: lines RATTLE C INPUT...\n");
        return 1;
    }
    const char *const programs[2] = {words[1], words[2]};
    int out = opened("/dev/null", O_WRONLY);
    printf("%-16s %12s %12s %8s %25s %25s\n", "", "Rattle", "C", "", "peak KB, Rattle", "peak KB, C");
    printf("%-16s %12s %12s %8s %12s %12s %12s %12s\n", "lines", "ms", "ms", "ratio", "input", "ten times", "input", "ten times");
    for (int i = 3; i < count; i++) {
        int in = opened(words[i], O_RDONLY);
        if (!agree(programs, in)) {
            printf("%s: the two differ\n", words[i]);
            return 1;
        }
        measure(programs, words[i], in, out);
        close(in);
    }
    return 0;
}
