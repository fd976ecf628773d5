/* How much stack a call takes: it runs in a thread whose stack was painted before, and what lost its
 * paint is counted, less what a thread takes that does nothing.
 *   stack JOB    of a job's bytes in a file, and of an empty job
 */
#include "../link/stroke.h"

#include <pthread.h>
#include <stdio.h>
#include <stdlib.h>
#include <string.h>
#include <sys/mman.h>

enum { STACK = 4 << 20, PAINT = 0xA5, MOST = 1 << 20 };

static uint8_t job[MOST];
static size_t job_length;
static uint8_t bytes[MOST];
static struct stroke_answer answer;

static void nothing(void) {}

static void plain(void) {
    stroke_job(job, job_length, bytes, sizeof bytes, &answer);
}

static void long_runs(void) {
    stroke_job_long(job, job_length, bytes, sizeof bytes, &answer);
}

static void by_rows(void) {
    stroke_job_by_rows(job, 0, job, job_length, bytes, sizeof bytes, &answer);
}

static void long_by_rows(void) {
    stroke_job_long_by_rows(job, 0, job, job_length, bytes, sizeof bytes, &answer);
}

struct call {
    const char *name;
    void (*run)(void);
};

static void *run(void *call) {
    ((struct call *)call)->run();
    return NULL;
}

static size_t taken(struct call *call) {
    uint8_t *stack = mmap(NULL, STACK, PROT_READ | PROT_WRITE, MAP_PRIVATE | MAP_ANONYMOUS, -1, 0);
    pthread_attr_t attr;
    pthread_t thread;
    if (stack == MAP_FAILED)
        exit(2);
    memset(stack, PAINT, STACK);
    pthread_attr_init(&attr);
    if (pthread_attr_setstack(&attr, stack, STACK) || pthread_create(&thread, &attr, run, call))
        exit(2);
    pthread_join(thread, NULL);
    size_t kept = 0;
    while (kept < STACK && stack[kept] == PAINT)
        kept++;
    munmap(stack, STACK);
    return STACK - kept;
}

static void tell(void) {
    struct call none = {"nothing", nothing};
    struct call calls[] = {
        {"stroke_job", plain},
        {"stroke_job_long", long_runs},
        {"stroke_job_by_rows", by_rows},
        {"stroke_job_long_by_rows", long_by_rows},
    };
    size_t thread = taken(&none);
    printf("a job of %zu bytes\n", job_length);
    for (size_t i = 0; i < sizeof calls / sizeof *calls; i++)
        printf("  %-24s %zu bytes\n", calls[i].name, taken(&calls[i]) - thread);
}

int main(int count, char **arguments) {
    if (count != 2) {
        fprintf(stderr, "usage: stack JOB\n");
        return 2;
    }
    tell();
    FILE *file = fopen(arguments[1], "rb");
    if (file == NULL)
        return 2;
    job_length = fread(job, 1, sizeof job, file);
    fclose(file);
    tell();
    return 0;
}
