/*
 * Calls the library for jobs that standard input has, in the ways that tests/parts/library asks for:
 *
 *   jobs answer ROOM       each job with a buffer of ROOM bytes, and again if that is too small
 *   jobs front ROOM        each job once, with such a buffer
 *   jobs repeat COUNT      COUNT calls, job by job; prints by how many KiB the process has grown
 *                          since the first tenth of them
 *   jobs threads COUNT     COUNT threads that do all jobs ten times; prints how many answers differ
 *
 * A number is eight bytes, the least first. A job has three lists of parts: the number of bytes and
 * the bytes, the number of ends and the ends. An answer is the status, the length of the output,
 * that of the note, the number of bytes that follow, and these.
 */
#include <pthread.h>
#include <stdint.h>
#include <stdio.h>
#include <stdlib.h>
#include <string.h>

#include "yangcheck.h"

enum { WORDS, FILES, DOCUMENTS, LISTS, GUARD = 64, GUARD_BYTE = 0xa5, ROUNDS = 10 };

struct parts { uint8_t *bytes; size_t length, *ends, count; };
struct job { struct parts lists[LISTS]; };
struct answer { uint8_t status, *buffer; size_t room, output, note; };

static struct job *jobs;
static size_t job_count;
static struct answer *wanted;

static void stop(const char *why)
{
    fprintf(stderr, "jobs: %s\n", why);
    exit(9);
}

static void *take(size_t size)
{
    void *place = malloc(size > 0 ? size : 1);
    if (place == NULL)
        stop("no memory");
    return place;
}

static int read_number(size_t *number)
{
    uint8_t bytes[8];
    if (fread(bytes, 1, 8, stdin) != 8)
        return 0;
    *number = 0;
    for (int i = 7; i >= 0; i--)
        *number = *number << 8 | bytes[i];
    return 1;
}

static void write_number(size_t number)
{
    for (int i = 0; i < 8; i++)
        putchar((int)(number >> 8 * i & 0xff));
}

static int read_parts(struct parts *parts)
{
    if (!read_number(&parts->length))
        return 0;
    parts->bytes = take(parts->length);
    if (fread(parts->bytes, 1, parts->length, stdin) != parts->length || !read_number(&parts->count))
        stop("a job is cut");
    parts->ends = take(parts->count * sizeof *parts->ends);
    for (size_t i = 0; i < parts->count; i++)
        if (!read_number(&parts->ends[i]))
            stop("a job is cut");
    return 1;
}

static void read_jobs(void)
{
    struct job job;
    while (read_parts(&job.lists[WORDS])) {
        if (!read_parts(&job.lists[FILES]) || !read_parts(&job.lists[DOCUMENTS]))
            stop("a job is cut");
        jobs = realloc(jobs, (job_count + 1) * sizeof *jobs);
        if (jobs == NULL)
            stop("no memory");
        jobs[job_count++] = job;
    }
}

/* Calls the library with a buffer of this length. It must leave alone what is not to be written. */
static struct answer call(const struct job *job, size_t room)
{
    const struct parts *words = &job->lists[WORDS], *files = &job->lists[FILES];
    const struct parts *documents = &job->lists[DOCUMENTS];
    struct answer answer = {0, take(room + GUARD), room, 0, 0};
    memset(answer.buffer, GUARD_BYTE, room + GUARD);
    answer.status = yangcheck_run(
        words->bytes, words->length, words->ends, words->count,
        files->bytes, files->length, files->ends, files->count,
        documents->bytes, documents->length, documents->ends, documents->count,
        answer.buffer, room, &answer.output, &answer.note);
    size_t all = answer.output + answer.note;
    for (size_t i = all < room ? all : room; i < room + GUARD; i++)
        if (answer.buffer[i] != GUARD_BYTE)
            stop("a byte after the note is changed");
    return answer;
}

static struct answer whole(const struct job *job, size_t room)
{
    struct answer answer = call(job, room);
    size_t all = answer.output + answer.note;
    if (all <= room)
        return answer;
    free(answer.buffer);
    return call(job, all);
}

static void write_answers(size_t room, int is_front)
{
    for (size_t i = 0; i < job_count; i++) {
        struct answer answer = is_front ? call(&jobs[i], room) : whole(&jobs[i], room);
        size_t all = answer.output + answer.note, there = all < answer.room ? all : answer.room;
        write_number(answer.status);
        write_number(answer.output);
        write_number(answer.note);
        write_number(there);
        fwrite(answer.buffer, 1, there, stdout);
        free(answer.buffer);
    }
}

/* The memory of this process that is in use, in KiB. */
static long used(void)
{
    char line[256];
    long found = -1;
    FILE *file = fopen("/proc/self/status", "r");
    if (file == NULL)
        stop("no /proc/self/status");
    while (fgets(line, sizeof line, file) != NULL)
        if (strncmp(line, "VmRSS:", 6) == 0)
            found = strtol(line + 6, NULL, 10);
    fclose(file);
    return found;
}

static void repeat(size_t count)
{
    long first = 0;
    for (size_t i = 0; i < count; i++) {
        if (i == count / 10)
            first = used();
        free(call(&jobs[i % job_count], 1 << 16).buffer);
    }
    printf("%ld\n", used() - first);
}

static int is_same(struct answer one, struct answer other)
{
    return one.status == other.status && one.output == other.output && one.note == other.note
        && memcmp(one.buffer, other.buffer, one.output + one.note) == 0;
}

static void *work(void *differences)
{
    for (size_t round = 0; round < ROUNDS; round++)
        for (size_t i = 0; i < job_count; i++) {
            struct answer answer = whole(&jobs[i], 1 << 10);
            *(size_t *)differences += !is_same(answer, wanted[i]);
            free(answer.buffer);
        }
    return NULL;
}

static void share(size_t count)
{
    pthread_t *threads = take(count * sizeof *threads);
    size_t *differences = take(count * sizeof *differences), all = 0;
    wanted = take(job_count * sizeof *wanted);
    for (size_t i = 0; i < job_count; i++)
        wanted[i] = whole(&jobs[i], 1 << 10);
    for (size_t i = 0; i < count; i++) {
        differences[i] = 0;
        if (pthread_create(&threads[i], NULL, work, &differences[i]) != 0)
            stop("no thread");
    }
    for (size_t i = 0; i < count; i++) {
        pthread_join(threads[i], NULL);
        all += differences[i];
    }
    for (size_t i = 0; i < job_count; i++)
        free(wanted[i].buffer);
    free(wanted);
    free(differences);
    free(threads);
    printf("%zu\n", all);
}

static void forget_jobs(void)
{
    for (size_t i = 0; i < job_count; i++)
        for (int list = 0; list < LISTS; list++) {
            free(jobs[i].lists[list].bytes);
            free(jobs[i].lists[list].ends);
        }
    free(jobs);
}

int main(int count, char **words)
{
    if (count != 3)
        stop("jobs answer|front|repeat|threads NUMBER");
    size_t number = strtoul(words[2], NULL, 10);
    read_jobs();
    if (strcmp(words[1], "repeat") == 0)
        repeat(number);
    else if (strcmp(words[1], "threads") == 0)
        share(number);
    else
        write_answers(number, strcmp(words[1], "front") == 0);
    forget_jobs();
    return 0;
}
