/* The caller in C of bench/library_c: sessions over a list of records, timed inside this process.

   `time RECORDS CHANGES` writes the nanoseconds of a call of editlens_session_step, and of the same with its text and its record taken;
   `many SESSIONS` the bytes of memory that a session of one record takes; `threads COUNT RECORDS CHANGES` the seconds that threads with a
   session each take for these changes each. */
#define _GNU_SOURCE
#include "editlens.h"

#include <pthread.h>
#include <stdio.h>
#include <stdlib.h>
#include <string.h>
#include <time.h>

static const char program[] = "main each {name ~ label: id text, left age: int, right note: text}\n";

static uint8_t *taken = NULL;
static size_t room = 0;

static double seconds(clockid_t clock) {
    struct timespec now;
    clock_gettime(clock, &now);
    return (double)now.tv_sec + (double)now.tv_nsec / 1e9;
}

static void *opened(void) {
    void *session = calloc(1, editlens_session_size());
    if (session == NULL) {
        exit(2);
    }
    editlens_session_open(session, (const uint8_t *)program, sizeof program - 1);
    if (editlens_session_status(session).status != EDITLENS_DONE) {
        exit(3);
    }
    return session;
}

static size_t give(void *session, const char *line, int len) {
    struct editlens_answer answer = editlens_session_step(session, (const uint8_t *)line, (size_t)len);
    if (answer.status != EDITLENS_DONE) {
        exit(4);
    }
    return answer.len;
}

static void take(void *session, size_t len) {
    if (len > room) {
        room = 2 * len;
        taken = realloc(taken, room);
    }
    if (taken == NULL || editlens_session_text(session, taken, room).status != EDITLENS_DONE) {
        exit(5);
    }
}

/* A session with this many records. */
static void *filled(long records) {
    char line[128];
    void *session = opened();
    for (long left = records; left > 0; left -= 10000) {
        give(session, line, sprintf(line, "{\"side\":\"left\",\"edit\":[{\"ins\":%ld}]}", left < 10000 ? left : 10000));
    }
    return session;
}

static int change(char *line, long records, long number) {
    return sprintf(line, "{\"side\":\"left\",\"edit\":[{\"mod\":[%ld,[{\"at\":[\"name\",[{\"set\":\"n%ld\"}]]}]]}]}", number * 7919 % records, number);
}

static void by_time(long records, long changes) {
    char line[128];
    void *session = filled(records);
    double start = seconds(CLOCK_PROCESS_CPUTIME_ID);
    for (long i = 0; i < changes; i++) {
        give(session, line, change(line, records, i));
    }
    double steps = seconds(CLOCK_PROCESS_CPUTIME_ID) - start;
    start = seconds(CLOCK_PROCESS_CPUTIME_ID);
    for (long i = 0; i < changes; i++) {
        take(session, give(session, line, change(line, records, i)));
        struct editlens_answer shown = editlens_session_show(session, EDITLENS_CHANGE);
        if (shown.status != EDITLENS_DONE) {
            exit(6);
        }
        take(session, shown.len);
    }
    double logged = seconds(CLOCK_PROCESS_CPUTIME_ID) - start;
    printf("%.0f %.0f\n", steps / (double)changes * 1e9, logged / (double)changes * 1e9);
    editlens_session_close(session);
    free(session);
}

/* The resident memory of this process, in bytes. */
static double resident(void) {
    long pages = 0;
    FILE *file = fopen("/proc/self/statm", "r");
    if (file == NULL || fscanf(file, "%*d %ld", &pages) != 1) {
        exit(7);
    }
    fclose(file);
    return (double)pages * 4096;
}

static void by_memory(long count) {
    void **sessions = malloc((size_t)count * sizeof *sessions);
    double before = resident();
    for (long i = 0; i < count; i++) {
        sessions[i] = filled(1);
    }
    printf("%.0f %zu\n", (resident() - before) / (double)count, editlens_session_size());
    for (long i = 0; i < count; i++) {
        editlens_session_close(sessions[i]);
        free(sessions[i]);
    }
    free(sessions);
}

struct work {
    long records, changes;
};

static void *run(void *given) {
    const struct work *work = given;
    char line[128];
    void *session = filled(work->records);
    for (long i = 0; i < work->changes; i++) {
        give(session, line, change(line, work->records, i));
    }
    editlens_session_close(session);
    free(session);
    return NULL;
}

static void by_threads(long count, long records, long changes) {
    struct work work = {records, changes};
    pthread_t threads[64];
    double start = seconds(CLOCK_MONOTONIC);
    for (long i = 0; i < count && i < 64; i++) {
        if (pthread_create(&threads[i], NULL, run, &work) != 0) {
            exit(8);
        }
    }
    for (long i = 0; i < count && i < 64; i++) {
        pthread_join(threads[i], NULL);
    }
    printf("%.3f\n", seconds(CLOCK_MONOTONIC) - start);
}

int main(int words, char **word) {
    long numbers[3] = {0, 0, 0};
    for (int i = 2; i < words && i < 5; i++) {
        numbers[i - 2] = atol(word[i]);
    }
    if (words == 4 && strcmp(word[1], "time") == 0) {
        by_time(numbers[0], numbers[1]);
    } else if (words == 3 && strcmp(word[1], "many") == 0) {
        by_memory(numbers[0]);
    } else if (words == 5 && strcmp(word[1], "threads") == 0) {
        by_threads(numbers[0], numbers[1], numbers[2]);
    } else {
        return 1;
    }
    free(taken);
    return 0;
}
