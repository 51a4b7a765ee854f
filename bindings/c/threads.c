/* The rule of threads, for ThreadSanitizer: a session has one call at a time, and what one thread wrote is seen by the next. The library and this
   program are built for it.

       threads turns     four threads give lines to one session, each call under a lock: nothing may be reported
       threads apart     each of eight threads has a session of its own: nothing may be reported
       threads race      two threads use one session with no lock: this must be reported, or the two above show nothing */
#include "editlens.h"

#include <pthread.h>
#include <stdio.h>
#include <stdlib.h>
#include <string.h>
#include <unistd.h>

enum { TURNS = 4, APART = 8, LINES = 10 };

static const char PROGRAM[] = "main {plan ~ board: each {what ~ what: id text}, left hours: int}\n";
static pthread_mutex_t lock = PTHREAD_MUTEX_INITIALIZER;

/* ThreadSanitizer calls these in place of memset and its like where it is newer than the runtime that is linked, which sees the plain ones. */
__attribute__((weak)) void *__tsan_memset(void *at, int byte, size_t len) { return memset(at, byte, len); }
__attribute__((weak)) void *__tsan_memcpy(void *to, const void *from, size_t len) { return memcpy(to, from, len); }
__attribute__((weak)) void *__tsan_memmove(void *to, const void *from, size_t len) { return memmove(to, from, len); }

static void *opened(void) {
    void *session = calloc(1, editlens_session_size());
    if (editlens_session_open(session, (const uint8_t *)PROGRAM, sizeof PROGRAM - 1) != EDITLENS_DONE) {
        exit(99);
    }
    return session;
}

static void closed(void *session) {
    editlens_session_close(session);
    free(session);
}

static void step(void *session) {
    static const char line[] = "{\"side\":\"left\",\"edit\":[{\"at\":[\"plan\",[{\"ins\":1}]]},{\"at\":[\"hours\",[{\"add\":1}]]}]}";
    uint8_t text[4096];
    if (editlens_session_step(session, (const uint8_t *)line, sizeof line - 1).status != EDITLENS_DONE
        || editlens_session_text(session, text, sizeof text).status != EDITLENS_DONE
        || editlens_session_show(session, EDITLENS_RIGHT).status != EDITLENS_DONE) {
        exit(98);
    }
}

static void *step_in_turn(void *session) {
    for (int i = 0; i < LINES; i++) {
        pthread_mutex_lock(&lock);
        step(session);
        pthread_mutex_unlock(&lock);
    }
    return NULL;
}

static void *step_apart(void *nothing) {
    void *session = opened();
    for (int i = 0; i < LINES; i++) {
        step(session);
    }
    closed(session);
    return nothing;
}

/* Long after the other thread is done, and with nothing that says so. */
static void *read_later(void *session) {
    usleep(500000);
    return editlens_session_status(session).number == 1 ? NULL : session;
}

static void run(int count, void *(*each)(void *), void *session) {
    pthread_t threads[APART];
    for (int i = 0; i < count; i++) {
        if (pthread_create(&threads[i], NULL, each, session) != 0) {
            exit(97);
        }
    }
    for (int i = 0; i < count; i++) {
        pthread_join(threads[i], NULL);
    }
}

int main(int count, char **words) {
    const char *word = count == 2 ? words[1] : "";
    if (strcmp(word, "apart") == 0) {
        run(APART, step_apart, NULL);
        return 0;
    }
    void *session = opened();
    if (strcmp(word, "turns") == 0) {
        run(TURNS, step_in_turn, session);
        if (editlens_session_status(session).number != TURNS * LINES) {
            return 1;
        }
    } else if (strcmp(word, "race") == 0) {
        pthread_t reader;
        if (pthread_create(&reader, NULL, read_later, session) != 0) {
            return 97;
        }
        step(session);
        pthread_join(reader, NULL);
    } else {
        return 2;
    }
    closed(session);
    return 0;
}
