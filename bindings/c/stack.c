/* How small a stack the calls need, for scripts that are deep: the same calls in a thread of each size, in a process of its own.

   The sizes are halved until the least is found to a page or two. The status is 1 if more than 256 KiB are needed. */
#define _GNU_SOURCE
#include "editlens.h"

#include <pthread.h>
#include <stdio.h>
#include <stdlib.h>
#include <string.h>
#include <sys/mman.h>
#include <sys/wait.h>
#include <unistd.h>

enum { PAGE = 4096, WANTED = 256 << 10 };
static char *script, *journal;
static size_t program_len, journal_len;

static void *work(void *session) {
    editlens_session_open(session, (uint8_t *)script, program_len);
    for (size_t begin = 0; begin < journal_len;) {
        char *feed = memchr(journal + begin, '\n', journal_len - begin);
        size_t end = feed == NULL ? journal_len : (size_t)(feed - journal);
        editlens_session_step(session, (uint8_t *)journal + begin, end - begin);
        begin = end + 1;
    }
    for (uint32_t part = EDITLENS_STATE; part <= EDITLENS_RIGHT_TYPE; part++) {
        editlens_session_show(session, part);
    }
    editlens_session_close(session);
    return NULL;
}

static int is_enough(size_t size) {
    pid_t child = fork();
    if (child == 0) {
        char *stack = mmap(NULL, size + PAGE, PROT_READ | PROT_WRITE, MAP_PRIVATE | MAP_ANONYMOUS, -1, 0);
        mprotect(stack, PAGE, PROT_NONE);
        void *session = calloc(1, editlens_session_size());
        pthread_attr_t how;
        pthread_t thread;
        pthread_attr_init(&how);
        pthread_attr_setstack(&how, stack + PAGE, size);
        if (pthread_create(&thread, &how, work, session) != 0) {
            _exit(9);
        }
        pthread_join(thread, NULL);
        _exit(0);
    }
    int status;
    waitpid(child, &status, 0);
    return WIFEXITED(status) && WEXITSTATUS(status) == 0;
}

int main(int words, char **word) {
    FILE *file = words > 1 ? fopen(word[1], "rb") : NULL;
    if (file == NULL) {
        return 9;
    }
    script = malloc(1 << 26);
    size_t len = fread(script, 1, (1 << 26) - 1, file);
    script[len] = 0;
    fclose(file);
    char *separator = strstr(script, "\n---\n");
    if (separator == NULL) {
        return 9;
    }
    program_len = (size_t)(separator - script) + 1;
    journal = separator + 5;
    journal_len = len - (size_t)(journal - script);
    size_t low = 16384, high = 8 << 20;
    if (!is_enough(high)) {
        puts("8 MiB are not enough");
        return 1;
    }
    while (high - low > 2 * PAGE) {
        size_t middle = (low + high) / 2 & ~(size_t)(PAGE - 1);
        if (is_enough(middle)) {
            high = middle;
        } else {
            low = middle;
        }
    }
    printf("%zu KiB\n", high / 1024);
    return high > WANTED;
}
