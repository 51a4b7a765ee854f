/* The example of the tasks: two documents of different shape, kept in step. docs/EMBEDDING.md shows it. */
#include "editlens.h"

#include <stdio.h>
#include <stdlib.h>
#include <string.h>

static const char *program = "main {plan ~ board: part <todo: text, done: text>, left hours: int, right color: text}\n";

static const char *lines[] = {
    "{\"side\":\"left\",\"edit\":[{\"at\":[\"plan\",[{\"ins\":1},{\"mod\":[0,[{\"stay\":[\"todo\",[{\"set\":\"Paint\"}]]}]]}]]}]}",
    "{\"side\":\"left\",\"edit\":[{\"at\":[\"plan\",[{\"del\":4}]]}]}",
};

/* Prints the text that answers the last call. */
static void print_text(void *session) {
    size_t len = editlens_session_text(session, NULL, 0).len;
    uint8_t *text = malloc(len + 1);
    if (text != NULL && editlens_session_text(session, text, len).status == EDITLENS_DONE) {
        fwrite(text, 1, len, stdout);
    }
    free(text);
}

int main(void) {
    void *session = calloc(1, editlens_session_size());
    if (session == NULL || editlens_version() != EDITLENS_VERSION) {
        return 1;
    }
    if (editlens_session_open(session, (const uint8_t *)program, strlen(program)) != EDITLENS_DONE) {
        print_text(session);
    } else {
        for (size_t i = 0; i < sizeof lines / sizeof *lines; i++) {
            struct editlens_answer answer = editlens_session_step(session, (const uint8_t *)lines[i], strlen(lines[i]));
            print_text(session);
            if (answer.status == EDITLENS_REFUSED) {
                printf("cause %u at primitive %llu\n", answer.cause, (unsigned long long)answer.at);
            }
        }
        editlens_session_show(session, EDITLENS_RIGHT);
        print_text(session);
        putchar('\n');
    }
    editlens_session_close(session);
    free(session);
    return 0;
}
