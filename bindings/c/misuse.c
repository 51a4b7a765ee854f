/* Calls that a caller must not make, or makes once too often: each answers EDITLENS_NOT_OPEN, and nothing changes. Also what a later library
   may add. The first check that fails is named on the standard error. */
#include "editlens.h"

#include <stdio.h>
#include <stdlib.h>
#include <string.h>

static const uint8_t PROGRAM[] = "main {hours ~ time: id int, left done: bool}\n";
static const uint8_t WRONG[] = "main {";
static const uint8_t LINE[] = "{\"side\":\"left\",\"edit\":[{\"at\":[\"hours\",[{\"set\":8}]]}]}";
static const uint8_t HUB_LINE[] = "{\"at\":0,\"edit\":[{\"at\":[\"time\",[{\"set\":8}]]}]}";
#define TEXT(it) it, sizeof it - 1

#define CHECK(it) \
    do { \
        if (!(it)) { \
            fprintf(stderr, "line %d: %s\n", __LINE__, #it); \
            exit(1); \
        } \
    } while (0)

static int is_not_open(struct editlens_answer answer) {
    return answer.status == EDITLENS_NOT_OPEN && answer.cause == 0 && answer.number == 0 && answer.part == 0 && answer.at == 0
        && answer.len == 0;
}

/* Nothing is open at an address: each call says so, and neither the buffer nor the memory changes. */
static void check_no_session(void *at) {
    uint8_t out[4] = {1, 2, 3, 4};
    size_t size = at == NULL ? 0 : editlens_session_size();
    uint8_t *copy = malloc(size + 1);
    CHECK(copy != NULL);
    if (size > 0) {
        memcpy(copy, at, size);
    }
    CHECK(is_not_open(editlens_session_status(at)));
    CHECK(is_not_open(editlens_session_step(at, TEXT(LINE))));
    CHECK(is_not_open(editlens_session_show(at, EDITLENS_STATE)));
    CHECK(is_not_open(editlens_session_show(at, 99)));
    CHECK(is_not_open(editlens_session_text(at, out, sizeof out)));
    CHECK(is_not_open(editlens_session_text(at, NULL, 0)));
    CHECK(editlens_session_close(at) == EDITLENS_NOT_OPEN);
    CHECK(memcmp(out, (uint8_t[]){1, 2, 3, 4}, sizeof out) == 0);
    CHECK(size == 0 || memcmp(copy, at, size) == 0);
    free(copy);
}

static void check_no_hub(void *at) {
    uint8_t out[4] = {1, 2, 3, 4};
    CHECK(is_not_open(editlens_hub_status(at)));
    CHECK(is_not_open(editlens_hub_step(at, TEXT(HUB_LINE))));
    CHECK(is_not_open(editlens_hub_show(at, EDITLENS_HUB_STATE, 0)));
    CHECK(is_not_open(editlens_hub_show(at, 99, 0)));
    CHECK(is_not_open(editlens_hub_text(at, out, sizeof out)));
    CHECK(editlens_hub_close(at) == EDITLENS_NOT_OPEN);
    CHECK(memcmp(out, (uint8_t[]){1, 2, 3, 4}, sizeof out) == 0);
}

/* Each call that opens a session finds one, which stays as it is; or the address is NULL. */
static void check_not_opened(void *at) {
    static const uint8_t document[] = "{\"hours\":1,\"done\":false}";
    CHECK(editlens_session_open(at, TEXT(PROGRAM)) == EDITLENS_NOT_OPEN);
    CHECK(editlens_session_import_left(at, TEXT(PROGRAM), TEXT(document)) == EDITLENS_NOT_OPEN);
    CHECK(editlens_session_import_right(at, TEXT(PROGRAM), TEXT(document)) == EDITLENS_NOT_OPEN);
    CHECK(editlens_session_resume(at, TEXT(PROGRAM), TEXT(document), TEXT(document), TEXT(document)) == EDITLENS_NOT_OPEN);
    CHECK(editlens_session_reopen(at, TEXT(document)) == EDITLENS_NOT_OPEN);
}

static void check_sessions(void) {
    void *at = calloc(1, editlens_session_size());
    CHECK(at != NULL);
    check_no_session(NULL);
    check_not_opened(NULL);
    check_no_session(at);
    for (int times = 0; times < 2; times++) {
        CHECK(editlens_session_open(at, TEXT(PROGRAM)) == EDITLENS_DONE);
        CHECK(editlens_session_step(at, TEXT(LINE)).status == EDITLENS_DONE);
        check_not_opened(at);
        check_no_hub(at);
        CHECK(editlens_session_status(at).status == EDITLENS_DONE && editlens_session_status(at).number == 1);
        CHECK(editlens_session_close(at) == EDITLENS_DONE);
        check_no_session(at);
    }
    /* One that is refused is there, too, until it is closed. */
    CHECK(editlens_session_open(at, TEXT(WRONG)) == EDITLENS_PROGRAM_REFUSED);
    CHECK(editlens_session_status(at).status == EDITLENS_PROGRAM_REFUSED);
    check_not_opened(at);
    CHECK(editlens_session_close(at) == EDITLENS_DONE);
    check_no_session(at);
    /* Whatever bytes are there, they are no session. */
    for (int byte = 1; byte < 256; byte++) {
        memset(at, byte, editlens_session_size());
        check_no_session(at);
    }
    CHECK(editlens_session_open(at, TEXT(PROGRAM)) == EDITLENS_DONE);
    CHECK(editlens_session_close(at) == EDITLENS_DONE);
    free(at);
}

static void check_hubs(void) {
    void *at = calloc(1, editlens_hub_size());
    CHECK(at != NULL && editlens_hub_size() >= 8);
    check_no_hub(NULL);
    CHECK(editlens_hub_open(NULL, TEXT(PROGRAM)) == EDITLENS_NOT_OPEN);
    CHECK(editlens_hub_resume(NULL, TEXT(PROGRAM), TEXT(LINE)) == EDITLENS_NOT_OPEN);
    check_no_hub(at);
    CHECK(editlens_hub_open(at, TEXT(PROGRAM)) == EDITLENS_DONE);
    CHECK(editlens_hub_open(at, TEXT(PROGRAM)) == EDITLENS_NOT_OPEN);
    CHECK(editlens_hub_resume(at, TEXT(PROGRAM), TEXT(LINE)) == EDITLENS_NOT_OPEN);
    CHECK(is_not_open(editlens_session_status(at)) && is_not_open(editlens_session_step(at, TEXT(LINE))));
    CHECK(editlens_session_close(at) == EDITLENS_NOT_OPEN);
    CHECK(editlens_hub_status(at).status == EDITLENS_DONE);
    CHECK(editlens_hub_close(at) == EDITLENS_DONE);
    check_no_hub(at);
    CHECK(editlens_hub_open(at, TEXT(WRONG)) == EDITLENS_PROGRAM_REFUSED);
    CHECK(editlens_hub_close(at) == EDITLENS_DONE);
    check_no_hub(at);
    free(at);
}

/* The interface has a number, and an answer says how much of it has a meaning. */
static void check_answers(void) {
    void *at = calloc(1, editlens_session_size());
    CHECK(at != NULL);
    CHECK(editlens_version() == EDITLENS_VERSION);
    CHECK(editlens_session_open(at, TEXT(PROGRAM)) == EDITLENS_DONE);
    struct editlens_answer answers[] = {
        editlens_session_status(NULL), editlens_session_status(at), editlens_session_step(at, TEXT(LINE)),
        editlens_session_show(at, EDITLENS_LEFT), editlens_session_text(at, NULL, 0), editlens_hub_status(NULL),
    };
    for (size_t i = 0; i < sizeof answers / sizeof *answers; i++) {
        CHECK(answers[i].size == offsetof(struct editlens_answer, size) + sizeof answers[i].size);
        CHECK(answers[i].spare_1 == 0 && answers[i].spare_2 == 0);
    }
    CHECK(editlens_session_close(at) == EDITLENS_DONE);
    free(at);
}

int main(void) {
    check_sessions();
    check_hubs();
    check_answers();
    return 0;
}
