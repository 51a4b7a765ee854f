/* `editlens hub` over the library, for tests: a script on the standard input, its report on the standard output, and the same status.

   Before the state lines are written, they are made a second time, of each part alone, and compared. If the word `resume` is given, the hub is
   closed after each item, and resumed from its own texts. Its items are then numbered from 1 on again, so the number of each answer line is
   written anew. */
#include "scripts.h"

static struct text taken(void *hub) {
    return text_of(hub, editlens_hub_text);
}

/* Adds the text of a part and a line feed. Whether there is such a part. */
static int add_part(void *hub, struct text *state, uint32_t part, uint64_t view) {
    if (editlens_hub_show(hub, part, view).status != EDITLENS_DONE) {
        return 0;
    }
    add_line(state, taken(hub));
    return 1;
}

static void resume(void *hub, const uint8_t *programs, size_t len) {
    struct text state = {NULL, 0};
    add_part(hub, &state, EDITLENS_HUB_DOCUMENT, 0);
    for (uint64_t view = 0; add_part(hub, &state, EDITLENS_VIEW_DOCUMENT, view); view++) {
        add_part(hub, &state, EDITLENS_VIEW_COMPLEMENT, view);
    }
    editlens_hub_close(hub);
    editlens_hub_resume(hub, programs, len, state.bytes, state.len);
    free(state.bytes);
    struct editlens_answer answer = editlens_hub_status(hub);
    if (answer.status != EDITLENS_DONE || answer.number != 0 || answer.len != 0) {
        exit(86);
    }
}

/* Whether the text goes on with a label, a space, the part and a line feed; the text behind them. */
static const uint8_t *behind(const uint8_t *state, const char *label, void *hub, uint32_t part, uint64_t view) {
    size_t size = strlen(label);
    if (editlens_hub_show(hub, part, view).status != EDITLENS_DONE) {
        exit(98);
    }
    struct text text = taken(hub);
    if (memcmp(state, label, size) != 0 || state[size] != ' ' || memcmp(state + size + 1, text.bytes, text.len) != 0 || state[size + 1 + text.len] != '\n') {
        exit(97);
    }
    free(text.bytes);
    return state + size + 1 + text.len + 1;
}

static void compare_parts(void *hub) {
    char label[64];
    struct text state = taken(hub);
    const uint8_t *at = behind(state.bytes, "hub", hub, EDITLENS_HUB_DOCUMENT, 7);
    unsigned long long view = 0;
    for (; at < state.bytes + state.len; view++) {
        snprintf(label, sizeof label, "view %llu", view);
        at = behind(at, label, hub, EDITLENS_VIEW_DOCUMENT, view);
        snprintf(label, sizeof label, "complement %llu", view);
        at = behind(at, label, hub, EDITLENS_VIEW_COMPLEMENT, view);
    }
    for (uint32_t part = EDITLENS_VIEW_DOCUMENT; part <= EDITLENS_VIEW_COMPLEMENT; part++) {
        struct editlens_answer answer = editlens_hub_show(hub, part, part == EDITLENS_VIEW_DOCUMENT ? view : UINT64_MAX);
        if (answer.status != EDITLENS_REFUSED || answer.cause != EDITLENS_NO_VIEW) {
            exit(96);
        }
    }
    if (editlens_hub_show(hub, 4, 0).status != EDITLENS_UNKNOWN_PART) {
        exit(95);
    }
    free(state.bytes);
}

int main(int words, char **word) {
    int resumes = words > 1 && strcmp(word[1], "resume") == 0, refused = 0;
    struct text script = read_script();
    size_t journal;
    void *hub = calloc(1, editlens_hub_size());
    if (hub == NULL) {
        return 94;
    }
    size_t programs = end_of_program(script.bytes, script.len, &journal);
    editlens_hub_open(hub, script.bytes, programs);
    uint32_t status = editlens_hub_status(hub).status;
    if (status != EDITLENS_DONE) {
        give_text(taken(hub));
        if (editlens_hub_step(hub, script.bytes, 0).status != status || editlens_hub_show(hub, EDITLENS_HUB_STATE, 0).status != status) {
            return 93;
        }
    } else {
        unsigned long long number = 0;
        for (size_t begin = journal; begin < script.len;) {
            const uint8_t *feed = memchr(script.bytes + begin, '\n', script.len - begin);
            size_t end = feed == NULL ? script.len : (size_t)(feed - script.bytes);
            struct editlens_answer answer = editlens_hub_step(hub, script.bytes + begin, end - begin);
            number += answer.status != EDITLENS_BLANK;
            refused |= answer.status == EDITLENS_REFUSED;
            if (answer.status > EDITLENS_REFUSED || (answer.status == EDITLENS_REFUSED) != (answer.cause != EDITLENS_NO_CAUSE)) {
                return 92;
            }
            if (answer.number != (resumes ? answer.status != EDITLENS_BLANK : number)) {
                return 85;
            }
            if (resumes && answer.status != EDITLENS_BLANK) {
                give_with_number(taken(hub), number);
                resume(hub, script.bytes, programs);
            } else {
                give_text(taken(hub));
            }
            begin = feed == NULL ? script.len : end + 1;
        }
        if (editlens_hub_step(hub, (const uint8_t *)"{}\n{}", 5).status != EDITLENS_LINE_FEED) {
            return 91;
        }
        if (editlens_hub_status(hub).number != (resumes ? 0 : number)) {
            return 84;
        }
        for (int again = 0; again < 2; again++) {
            if (editlens_hub_show(hub, EDITLENS_HUB_STATE, 0).status != EDITLENS_DONE) {
                return 90;
            }
            again == 0 ? compare_parts(hub) : give_text(taken(hub));
        }
    }
    editlens_hub_close(hub);
    free(hub);
    free(script.bytes);
    return status == EDITLENS_DONE ? refused : status == EDITLENS_PROGRAM_REFUSED ? 3 : 89;
}
