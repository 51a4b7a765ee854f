/* The refusals of memory over a script of a hub: refused_memory.h says what is tried. */
#include "refused_memory.h"

static char state[ROOM];

static size_t room_size(void) {
    return editlens_hub_size();
}

static size_t text_to(char *out) {
    struct editlens_answer answer = editlens_hub_text(room, (uint8_t *)out, ROOM / 4);
    if (answer.status != EDITLENS_DONE) {
        exit(99);
    }
    return answer.len;
}

/* Shows a part; nothing if there is no such view. */
static size_t show_to(char *out, uint32_t part, uint64_t view) {
    struct editlens_answer answer;
    do {
        answer = editlens_hub_show(room, part, view);
    } while (is_again(answer.status == EDITLENS_NO_MEMORY));
    return answer.status == EDITLENS_DONE ? text_to(out) : 0;
}

static void open(size_t programs) {
    editlens_hub_open(room, (const uint8_t *)script, programs);
    while (is_again(editlens_hub_status(room).status == EDITLENS_NO_SESSION)) {
        editlens_hub_close(room);
        editlens_hub_open(room, (const uint8_t *)script, programs);
    }
}

static void resume(size_t programs, size_t len) {
    editlens_hub_resume(room, (const uint8_t *)script, programs, (const uint8_t *)state, len);
    while (is_again(editlens_hub_status(room).status == EDITLENS_NO_SESSION)) {
        editlens_hub_close(room);
        editlens_hub_resume(room, (const uint8_t *)script, programs, (const uint8_t *)state, len);
    }
}

/* The state of the hub, a text with a line feed behind it for each part. */
static size_t state_texts(void) {
    size_t len = show_to(state, EDITLENS_HUB_DOCUMENT, 0), size;
    state[len++] = '\n';
    for (uint64_t view = 0; (size = show_to(state + len, EDITLENS_VIEW_DOCUMENT, view)) > 0; view++) {
        len += size;
        state[len++] = '\n';
        len += show_to(state + len, EDITLENS_VIEW_COMPLEMENT, view);
        state[len++] = '\n';
    }
    return len;
}

/* The report of the script, and behind it each part alone. The hub is then resumed from these. */
static size_t report(char *out, size_t programs, char *journal) {
    size_t len = 0, size;
    open(programs);
    for (char *line = journal; *line != 0; line += size) {
        char *feed = strchr(line, '\n');
        struct editlens_answer answer;
        size = feed == NULL ? strlen(line) : (size_t)(feed - line);
        do {
            answer = editlens_hub_step(room, (uint8_t *)line, size);
        } while (is_again(answer.status == EDITLENS_NO_MEMORY));
        len += text_to(out + len);
        size += feed != NULL;
    }
    len += show_to(out + len, EDITLENS_HUB_STATE, 0);
    size = state_texts();
    memcpy(out + len, state, size);
    len += size;
    editlens_hub_close(room);
    resume(programs, size);
    len += show_to(out + len, EDITLENS_HUB_STATE, 0);
    editlens_hub_close(room);
    return len;
}
