/* The refusals of memory over a script of a session: refused_memory.h says what is tried. */
#include "refused_memory.h"

static char state[3][ROOM], logged[ROOM];

static size_t room_size(void) {
    return editlens_session_size();
}

static size_t text_to(char *out) {
    struct editlens_answer answer = editlens_session_text(room, (uint8_t *)out, ROOM / 4);
    if (answer.status != EDITLENS_DONE) {
        exit(99);
    }
    return answer.len;
}

static size_t show_to(char *out, uint32_t part) {
    struct editlens_answer answer;
    do {
        answer = editlens_session_show(room, part);
    } while (is_again(answer.status == EDITLENS_NO_MEMORY));
    if (answer.status != EDITLENS_DONE) {
        exit(98);
    }
    return text_to(out);
}

static void open(const char *program, size_t len) {
    editlens_session_open(room, (const uint8_t *)program, len);
    while (is_again(editlens_session_status(room).status == EDITLENS_NO_SESSION)) {
        editlens_session_close(room);
        editlens_session_open(room, (const uint8_t *)program, len);
    }
}

static void resume(const char *program, size_t len, const size_t *lens) {
    for (;;) {
        editlens_session_resume(room, (const uint8_t *)program, len, (uint8_t *)state[0], lens[0], (uint8_t *)state[1], lens[1],
                                (uint8_t *)state[2], lens[2]);
        if (!is_again(editlens_session_status(room).status == EDITLENS_NO_SESSION)) {
            return;
        }
        editlens_session_close(room);
    }
}

static void reopen(size_t len) {
    for (;;) {
        editlens_session_reopen(room, (const uint8_t *)logged, len);
        if (!is_again(editlens_session_status(room).status == EDITLENS_NO_SESSION)) {
            return;
        }
        editlens_session_close(room);
    }
}

static void import(const char *program, size_t len, size_t right) {
    for (;;) {
        editlens_session_import_right(room, (const uint8_t *)program, len, (uint8_t *)state[2], right);
        if (!is_again(editlens_session_status(room).status == EDITLENS_NO_SESSION)) {
            return;
        }
        editlens_session_close(room);
    }
}

/* The report of the script. The session is then resumed from its own texts, reopened from its log, and made from its right document. */
static size_t report(char *out, size_t program, char *journal) {
    size_t len = 0, lens[3], stored = 0;
    open(script, program);
    stored += text_to(logged);
    logged[stored++] = '\n';
    for (char *line = journal; *line != 0;) {
        char *feed = strchr(line, '\n');
        size_t size = feed == NULL ? strlen(line) : (size_t)(feed - line);
        struct editlens_answer answer;
        do {
            answer = editlens_session_step(room, (uint8_t *)line, size);
        } while (is_again(answer.status == EDITLENS_NO_MEMORY));
        len += text_to(out + len);
        if (answer.status == EDITLENS_DONE) {
            stored += show_to(logged + stored, EDITLENS_CHANGE);
            logged[stored++] = '\n';
            len += show_to(out + len, EDITLENS_UNDO_LEFT);
        }
        line += size + (feed != NULL);
    }
    for (uint32_t part = EDITLENS_LEFT; part <= EDITLENS_RIGHT; part++) {
        lens[part - EDITLENS_LEFT] = show_to(state[part - EDITLENS_LEFT], part);
    }
    len += show_to(out + len, EDITLENS_LEFT_TYPE);
    len += show_to(out + len, EDITLENS_RIGHT_TYPE);
    editlens_session_close(room);
    resume(script, program, lens);
    len += show_to(out + len, EDITLENS_STATE);
    editlens_session_close(room);
    reopen(stored);
    len += show_to(out + len, EDITLENS_STATE);
    len += show_to(out + len, EDITLENS_SNAPSHOT);
    editlens_session_close(room);
    import(script, program, lens[2]);
    len += show_to(out + len, EDITLENS_STATE);
    editlens_session_close(room);
    return len;
}
