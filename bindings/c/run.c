/* `editlens run` over the library, for tests: a script on the standard input, its report on the standard output, and the same status.

   After each item the session is closed, and if the word `resume` is given it is resumed from its own texts; if the word `reopen` is given, from
   its log. Its items are then numbered from 1 on again, so the number of each answer line is written anew. */
#include "scripts.h"

static struct text taken(void *session) {
    return text_of(session, editlens_session_text);
}

static struct text shown(void *session, uint32_t part) {
    if (editlens_session_show(session, part).status != EDITLENS_DONE) {
        exit(98);
    }
    return taken(session);
}

static void resume(void *session, const uint8_t *program, size_t len) {
    struct text left = shown(session, EDITLENS_LEFT), comp = shown(session, EDITLENS_COMPLEMENT), right = shown(session, EDITLENS_RIGHT);
    editlens_session_close(session);
    editlens_session_resume(session, program, len, left.bytes, left.len, comp.bytes, comp.len, right.bytes, right.len);
    free(left.bytes);
    free(comp.bytes);
    free(right.bytes);
    if (editlens_session_status(session).status != EDITLENS_DONE) {
        exit(96);
    }
}

/* A log: the first record, and behind it that of each change that was accepted. Every tenth record is a snapshot. */
static struct text log_of = {NULL, 0};
static unsigned long records;

static void store(struct text record) {
    if (memchr(record.bytes, '\n', record.len) != NULL) {
        exit(90);
    }
    add_line(&log_of, record);
    records++;
}

static void reopen(void *session, int accepted) {
    if (accepted) {
        store(shown(session, EDITLENS_CHANGE));
        free(shown(session, EDITLENS_UNDO_LEFT).bytes);
        free(shown(session, EDITLENS_UNDO_RIGHT).bytes);
    } else if (editlens_session_show(session, EDITLENS_CHANGE).status != EDITLENS_NO_CHANGE) {
        exit(88);
    }
    if (records % 10 == 9) {
        store(shown(session, EDITLENS_SNAPSHOT));
    }
    editlens_session_close(session);
    editlens_session_reopen(session, log_of.bytes, log_of.len);
    struct editlens_answer answer = editlens_session_status(session);
    if (answer.status != EDITLENS_DONE || answer.len != 0) {
        exit(87);
    }
}

int main(int words, char **word) {
    int resumes = words > 1 && strcmp(word[1], "resume") == 0, reopens = words > 1 && strcmp(word[1], "reopen") == 0, refused = 0;
    struct text script = read_script();
    size_t journal;
    void *session = calloc(1, editlens_session_size());
    if (session == NULL) {
        return 95;
    }
    size_t program = end_of_program(script.bytes, script.len, &journal);
    editlens_session_open(session, script.bytes, program);
    uint32_t status = editlens_session_status(session).status;
    if (status != EDITLENS_DONE) {
        give_text(taken(session));
    } else {
        unsigned long long number = 0;
        store(taken(session));
        for (size_t begin = journal; begin < script.len;) {
            const uint8_t *feed = memchr(script.bytes + begin, '\n', script.len - begin);
            size_t end = feed == NULL ? script.len : (size_t)(feed - script.bytes);
            struct editlens_answer answer = editlens_session_step(session, script.bytes + begin, end - begin);
            if (answer.status > EDITLENS_REFUSED) {
                return 94;
            }
            if (answer.status != EDITLENS_BLANK) {
                number++;
                refused |= answer.status == EDITLENS_REFUSED;
                if (answer.number != (resumes || reopens ? 1 : number) || (answer.status == EDITLENS_REFUSED) != (answer.cause != EDITLENS_NO_CAUSE)) {
                    return 93;
                }
                if (resumes) {
                    give_with_number(taken(session), number);
                    resume(session, script.bytes, program);
                } else if (reopens) {
                    give_with_number(taken(session), number);
                    reopen(session, answer.status == EDITLENS_DONE);
                } else {
                    give_text(taken(session));
                }
            }
            begin = feed == NULL ? script.len : end + 1;
        }
        if (editlens_session_show(session, EDITLENS_STATE).status != EDITLENS_DONE) {
            return 92;
        }
        give_text(taken(session));
    }
    editlens_session_close(session);
    free(session);
    free(script.bytes);
    free(log_of.bytes);
    return status == EDITLENS_DONE ? refused : status == EDITLENS_PROGRAM_REFUSED ? 3 : 91;
}
