/* What run.c and hub.c share: the script on the standard input, and texts of a session or of a hub. */
#include "editlens.h"

#include <stdio.h>
#include <stdlib.h>
#include <string.h>

struct text {
    uint8_t *bytes;
    size_t len;
};

/* The call that copies a text: editlens_session_text or editlens_hub_text. */
typedef struct editlens_answer text_call(void *at, uint8_t *buffer, size_t buffer_len);

/* A copy of the text that answers the last call, with a byte 0 behind it. */
static struct text text_of(void *at, text_call *call) {
    struct text text;
    text.len = call(at, NULL, 0).len;
    text.bytes = malloc(text.len + 1);
    if (text.bytes == NULL || call(at, text.bytes, text.len).status != EDITLENS_DONE) {
        exit(99);
    }
    text.bytes[text.len] = 0;
    return text;
}

/* Writes a text, and frees it. */
static void give_text(struct text text) {
    fwrite(text.bytes, 1, text.len, stdout);
    free(text.bytes);
}

/* Writes an answer line with another number in place of its own, and frees it. */
static void give_with_number(struct text text, unsigned long long number) {
    char *space = strchr((char *)text.bytes, ' ');
    char *rest = space == NULL ? NULL : strchr(space + 1, ' ');
    if (rest == NULL) {
        exit(100);
    }
    printf("%.*s %llu%s", (int)(space - (char *)text.bytes), text.bytes, number, rest);
    free(text.bytes);
}

/* Adds a text and a line feed to another one, and frees it. */
static void add_line(struct text *lines, struct text text) {
    lines->bytes = realloc(lines->bytes, lines->len + text.len + 1);
    if (lines->bytes == NULL) {
        exit(101);
    }
    memcpy(lines->bytes + lines->len, text.bytes, text.len);
    lines->bytes[lines->len + text.len] = '\n';
    lines->len += text.len + 1;
    free(text.bytes);
}

/* The bytes of the standard input. */
static struct text read_script(void) {
    size_t room = 1 << 16, got;
    struct text script = {malloc(room), 0};
    while (script.bytes != NULL && (got = fread(script.bytes + script.len, 1, room - script.len, stdin)) > 0) {
        script.len += got;
        if (script.len == room) {
            script.bytes = realloc(script.bytes, room *= 2);
        }
    }
    if (script.bytes == NULL) {
        exit(102);
    }
    return script;
}

/* Where the line `---` ends the program part; the end of the script if there is none. */
static size_t end_of_program(const uint8_t *script, size_t len, size_t *journal) {
    for (size_t begin = 0; begin < len;) {
        const uint8_t *feed = memchr(script + begin, '\n', len - begin);
        size_t end = feed == NULL ? len : (size_t)(feed - script);
        size_t size = end - begin - (end > begin && script[end - 1] == '\r');
        if (size == 3 && memcmp(script + begin, "---", 3) == 0) {
            *journal = feed == NULL ? len : end + 1;
            return begin;
        }
        begin = feed == NULL ? len : end + 1;
    }
    *journal = len;
    return len;
}
