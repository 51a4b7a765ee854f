/* Each request for memory is refused once, over a script: the linker puts the functions here in the place of malloc, realloc and free. What a
   program does with the script is its `report`, of a session in refuse.c, and of a hub in refuse_hub.c.

   A call that finds no memory must say so and leave what is open as before: it is made again, and the report is to be the same as in a run in
   which nothing was refused. At the end nothing may be left.

   There is a run for each request. With the word `once` behind the script there is one run, in which each call is made again until each of its
   requests was refused: that is quick enough for a sanitizer. */
#include "editlens.h"

#include <stdio.h>
#include <stdlib.h>
#include <string.h>

void *__real_malloc(size_t size);
void *__real_realloc(void *block, size_t size);
void __real_free(void *block);

static long left = -1, asked, held;

static int is_refused(void) {
    asked++;
    return left >= 0 && left-- == 0;
}

void *__wrap_malloc(size_t size) {
    void *block = is_refused() ? NULL : __real_malloc(size);
    held += block != NULL;
    return block;
}

void *__wrap_realloc(void *block, size_t size) {
    void *moved = is_refused() ? NULL : __real_realloc(block, size);
    held += moved != NULL && block == NULL;
    return moved;
}

void __wrap_free(void *block) {
    held -= block != NULL;
    __real_free(block);
}

enum { ROOM = 1 << 20 };
static char script[ROOM], wanted[ROOM], found[ROOM];
static char room[8192] __attribute__((aligned(16)));
static long refusals, tried;
static int is_once, is_aimed;

/* How many bytes the session or the hub takes in `room`. */
static size_t room_size(void);
/* The report of the script, of which `program` is the program part, and the lines of `journal` the journal. */
static size_t report(char *out, size_t program, char *journal);

/* Whether a call is to be made again, since it found no memory, which is counted. With `once` the request that is refused next is the first of
   another call, or the one behind that of this call. */
static int is_again(int found_none) {
    refusals += found_none;
    tried = found_none ? tried + 1 : 0;
    left = is_once && is_aimed ? tried : left;
    return found_none;
}

/* The report of the script, in which the request with this number is refused. None is, if it is -1. */
static size_t report_refused(char *out, long refused) {
    char *journal = strstr(script, "\n---\n");
    left = refused;
    is_aimed = refused >= 0;
    asked = tried = 0;
    size_t len = report(out, (size_t)(journal - script) + 1, journal + 5);
    left = -1;
    return len;
}

int main(int words, char **word) {
    FILE *file = words > 1 ? fopen(word[1], "rb") : NULL;
    if (file == NULL || room_size() > sizeof room) {
        return 97;
    }
    script[fread(script, 1, sizeof script - 1, file)] = 0;
    fclose(file);
    if (strstr(script, "\n---\n") == NULL) {
        return 96;
    }
    long before = held, differ = 0, kept = 0;
    size_t len = report_refused(wanted, -1);
    long requests = asked;
    kept += held != before;
    is_once = words > 2 && strcmp(word[2], "once") == 0;
    for (long each = 0; each < (is_once ? 1 : requests); each++) {
        size_t other = report_refused(found, each);
        differ += other != len || memcmp(found, wanted, len) != 0;
        kept += held != before;
    }
    printf("%ld requests, each refused once, and said so %ld times: %ld reports differ, %ld times something was left\n", requests, refusals,
           differ, kept);
    /* A text whose tokens find no memory is read again as a tree, so not every refusal stops a call. */
    return refusals == 0 || refusals > requests || differ != 0 || kept != 0;
}
