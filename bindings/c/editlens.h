/* editlens as a library: a session that keeps two JSON documents in step, for programs in C and whatever calls C.

   docs/EMBEDDING.md has an example. A caller has memory for a session, of editlens_session_size() bytes, aligned to 16 and 0 at first, opens a
   session in it, and closes it at the end; also one that is refused. The memory stays where it is in between, and only the library changes it.
   The library has no state of its own, starts no thread, reads and writes no file, and ends no process. Of the C library it wants malloc,
   realloc, free, memcpy, memmove and memset.

   A word of magic in the memory says whether a session is open there. A call with NULL, with memory where nothing was opened or all is
   closed, or with a hub in place of a session, does nothing and answers EDITLENS_NOT_OPEN. So does a call that opens where a session is open
   already.

   Threads: a session has one call at a time. Calls may come from different threads where the caller orders them, by a lock or by whatever else
   makes what one thread wrote seen by the next. Sessions share nothing, so there may be any number of them, in threads of their own if wanted.

   A text is an address and a number of bytes, and needs no byte 0 at its end. The address may be NULL where the number is 0. */
#ifndef EDITLENS_H
#define EDITLENS_H

#include <stddef.h>
#include <stdint.h>

#ifdef __cplusplus
extern "C" {
#endif

/* The number of this interface. It is raised where a caller has to be compiled anew; editlens_version() is that of the library. */
#define EDITLENS_VERSION 2

/* How a call ended: the member `status` of its answer. */
#define EDITLENS_DONE 0            /* the call did what it was asked; the item was accepted */
#define EDITLENS_BLANK 1           /* the line is blank, and so it is not an item */
#define EDITLENS_REFUSED 2         /* the item is refused, for the cause beside it, and the documents are as before */
#define EDITLENS_PROGRAM_REFUSED 3 /* there is no session: its program is refused, for the cause beside it */
#define EDITLENS_STATE_REFUSED 4   /* there is no session: the texts of its state are refused, for the cause beside it */
#define EDITLENS_NO_SESSION 5      /* there is no session: memory ran out when it was opened */
#define EDITLENS_NO_MEMORY 6       /* memory ran out, and the session is as before: the call may be made again */
#define EDITLENS_SMALL_BUFFER 7    /* the buffer is too small for the text, and as before */
#define EDITLENS_LINE_FEED 8       /* a line feed is in the line, and nothing changed */
#define EDITLENS_UNKNOWN_PART 9    /* the number is not one of what can be shown, and nothing changed */
#define EDITLENS_FULL 10           /* no further item has a number, and nothing changed */
#define EDITLENS_RECORDS_REFUSED 11 /* there is no session: the records of its log are refused, for the cause beside it */
#define EDITLENS_NO_CHANGE 12      /* the part is one of the last change, and the last line was not one that was accepted; nothing changed */
#define EDITLENS_NOT_OPEN 13       /* nothing was done: the address is NULL, or nothing is open there, or a call that opens finds one open */

/* What editlens_session_show can show. */
#define EDITLENS_STATE 0      /* the three lines `left JSON`, `right JSON` and `complement JSON` */
#define EDITLENS_LEFT 1       /* the left document, as JSON */
#define EDITLENS_COMPLEMENT 2 /* the complement, as JSON */
#define EDITLENS_RIGHT 3      /* the right document, as JSON */
#define EDITLENS_LEFT_TYPE 4  /* the left type, in canonical text */
#define EDITLENS_RIGHT_TYPE 5 /* the right type, in canonical text */
#define EDITLENS_SNAPSHOT 6   /* a record for a log: a snapshot of the documents and the complement */
#define EDITLENS_CHANGE 7     /* a record for a log: the change that the last line was, if it was accepted */
#define EDITLENS_UNDO_LEFT 8  /* the word that takes the left document back over that change, as JSON */
#define EDITLENS_UNDO_RIGHT 9 /* the word that takes the right document back over that change, as JSON */

/* Why something is refused: the member `cause` of an answer. docs/FORMATS.md and docs/LANGUAGE.md say when each comes. */
#define EDITLENS_NO_CAUSE 0

/* A change that does not apply (EDITLENS_REFUSED): `part` is the entry in its group, and `at` the first primitive of it that fails. */
#define EDITLENS_KIND 1
#define EDITLENS_PLACE 2
#define EDITLENS_TAG 3
#define EDITLENS_RANGE 4
#define EDITLENS_OVERFLOW 5
#define EDITLENS_VALUE 6
#define EDITLENS_PRESENT 7
#define EDITLENS_LENGTH 8
#define EDITLENS_DEEP 9

/* A line that is not a change (EDITLENS_REFUSED). */
#define EDITLENS_LINE_TOO_LONG 11
#define EDITLENS_NOT_JSON 12
#define EDITLENS_NOT_AN_ENTRY 13
#define EDITLENS_NOT_AN_EDIT 14

/* A program (EDITLENS_PROGRAM_REFUSED): `at` is an offset in it for the causes 22, 23 and 24. */
#define EDITLENS_PROGRAM_TOO_LONG 21
#define EDITLENS_NOT_A_PROGRAM 22
#define EDITLENS_UNKNOWN_NAME 23
#define EDITLENS_REPEATED_NAME 24
#define EDITLENS_MIDDLE_DIFFERS 25
#define EDITLENS_REPEATED_FIELD 26
#define EDITLENS_REPEATED_TAG 27
#define EDITLENS_REPEATED_MEMBER 28
#define EDITLENS_NOT_A_MEMBER 29
#define EDITLENS_TOO_LARGE 30
#define EDITLENS_TOO_DEEP 31

/* The texts of a state (EDITLENS_STATE_REFUSED). */
#define EDITLENS_NOT_LEFT 41
#define EDITLENS_NOT_COMPLEMENT 42
#define EDITLENS_NOT_RIGHT 43
#define EDITLENS_NOT_CONSISTENT 44

/* The records of a log (EDITLENS_RECORDS_REFUSED): `at` is the number, from 1, of the first record that is at fault. */
#define EDITLENS_BAD_RECORD 51
#define EDITLENS_RECORD_NOT_CONSISTENT 52

struct editlens_answer {
    uint32_t status; /* how the call ended */
    uint32_t cause;  /* why something is refused, or 0 */
    uint64_t number; /* how many items the session was given */
    uint64_t part;   /* the number, from 0, of the entry of a group that does not apply, or 0 */
    uint64_t at;     /* the number, from 0, of the first primitive that fails; or an offset in a program; or the number of a record; or 0 */
    size_t len;      /* how many bytes the text has that answers the last call */
    uint64_t size;   /* how many bytes of the answer have a meaning: a later member has one if it lies within them */
    uint64_t spare_1; /* 0: room for later members */
    uint64_t spare_2; /* 0 */
};

/* EDITLENS_VERSION of the library. */
uint32_t editlens_version(void);

/* How many bytes a session takes. */
size_t editlens_session_size(void);

/* Puts the session over a program, or why there is none, into the memory at `at`. What is returned says which, as the status that
   editlens_session_status gives; or it is EDITLENS_NOT_OPEN, and nothing was done. The text is then the first record of a log. */
uint32_t editlens_session_open(void *at, const uint8_t *program, size_t program_len);

/* The same for a session whose left document is given, as JSON; the right one is made. The second record of a log is a snapshot then. A text
   that is not of a document of the left type is refused as a state is: EDITLENS_STATE_REFUSED with EDITLENS_NOT_LEFT. */
uint32_t editlens_session_import_left(void *at, const uint8_t *program, size_t program_len, const uint8_t *document, size_t document_len);

/* The same for the right document: EDITLENS_NOT_RIGHT. */
uint32_t editlens_session_import_right(void *at, const uint8_t *program, size_t program_len, const uint8_t *document, size_t document_len);

/* The same for a session that goes on from a state: the texts that editlens_session_show gave for EDITLENS_LEFT, EDITLENS_COMPLEMENT and
   EDITLENS_RIGHT, or others. They are refused if they are not consistent. Items are numbered from 1 on. The second record of a log is a
   snapshot then. */
uint32_t editlens_session_resume(void *at, const uint8_t *program, size_t program_len, const uint8_t *left, size_t left_len,
                             const uint8_t *complement, size_t complement_len, const uint8_t *right, size_t right_len);

/* The session for which the records of a log stand: the first record, and behind it changes and snapshots. A line feed ends each of them; no
   record that the library makes has one in it. Items are numbered from 1 on. The text is empty; or it is the record that the log of an old
   store has to get before any other. */
uint32_t editlens_session_reopen(void *at, const uint8_t *records, size_t records_len);

/* EDITLENS_DONE if there is a session; else EDITLENS_PROGRAM_REFUSED, EDITLENS_STATE_REFUSED, EDITLENS_RECORDS_REFUSED or
   EDITLENS_NO_SESSION, and the session is still to be closed; or EDITLENS_NOT_OPEN. */
struct editlens_answer editlens_session_status(void *at);

/* Gives a session a line of a journal, without its line feed. The text is then the answer line, with one. */
struct editlens_answer editlens_session_step(void *at, const uint8_t *line, size_t line_len);

/* Makes a part of the state or of the last change the text. */
struct editlens_answer editlens_session_show(void *at, uint32_t part);

/* Writes the text that answers the last call to the head of `out`: an answer line, what was shown, a record, or the line of a program that is
   refused.
   EDITLENS_SMALL_BUFFER if it has more than `out_len` bytes; `len` then says how many are wanted. The text can be asked for again. */
struct editlens_answer editlens_session_text(void *at, uint8_t *out, size_t out_len);

/* Ends a session, and gives back all that it holds but the memory at `at`, which is the caller's. EDITLENS_DONE or EDITLENS_NOT_OPEN. */
uint32_t editlens_session_close(void *at);

/* A hub: one document that is kept in step with up to 64 views, as the command `hub` keeps them. A caller has memory for it, of
   editlens_hub_size() bytes, aligned to 16 and 0 at first, and owes what it owes for a session. The statuses and the causes are those of a
   session, where a hub takes the place of a session and the texts of its programs that of a program; and these: */

/* What editlens_hub_show can show. */
#define EDITLENS_HUB_STATE 0       /* the state lines: `hub JSON`, and `view V JSON` and `complement V JSON` for each view */
#define EDITLENS_HUB_DOCUMENT 1    /* the hub's document, as JSON */
#define EDITLENS_VIEW_DOCUMENT 2   /* the document of a view, as JSON */
#define EDITLENS_VIEW_COMPLEMENT 3 /* the complement of a view, as JSON */

/* A line, or a part to be shown, names a view that does not exist (EDITLENS_REFUSED). */
#define EDITLENS_NO_VIEW 61

/* Programs of views (EDITLENS_PROGRAM_REFUSED): there are more than 64; or the left type of the view `part` is not that of view 0. Where a
   program alone is refused, the cause is that of the program, `part` is the number of the view, from 0, and `at` an offset in its text. */
#define EDITLENS_TOO_MANY_VIEWS 62
#define EDITLENS_VIEWS_DIFFER 63

/* The texts of a state (EDITLENS_STATE_REFUSED): there is not one of the hub and two of each view; the first is of no document of the hub; one
   is of no document of the view `part`. With the number of the view in `part` come EDITLENS_NOT_COMPLEMENT and EDITLENS_NOT_CONSISTENT, too. */
#define EDITLENS_OTHER_COUNT 64
#define EDITLENS_NOT_HUB 65
#define EDITLENS_NOT_VIEW 66

/* How many bytes a hub takes. */
size_t editlens_hub_size(void);

/* Puts the hub over the programs of its views, or why there is none, into the memory at `at`. The programs are those of a script: one text, with
   a line `+++` between them. What is returned says which, as for a session. The text is the line of a refusal, or empty. */
uint32_t editlens_hub_open(void *at, const uint8_t *programs, size_t programs_len);

/* The same for a hub that goes on from a state: JSON texts, with a line feed behind each. They are what editlens_hub_show gave for
   EDITLENS_HUB_DOCUMENT, and then for each view in order for EDITLENS_VIEW_DOCUMENT and EDITLENS_VIEW_COMPLEMENT, or others. They are refused if
   they are not consistent. Items are numbered from 1 on. */
uint32_t editlens_hub_resume(void *at, const uint8_t *programs, size_t programs_len, const uint8_t *state, size_t state_len);

/* EDITLENS_DONE if there is a hub; else EDITLENS_PROGRAM_REFUSED, EDITLENS_STATE_REFUSED or EDITLENS_NO_SESSION, and the hub is still to be
   closed; or EDITLENS_NOT_OPEN. */
struct editlens_answer editlens_hub_status(void *at);

/* Gives a hub a line of its journal, without its line feed: {"at":"hub","edit":WORD} or {"at":V,"edit":WORD}. The text is then the answer line,
   with a line feed. */
struct editlens_answer editlens_hub_step(void *at, const uint8_t *line, size_t line_len);

/* Makes a part of the state the text. `view` is the number of the view, from 0, for the two parts of a view, and any number for the others. */
struct editlens_answer editlens_hub_show(void *at, uint32_t part, uint64_t view);

/* Writes the text that answers the last call to the head of `out`, as editlens_session_text does. */
struct editlens_answer editlens_hub_text(void *at, uint8_t *out, size_t out_len);

/* Ends a hub, and gives back all that it holds but the memory at `at`, which is the caller's. EDITLENS_DONE or EDITLENS_NOT_OPEN. */
uint32_t editlens_hub_close(void *at);

#ifdef __cplusplus
}
#endif

#endif
