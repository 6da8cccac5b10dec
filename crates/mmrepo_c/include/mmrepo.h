/* mmrepo from C. A session keeps a model, and answers the lines of a script, one line in each call. docs/C.md has an example and says how
   to build; docs/SCRIPT.md has the lines.

   What a caller must do, since nothing checks C code:
   - Initialise a session with MMREPO_CLOSED_SESSION, and do not use its two fields. A session may be moved while no call runs, and must not
     be copied.
   - Make all calls of a session from one thread, and none from a signal handler.
   - Pass no NULL pointer, even if a size is 0. The arguments of a call must not overlap, and nothing else may read or write them while the
     call runs.
   - Take care that malloc, realloc and free belong to one allocator, and that malloc aligns a block to 16 bytes, as it does on Linux. */
#ifndef MMREPO_H
#define MMREPO_H

/* The version of this header. docs/CHANGELOG.md says what later versions keep. */
#define MMREPO_VERSION "1.0"

#include <stdbool.h>
#include <stddef.h>
#include <stdint.h>

#ifdef __cplusplus
extern "C" {
#endif

/* A session, open or closed. */
typedef struct mmrepo_session {
    void *at;
    bool is_open;
} mmrepo_session;

/* The initial value of a session, which is closed. */
#define MMREPO_CLOSED_SESSION {NULL, false}

/* The greatest number of bytes that a metamodel or a line may have. A document that mmrepo_load loads may have more. */
#define MMREPO_INPUT_BYTES 16777216

/* The status that a call returns. Only mmrepo_text and mmrepo_close return no status. */
enum {
    /* mmrepo_open opened the session; or the command or the read was done. */
    MMREPO_OK = 0,

    /* The metamodel is refused: the status is its first fault (docs/METAMODEL.md). */
    MMREPO_FAULT_SYNTAX = 1,
    MMREPO_FAULT_LAYOUT = 2,
    MMREPO_FAULT_LIMIT = 3,
    MMREPO_FAULT_NAME = 4,
    MMREPO_FAULT_DUPLICATE_NAME = 5,
    MMREPO_FAULT_NO_TYPE = 6,
    MMREPO_FAULT_CYCLE = 7,
    MMREPO_FAULT_BOUNDS = 8,
    MMREPO_FAULT_OPPOSITE = 9,
    MMREPO_FAULT_BOTH_CONTAIN = 10,
    MMREPO_FAULT_CONTAINER_BOUND = 11,
    MMREPO_FAULT_DEFAULT = 12,

    /* The line is empty or has only spaces: the text of the session is empty. */
    MMREPO_BLANK = 20,
    /* The line is no command: the text of the session is "bad line". Or the name of a list is not UTF-8: the session and its text are as
       they were. */
    MMREPO_BAD = 21,
    /* The command or the read was refused: the text of the session says why, and nothing has changed. */
    MMREPO_REFUSED = 22,
    /* Memory was refused to the command: the text of the session is "refused 28 MEMORY", nothing has changed, and the session goes on. */
    MMREPO_LOST = 23,

    /* The session is closed. */
    MMREPO_CLOSED = 30,
    /* The metamodel or the line has more than MMREPO_INPUT_BYTES bytes. */
    MMREPO_TOO_LONG = 31,
    /* Memory was refused to mmrepo_open; or to another call itself, and not to the command that it runs. The session is closed now. */
    MMREPO_MEMORY = 32
};

/* Opens a session: an empty repository over the metamodel of a document. A session that is open is closed first. The adapters of the
   new session are A1 to A1000. The text of a line or of a load has the notifications that adapters get. The adapters count their
   notifications, and keep none of them.
   Returns MMREPO_OK, the first fault of the metamodel, MMREPO_TOO_LONG or MMREPO_MEMORY. After MMREPO_OK the session is open and its text
   is empty. After any other value the session is closed. */
uint32_t mmrepo_open(mmrepo_session *session, const char *document, size_t size);

/* Runs one line of a script, given without its newline. The text of the session becomes what the line prints: its answer, and the
   notifications of adapters. A newline within the line does not end the line. It makes the line bad, unless it is in the document of a
   `load` line.
   Returns MMREPO_OK, MMREPO_BLANK, MMREPO_BAD, MMREPO_REFUSED or MMREPO_LOST. MMREPO_CLOSED (the session is closed) and MMREPO_TOO_LONG
   leave the session and its text as they are. After MMREPO_MEMORY the session is closed. */
uint32_t mmrepo_line(mmrepo_session *session, const char *line, size_t size);

/* Reads how many values a list has. `number` is the number of a resource if `is_resource` is true, else the number of an object. `name` is
   the name of the feature whose values are the list; a resource has only the list `contents`. The text of the session becomes that count.
   No line of a script reads such a count.
   Returns MMREPO_OK; or MMREPO_REFUSED if there is no such list, and then the text of the session says why. MMREPO_CLOSED (the session is
   closed) and MMREPO_BAD (the name is not UTF-8) leave the session and its text as they are. After MMREPO_MEMORY the session is closed. */
uint32_t mmrepo_list_length(mmrepo_session *session, bool is_resource, uint32_t number, const char *name, size_t size);

/* Reads the value at an index of a list; the first index is 0. The arguments name the list as those of mmrepo_list_length do. The text of
   the session becomes the value, as the line `get` prints a single value.
   Returns MMREPO_OK; or MMREPO_REFUSED if there is no such list or the index is past the last value, and then the text of the session says
   why. MMREPO_CLOSED (the session is closed) and MMREPO_BAD (the name is not UTF-8) leave the session and its text as they are. After
   MMREPO_MEMORY the session is closed. */
uint32_t mmrepo_list_value(mmrepo_session *session, bool is_resource, uint32_t number, const char *name, size_t size, uint32_t index);

/* Loads a document into the resource that has the number `resource`, as the line `load` does. The document may have any number of bytes,
   and may have newlines. The text of the session becomes what such a line prints.
   Returns MMREPO_OK, MMREPO_REFUSED or MMREPO_LOST. MMREPO_CLOSED (the session is closed) leaves the session and its text as they are.
   After MMREPO_MEMORY the session is closed. */
uint32_t mmrepo_load(mmrepo_session *session, uint32_t resource, const char *document, size_t size);

/* Copies the text of the session to `text`, at most `size` bytes of it. Each line of the text ends with a newline. The text is not
   NUL-terminated. Returns how many bytes the text has, which may be more than `size`; then call again with a larger buffer: the text is
   still there. Returns 0 if the session is closed, if the last line was blank, and if no line, read or load was run since mmrepo_open. */
size_t mmrepo_text(mmrepo_session *session, char *text, size_t size);

/* Closes a session and frees its memory. A session that is closed stays closed. */
void mmrepo_close(mmrepo_session *session);

#ifdef __cplusplus
}
#endif

#endif
