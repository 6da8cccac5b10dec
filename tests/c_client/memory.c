/* Refuses the allocations of a session: one in each run, from the first allocation to the last. The linker wraps the three functions of the
   allocator. Prints a line for each test, and what failed in it. The status is 0. */
#include <mmrepo.h>
#include <stdio.h>
#include <string.h>

void *__real_malloc(size_t size);
void *__real_realloc(void *block, size_t size);
void __real_free(void *block);

static unsigned long asked, refused;
static long blocks;

void *__wrap_malloc(size_t size) {
    void *block = ++asked == refused ? NULL : __real_malloc(size);
    blocks += block != NULL;
    return block;
}

void *__wrap_realloc(void *block, size_t size) {
    void *moved = ++asked == refused ? NULL : __real_realloc(block, size);
    blocks += block == NULL && moved != NULL;
    return moved;
}

void __wrap_free(void *block) {
    blocks -= block != NULL;
    __real_free(block);
}

static const char SHELVES[] =
    "{\"classes\":[{\"name\":\"Shelf\",\"features\":["
    "{\"name\":\"label\",\"kind\":\"attribute\",\"type\":\"EString\"},"
    "{\"name\":\"inner\",\"kind\":\"reference\",\"type\":\"Shelf\",\"upper\":-1,\"containment\":true}]}]}";

static const char *const LINES[] = {
    "new Shelf", "new Shelf", "attach A1 #0 deep", "add #0 inner #1", "set #1 label \"novels\"", "get #1 label",
    "resource \"http://m.example/a\"", "add r0 contents #0", "save r0", "fragment #1", "contents #0", "seen A1", "delete #0",
    "resource \"http://m.example/b\"",
};

static const char DOCUMENT[] = "{\"format\":2,\"roots\":[{\"class\":\"Shelf\",\"features\":{\"label\":\"novels\"}}]}";

enum { LINE_COUNT = sizeof LINES / sizeof LINES[0] };

static const char LOST_TEXT[] = "refused 28 MEMORY\n";
static char text[4096];
static unsigned long opens_refused, lines_refused, lines_lost, wrong_answers, wrong_ends;

/* Whether the text of a lost line is what it is to be. */
static bool says_lost(mmrepo_session *session) {
    size_t size = mmrepo_text(session, text, sizeof text);
    return size == sizeof LOST_TEXT - 1 && memcmp(text, LOST_TEXT, size) == 0;
}

/* Counts what a call answers. */
static void count(mmrepo_session *session, uint32_t status) {
    lines_refused += status == MMREPO_MEMORY;
    lines_lost += status == MMREPO_LOST;
    wrong_answers += status == MMREPO_BAD || status == MMREPO_BLANK || status == MMREPO_CLOSED || status == MMREPO_TOO_LONG;
    wrong_answers += session->is_open == (status == MMREPO_MEMORY);
    wrong_answers += status == MMREPO_LOST && !says_lost(session);
}

/* Makes the calls that no line makes. */
static void run_calls(mmrepo_session *session) {
    if (session->is_open) {
        count(session, mmrepo_load(session, 1, DOCUMENT, sizeof DOCUMENT - 1));
    }
    if (session->is_open) {
        count(session, mmrepo_list_length(session, true, 1, "contents", 8));
    }
    if (session->is_open) {
        count(session, mmrepo_list_value(session, true, 1, "contents", 8, 0));
    }
}

/* Runs a session whose allocation of the number is refused. Answers whether it asked for so many. */
static bool run(unsigned long number) {
    mmrepo_session session = MMREPO_CLOSED_SESSION;
    asked = 0;
    refused = number;
    uint32_t status = mmrepo_open(&session, SHELVES, sizeof SHELVES - 1);
    opens_refused += status == MMREPO_MEMORY;
    wrong_answers += status != MMREPO_OK && status != MMREPO_MEMORY;
    for (int i = 0; i < LINE_COUNT && session.is_open; i++) {
        count(&session, mmrepo_line(&session, LINES[i], strlen(LINES[i])));
    }
    run_calls(&session);
    mmrepo_close(&session);
    wrong_ends += blocks != 0;
    blocks = 0;
    return asked >= number;
}

int main(void) {
    for (unsigned long number = 1; run(number); number++) {
    }
    printf("a_session_that_is_refused_memory_says_so: %s\n", wrong_answers == 0 ? "ok" : "another answer");
    printf("opening_a_line_and_a_command_are_refused_memory: %s\n", opens_refused && lines_refused && lines_lost ? "ok" : "one is not");
    printf("closing_frees_all: %s\n", wrong_ends == 0 ? "ok" : "some blocks are left");
    return 0;
}
