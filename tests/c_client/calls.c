/* Tests each call at its limits. Prints a line for each test, and what failed in it. The status is 0. */
#include <mmrepo.h>
#include <stdio.h>
#include <stdlib.h>
#include <string.h>

static const char SHELVES[] =
    "{\"classes\":[{\"name\":\"Shelf\",\"features\":["
    "{\"name\":\"label\",\"kind\":\"attribute\",\"type\":\"EString\"}]}]}";

static char room[4096];
static const char *failed;

#define EXPECT(holds) (failed = failed == NULL && !(holds) ? #holds : failed)

static const char TAGS[] =
    "{\"classes\":[{\"name\":\"Shelf\",\"features\":["
    "{\"name\":\"label\",\"kind\":\"attribute\",\"type\":\"EString\"},"
    "{\"name\":\"tags\",\"kind\":\"attribute\",\"type\":\"EString\",\"upper\":-1}]}]}";

static uint32_t open_text(mmrepo_session *session, const char *document) {
    return mmrepo_open(session, document, strlen(document));
}

static uint32_t line(mmrepo_session *session, const char *text) {
    return mmrepo_line(session, text, strlen(text));
}

static uint32_t length(mmrepo_session *session, bool is_resource, uint32_t number, const char *name) {
    return mmrepo_list_length(session, is_resource, number, name, strlen(name));
}

static uint32_t value(mmrepo_session *session, bool is_resource, uint32_t number, const char *name, uint32_t index) {
    return mmrepo_list_value(session, is_resource, number, name, strlen(name), index);
}

static uint32_t load(mmrepo_session *session, uint32_t resource, const char *document) {
    return mmrepo_load(session, resource, document, strlen(document));
}

/* Whether the text of a session is this one. */
static bool has_text(mmrepo_session *session, const char *text) {
    size_t size = mmrepo_text(session, room, sizeof room);
    return size == strlen(text) && size <= sizeof room && memcmp(room, text, size) == 0;
}

static void a_closed_session_answers_that(mmrepo_session *session) {
    EXPECT(line(session, "new Shelf") == MMREPO_CLOSED);
    EXPECT(mmrepo_text(session, room, sizeof room) == 0);
    mmrepo_close(session);
    mmrepo_close(session);
    EXPECT(!session->is_open);
}

static void a_session_opens_and_closes(mmrepo_session *session) {
    EXPECT(open_text(session, SHELVES) == MMREPO_OK);
    EXPECT(session->is_open);
    EXPECT(has_text(session, ""));
    mmrepo_close(session);
    EXPECT(!session->is_open);
    EXPECT(line(session, "new Shelf") == MMREPO_CLOSED);
}

static void a_line_is_counted(mmrepo_session *session) {
    open_text(session, SHELVES);
    EXPECT(line(session, "new Shelf") == MMREPO_OK);
    EXPECT(has_text(session, "#0\n"));
    EXPECT(line(session, "   ") == MMREPO_BLANK);
    EXPECT(has_text(session, ""));
    EXPECT(line(session, "") == MMREPO_BLANK);
    EXPECT(line(session, "knew Shelf") == MMREPO_BAD);
    EXPECT(has_text(session, "bad line\n"));
    EXPECT(line(session, "get #1 label") == MMREPO_REFUSED);
    EXPECT(has_text(session, "refused 1 NO_OBJECT\n"));
    EXPECT(line(session, "new Shelf\n") == MMREPO_BAD);
}

static void a_line_finds_what_the_lines_before_left(mmrepo_session *session) {
    open_text(session, SHELVES);
    line(session, "new Shelf");
    EXPECT(line(session, "set #0 label \"novels\"") == MMREPO_OK);
    EXPECT(has_text(session, "ok\n"));
    EXPECT(line(session, "get #0 label") == MMREPO_OK);
    EXPECT(has_text(session, "\"novels\"\n"));
    EXPECT(line(session, "attach A1000 #0 flat") == MMREPO_OK);
    EXPECT(line(session, "attach A1001 #0 flat") == MMREPO_REFUSED);
    EXPECT(line(session, "unset #0 label") == MMREPO_OK);
    EXPECT(has_text(session, "ok\ntold A1000 UNSET #0.label \"novels\" null -1\n"));
    EXPECT(line(session, "seen A1000") == MMREPO_OK);
    EXPECT(has_text(session, "seen 1 kept 0\n"));
}

static void a_text_is_copied_as_far_as_there_is_room(mmrepo_session *session) {
    char few[] = "......";
    open_text(session, SHELVES);
    line(session, "knew Shelf");
    EXPECT(mmrepo_text(session, few, 3) == 9);
    EXPECT(strcmp(few, "bad...") == 0);
    EXPECT(mmrepo_text(session, few, 0) == 9);
    EXPECT(strcmp(few, "bad...") == 0);
    EXPECT(has_text(session, "bad line\n"));
}

static void a_metamodel_is_refused_for_its_first_fault(mmrepo_session *session) {
    EXPECT(open_text(session, "") == MMREPO_FAULT_SYNTAX);
    EXPECT(open_text(session, "[]") == MMREPO_FAULT_LAYOUT);
    EXPECT(open_text(session, "{\"classes\":[{\"name\":\"1\"}]}") == MMREPO_FAULT_NAME);
    EXPECT(open_text(session, "{\"classes\":[{\"name\":\"A\"},{\"name\":\"A\"}]}") == MMREPO_FAULT_DUPLICATE_NAME);
    EXPECT(open_text(session, "{\"classes\":[{\"name\":\"A\",\"supers\":[\"B\"]}]}") == MMREPO_FAULT_NO_TYPE);
    EXPECT(open_text(session, "{\"classes\":[{\"name\":\"A\",\"supers\":[\"A\"]}]}") == MMREPO_FAULT_CYCLE);
    EXPECT(!session->is_open);
}

static void a_session_opens_anew(mmrepo_session *session) {
    open_text(session, SHELVES);
    line(session, "new Shelf");
    EXPECT(open_text(session, SHELVES) == MMREPO_OK);
    EXPECT(has_text(session, ""));
    EXPECT(line(session, "get #0 label") == MMREPO_REFUSED);
    EXPECT(open_text(session, "[]") == MMREPO_FAULT_LAYOUT);
    EXPECT(!session->is_open);
}

static void sessions_are_apart(mmrepo_session *session) {
    mmrepo_session other = MMREPO_CLOSED_SESSION;
    open_text(session, SHELVES);
    open_text(&other, SHELVES);
    line(session, "new Shelf");
    line(session, "new Shelf");
    EXPECT(line(&other, "new Shelf") == MMREPO_OK);
    EXPECT(has_text(&other, "#0\n"));
    EXPECT(has_text(session, "#1\n"));
    mmrepo_close(&other);
    EXPECT(line(session, "new Shelf") == MMREPO_OK);
}

static void what_is_too_long_is_refused(mmrepo_session *session) {
    size_t size = MMREPO_INPUT_BYTES;
    char *spaces = malloc(size + 1);
    memset(spaces, ' ', size + 1);
    memcpy(spaces, SHELVES, sizeof SHELVES - 1);
    EXPECT(mmrepo_open(session, spaces, size + 1) == MMREPO_TOO_LONG);
    EXPECT(!session->is_open);
    EXPECT(mmrepo_open(session, spaces, size) == MMREPO_OK);
    memset(spaces, ' ', size + 1);
    EXPECT(mmrepo_line(session, spaces, size) == MMREPO_BLANK);
    line(session, "new Shelf");
    EXPECT(mmrepo_line(session, spaces, size + 1) == MMREPO_TOO_LONG);
    EXPECT(has_text(session, "#0\n"));
    free(spaces);
}

static void a_list_is_read_value_by_value(mmrepo_session *session) {
    open_text(session, TAGS);
    line(session, "new Shelf");
    EXPECT(length(session, false, 0, "tags") == MMREPO_OK);
    EXPECT(has_text(session, "0\n"));
    line(session, "add #0 tags \"a b\"");
    line(session, "add #0 tags \"c\"");
    EXPECT(length(session, false, 0, "tags") == MMREPO_OK);
    EXPECT(has_text(session, "2\n"));
    EXPECT(value(session, false, 0, "tags", 0) == MMREPO_OK);
    EXPECT(has_text(session, "\"a b\"\n"));
    EXPECT(value(session, false, 0, "tags", 1) == MMREPO_OK);
    EXPECT(has_text(session, "\"c\"\n"));
    EXPECT(value(session, false, 0, "tags", 2) == MMREPO_REFUSED);
    EXPECT(has_text(session, "refused 10 INDEX\n"));
    EXPECT(value(session, false, 0, "tags", UINT32_MAX) == MMREPO_REFUSED);
    line(session, "resource \"http://m.example/a\"");
    line(session, "add r0 contents #0");
    EXPECT(length(session, true, 0, "contents") == MMREPO_OK);
    EXPECT(has_text(session, "1\n"));
    EXPECT(value(session, true, 0, "contents", 0) == MMREPO_OK);
    EXPECT(has_text(session, "#0\n"));
}

static void a_read_of_no_list_is_refused(mmrepo_session *session) {
    EXPECT(length(session, false, 0, "tags") == MMREPO_CLOSED);
    EXPECT(value(session, false, 0, "tags", 0) == MMREPO_CLOSED);
    open_text(session, TAGS);
    line(session, "new Shelf");
    EXPECT(length(session, false, 1, "tags") == MMREPO_REFUSED);
    EXPECT(has_text(session, "refused 1 NO_OBJECT\n"));
    EXPECT(length(session, true, 0, "contents") == MMREPO_REFUSED);
    EXPECT(has_text(session, "refused 2 NO_RESOURCE\n"));
    EXPECT(value(session, false, 0, "nothing", 0) == MMREPO_REFUSED);
    EXPECT(has_text(session, "refused 5 NO_FEATURE\n"));
    EXPECT(value(session, false, 0, "label", 0) == MMREPO_REFUSED);
    EXPECT(has_text(session, "refused 7 NOT_MANY\n"));
    EXPECT(length(session, false, 0, "\xff") == MMREPO_BAD);
    EXPECT(has_text(session, "refused 7 NOT_MANY\n"));
    EXPECT(value(session, false, 0, "\xff", 0) == MMREPO_BAD);
}

static void a_document_is_loaded(mmrepo_session *session) {
    EXPECT(load(session, 0, "{}") == MMREPO_CLOSED);
    open_text(session, TAGS);
    EXPECT(load(session, 0, "{}") == MMREPO_REFUSED);
    EXPECT(has_text(session, "refused 2 NO_RESOURCE\n"));
    line(session, "resource \"http://m.example/a\"");
    line(session, "attach A9 r0 deep");
    EXPECT(load(session, 0, "{\"format\":2,\n\"roots\":[{\"class\":\"Shelf\",\n\"features\":{}}]}\n") == MMREPO_OK);
    EXPECT(has_text(session, "loaded 1\ntold A9 ADD r0.contents null #0 0\n"));
    EXPECT(load(session, 0, "{\"format\":2,\"roots\":[]}") == MMREPO_REFUSED);
    EXPECT(has_text(session, "refused 17 NOT_EMPTY\n"));
    line(session, "resource \"http://m.example/b\"");
    EXPECT(load(session, 1, "") == MMREPO_REFUSED);
    EXPECT(has_text(session, "refused 18 DOCUMENT 1 SYNTAX\n"));
}

static void a_document_may_be_longer_than_a_line(mmrepo_session *session) {
    const char document[] = "{\"format\":2,\"roots\":[{\"class\":\"Shelf\",\"features\":{}}]}";
    size_t size = MMREPO_INPUT_BYTES + sizeof document;
    char *spaces = malloc(size);
    memset(spaces, ' ', size);
    memcpy(spaces, document, sizeof document - 1);
    open_text(session, TAGS);
    line(session, "resource \"http://m.example/a\"");
    EXPECT(mmrepo_load(session, 0, spaces, size) == MMREPO_OK);
    EXPECT(has_text(session, "loaded 1\n"));
    free(spaces);
}

static void run(const char *name, void (*test)(mmrepo_session *)) {
    mmrepo_session session = MMREPO_CLOSED_SESSION;
    failed = NULL;
    test(&session);
    mmrepo_close(&session);
    printf("%s: %s\n", name, failed == NULL ? "ok" : failed);
}

#define RUN(test) run(#test, test)

int main(void) {
    RUN(a_closed_session_answers_that);
    RUN(a_session_opens_and_closes);
    RUN(a_line_is_counted);
    RUN(a_line_finds_what_the_lines_before_left);
    RUN(a_text_is_copied_as_far_as_there_is_room);
    RUN(a_metamodel_is_refused_for_its_first_fault);
    RUN(a_session_opens_anew);
    RUN(sessions_are_apart);
    RUN(what_is_too_long_is_refused);
    RUN(a_list_is_read_value_by_value);
    RUN(a_read_of_no_list_is_refused);
    RUN(a_document_is_loaded);
    RUN(a_document_may_be_longer_than_a_line);
    return 0;
}
