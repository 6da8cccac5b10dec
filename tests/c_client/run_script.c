/* run_script METAMODEL: runs the lines on standard input over the metamodel of a file, and prints what each line prints. The exit status is
   0 if all lines were run, whatever they answered; otherwise it is the status of the call that failed. */
#include <mmrepo.h>
#include <stdio.h>
#include <stdlib.h>

enum { MOST_BYTES = 1 << 20 };

static char bytes[MOST_BYTES];

/* Reads a file to its end. */
static size_t read_file(const char *path) {
    FILE *file = fopen(path, "rb");
    if (file == NULL) {
        exit(99);
    }
    size_t size = fread(bytes, 1, sizeof bytes, file);
    fclose(file);
    return size;
}

/* Prints the text of a session. */
static void print_text(mmrepo_session *session) {
    size_t size = mmrepo_text(session, bytes, sizeof bytes);
    if (size > sizeof bytes) {
        exit(98);
    }
    fwrite(bytes, 1, size, stdout);
}

/* Reads a line without its newline. Answers -1 at the end of the input. */
static long read_line(void) {
    long size = 0;
    int c = getchar();
    if (c == EOF) {
        return -1;
    }
    while (c != EOF && c != '\n') {
        if (size == MOST_BYTES) {
            exit(97);
        }
        bytes[size++] = (char)c;
        c = getchar();
    }
    return size;
}

int main(int count, char **arguments) {
    if (count != 2) {
        return 96;
    }
    mmrepo_session session = MMREPO_CLOSED_SESSION;
    uint32_t status = mmrepo_open(&session, bytes, read_file(arguments[1]));
    for (long size; status < MMREPO_CLOSED && session.is_open && (size = read_line()) >= 0;) {
        status = mmrepo_line(&session, bytes, (size_t)size);
        print_text(&session);
    }
    bool is_open = session.is_open;
    mmrepo_close(&session);
    return is_open ? 0 : (int)status;
}
