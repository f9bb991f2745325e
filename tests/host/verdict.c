/* Runs the verdict program on the lines `verdict STDIN = LINE` of vector files,
 * and on longer and stranger inputs of its own:
 *
 *     verdict PROGRAM FILE...
 *
 * Every input is given at once, in short pieces, and as a file. The program must
 * write exactly the line and its end, nothing on standard error, and end with
 * status 0; of a file it must have read the first 300 bytes and no more. For
 * inputs that are no vectors the line is stated here, and the library and the
 * oracle must give it too. Other lines of the files are passed over. It prints
 * what fails and a count, and ends with status 1 if anything did. */
#define _DEFAULT_SOURCE
#include "both.h"

#include <errno.h>
#include <fcntl.h>
#include <poll.h>
#include <signal.h>
#include <sys/ioctl.h>
#include <sys/wait.h>
#include <time.h>
#include <unistd.h>

enum { MOST_INPUT = 200000, MOST_SECONDS = 20, CLOSED = -1 };
enum way { AT_ONCE, IN_PIECES, FROM_FILE, WAYS };
static const char *const way_names[] = { "at once", "in pieces", "from a file" };

static const char *program;
static unsigned long passed, failed;

/* What the program wrote, each with an end of text, and how it ended. */
static struct {
    char out[MOST_LINE], err[MOST_LINE];
    size_t out_length, err_length;
    int status;
} run;

static void give_up(const char *what)
{
    perror(what);
    exit(2);
}

/* Descriptors that the program does not get, but as one of its first three. */
static int kept(int descriptor, const char *what)
{
    if (descriptor < 0 || fcntl(descriptor, F_SETFD, FD_CLOEXEC) != 0)
        give_up(what);
    return descriptor;
}

static void open_pipe(int ends[2])
{
    if (pipe(ends) != 0)
        give_up("pipe");
    kept(ends[0], "pipe");
    kept(ends[1], "pipe");
}

/* Starts the program with these as its standard input, output and error. Time is
 * up for it after a while, which ends it and so whatever waits for it here. */
static pid_t start(int in, int out, int err)
{
    int given[] = { in, out, err };
    pid_t child = fork();
    if (child < 0)
        give_up("fork");
    if (child > 0)
        return child;
    for (int i = 0; i < 3; i++)
        if (given[i] == CLOSED)
            close(i);
        else if (dup2(given[i], i) != i)
            _exit(126);
    signal(SIGPIPE, SIG_DFL);
    alarm(MOST_SECONDS);
    execl(program, program, (char *)NULL);
    _exit(127);
}

/* ---- Input ---- */

/* Whether all was written; not if the program reads no more. */
static bool write_all(int to, const uint8_t *bytes, size_t length)
{
    while (length) {
        ssize_t put = write(to, bytes, length);
        if (put < 0 && errno == EPIPE)
            return false;
        if (put < 0)
            give_up("write");
        bytes += put;
        length -= (size_t)put;
    }
    return true;
}

/* Waits until what was written to a pipe has been read; not if the program reads
 * no more. */
static bool wait_until_empty(int pipe)
{
    struct timespec moment = { .tv_nsec = 10000 };
    for (;;) {
        struct pollfd reader = { .fd = pipe };
        int left;
        if (ioctl(pipe, FIONREAD, &left) != 0)
            give_up("FIONREAD");
        if (left == 0)
            return true;
        if (poll(&reader, 1, 0) == 1 && (reader.revents & POLLERR))
            return false;
        nanosleep(&moment, NULL);
    }
}

/* Every read of the program finds one piece and nothing else. */
static void write_pieces(int to, const uint8_t *bytes, size_t length)
{
    size_t piece = length > 40 ? 7 : 1;
    for (size_t at = 0; at < length; at += piece)
        if (!write_all(to, bytes + at, length - at < piece ? length - at : piece)
            || !wait_until_empty(to))
            return;
}

/* ---- Output ---- */

static size_t read_all(int from, char *text)
{
    size_t length = 0;
    ssize_t got;
    while ((got = read(from, text + length, MOST_LINE - 1 - length)) > 0)
        length += (size_t)got;
    text[length] = 0;
    close(from);
    return length;
}

static bool out_of_time(void)
{
    return WIFSIGNALED(run.status) && WTERMSIG(run.status) == SIGALRM;
}

/* What is wrong with a run that had to write this line, NULL if nothing is. */
static const char *wrong(const char *line)
{
    size_t length = strlen(line);
    if (out_of_time())
        return "it does not end";
    if (!WIFEXITED(run.status) || WEXITSTATUS(run.status) != 0)
        return "it does not end with status 0";
    if (run.err_length)
        return "it writes to standard error";
    if (run.out_length != length + 1 || memcmp(run.out, line, length) != 0 || run.out[length] != '\n')
        return "it writes something else";
    return NULL;
}

/* Runs the program with standard input and output as given and the input written
 * to "to" if that is not CLOSED. */
static void run_program(int in, int out[2], int to, const uint8_t *bytes, size_t length, enum way way)
{
    int err[2];
    open_pipe(err);
    pid_t child = start(in, out[1], err[1]);
    close(err[1]);
    if (out[1] != CLOSED)
        close(out[1]);
    if (to != CLOSED) {
        close(in);
        if (way == AT_ONCE)
            write_all(to, bytes, length);
        else
            write_pieces(to, bytes, length);
        close(to);
    }
    run.out_length = out[0] == CLOSED ? 0 : read_all(out[0], run.out);
    run.err_length = read_all(err[0], run.err);
    if (waitpid(child, &run.status, 0) != child)
        give_up("waitpid");
}

static const char *try_pipe(const uint8_t *bytes, size_t length, const char *line, enum way way)
{
    int in[2], out[2];
    open_pipe(in);
    open_pipe(out);
    run_program(in[0], out, in[1], bytes, length, way);
    return wrong(line);
}

static const char *try_file(const uint8_t *bytes, size_t length, const char *line)
{
    int out[2];
    FILE *file = tmpfile();
    int in = kept(file ? fileno(file) : -1, "tmpfile");
    write_all(in, bytes, length);
    lseek(in, 0, SEEK_SET);
    open_pipe(out);
    run_program(in, out, CLOSED, NULL, 0, FROM_FILE);
    off_t at = lseek(in, 0, SEEK_CUR);
    fclose(file);
    const char *fault = wrong(line);
    if (!fault && at != (off_t)(length < VERDICT_INPUT ? length : VERDICT_INPUT))
        fault = "it does not read just the first 300 bytes";
    return fault;
}

/* Counts what was tried; fault: what was wrong, or NULL. */
static void count(const char *what, const char *how, const char *fault, const char *line)
{
    if (!fault) {
        passed++;
        return;
    }
    failed++;
    printf("%s, %s: %s\n  line   %s\n  answer %s\n", what, how, fault, line, run.out);
    if (run.err_length)
        printf("  error  %s\n", run.err);
    if (out_of_time()) { /* it might take as long on every other input */
        printf("stopped\n");
        exit(1);
    }
}

static void try_all(const char *what, const uint8_t *bytes, size_t length, const char *line)
{
    for (enum way way = AT_ONCE; way < WAYS; way++)
        count(what, way_names[way],
              way == FROM_FILE ? try_file(bytes, length, line) : try_pipe(bytes, length, line, way),
              line);
}

/* ---- Vectors ---- */

static void run_file(const char *name)
{
    static char line[MOST_LINE];
    struct request r;
    char what[300];
    FILE *file = fopen(name, "r");
    if (!file)
        give_up(name);
    for (unsigned long number = 1; fgets(line, sizeof line, file); number++) {
        line[strcspn(line, "\r\n")] = 0;
        snprintf(what, sizeof what, "%s:%lu", name, number);
        if (strncmp(line, "verdict ", 8) != 0)
            continue;
        if (read_request(line, &r))
            try_all(what, r.byte[RULE], r.number[RULE], r.expected);
        else
            count(what, "not run", "not a line of this form", "");
    }
    fclose(file);
}

/* ---- Other inputs ---- */

static uint8_t input[MOST_INPUT];

/* The line of a result of decide, as the program asks. */
static const char *line_of(bool library, size_t length)
{
    static char text[2 * MOST_LINE];
    static uint8_t workspace[VERDICT_WORKSPACE], out[VERDICT_OUT];
    struct request r;
    union result result;
    begin_request("verdict", &r);
    r.number[RULE] = length < VERDICT_INPUT ? length : VERDICT_INPUT;
    memset(workspace, 0, sizeof workspace);
    call(library, &r, (uint8_t *[ARGUMENTS]){ [RULE] = input, [WORKSPACE] = workspace, [OUT] = out }, &result);
    tell(r.operation, &result, out, sizeof out, text);
    return text;
}

/* The first bytes of "input": the program, the library and the oracle must all
 * give this line. */
static void try_input(const char *what, size_t length, const char *line)
{
    for (int library = 0; library < 2; library++) {
        run.err_length = 0;
        snprintf(run.out, sizeof run.out, "%s", line_of(library, length));
        count(what, library ? "library" : "oracle",
              strcmp(run.out, line) == 0 ? NULL : "another answer", line);
    }
    try_all(what, input, length, line);
}

/* A valid strip, X0 = X1 1, with its first two bytes as given, in a long input. */
static void try_long(unsigned heading, unsigned records, const char *line)
{
    static const size_t lengths[] = { 301, 4096, MOST_INPUT };
    char what[80];
    memset(input, 0, sizeof input);
    memcpy(input, (uint8_t[]){ (uint8_t)heading, (uint8_t)records, 0x20, 0x00, 0x40 }, 5);
    for (size_t i = 0; i < sizeof lengths / sizeof lengths[0]; i++) {
        snprintf(what, sizeof what, "%02X%02X200040 in %zu bytes", heading, records, lengths[i]);
        try_input(what, lengths[i], line);
    }
}

/* One variable and so many records X0 subset X0, whose bits are all 0. */
static void try_records(unsigned records, size_t more, const char *line)
{
    char what[80];
    memset(input, 0, sizeof input);
    input[0] = 0x11;
    input[1] = (uint8_t)records;
    snprintf(what, sizeof what, "%u records and %zu bytes", records, more);
    try_input(what, (16 + 18 * (size_t)records + 7) / 8 + more, line);
}

static void try_no_input(void)
{
    static const char line[] = "refused 1 0";
    int out[2];
    open_pipe(out);
    run_program(CLOSED, out, CLOSED, NULL, 0, AT_ONCE);
    count("no standard input", "closed", wrong(line), line);
    int none = kept(open("/dev/null", O_RDONLY), "/dev/null");
    open_pipe(out);
    run_program(none, out, CLOSED, NULL, 0, AT_ONCE);
    close(none);
    count("no standard input", "/dev/null", wrong(line), line);
}

/* Where nobody can have the line, the program must still end by itself. */
static void try_no_output(void)
{
    static const char *const ways[] = { "closed", "no reader", "/dev/full" };
    for (int i = 0; i < 3; i++) {
        int in[2], out[2] = { CLOSED, CLOSED };
        if (i == 2 && access("/dev/full", W_OK) != 0)
            continue;
        open_pipe(in);
        if (i == 1) {
            open_pipe(out);
            close(out[0]);
            out[0] = CLOSED;
        } else if (i == 2) {
            out[1] = kept(open("/dev/full", O_WRONLY), "/dev/full");
        }
        run.out[0] = 0;
        run_program(in[0], out, in[1], (const uint8_t[]){ 0x12, 0x01, 0x20, 0x00, 0x40 }, 5, AT_ONCE);
        bool ended = WIFEXITED(run.status) ? WEXITSTATUS(run.status) < 126
                                           : WTERMSIG(run.status) == SIGPIPE;
        count("no standard output", ways[i], ended ? NULL : "it does not end by itself", "");
    }
}

int main(int argc, char **argv)
{
    int low;
    if (argc < 3) {
        fprintf(stderr, "usage: verdict PROGRAM FILE...\n");
        return 2;
    }
    program = argv[1];
    signal(SIGPIPE, SIG_IGN);
    while ((low = open("/dev/null", O_RDWR)) >= 0 && low <= 2) /* so that no pipe is one of the first three */
        ;
    close(low);
    for (int i = 2; i < argc; i++)
        run_file(argv[i]);
    if (passed + failed == 0) {
        printf("no line of the verdict program\n");
        return 1;
    }
    try_long(0x12, 1, "refused 5 2400"); /* the bits of the 300 bytes that it reads */
    try_long(0x22, 1, "refused 2 0");
    try_long(0x10, 1, "refused 3 4");
    try_long(0x12, 0, "refused 4 8");
    try_records(64, 0, "shown 0 1 1100"); /* the longest that fits the workspace */
    try_records(128, 0, "refused 12"); /* the longest strip there is */
    try_records(128, 1, "refused 5 2328");
    try_records(128, VERDICT_INPUT - 1 - 290, "refused 5 2392");
    try_records(128, VERDICT_INPUT - 290, "refused 5 2400");
    try_records(128, VERDICT_INPUT + 1 - 290, "refused 5 2400");
    try_no_input();
    try_no_output();
    printf("verdict program: %lu passed, %lu failed\n", passed, failed);
    return failed != 0;
}
