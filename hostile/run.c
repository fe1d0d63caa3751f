/*
 * Runs the program over sessions with each growth of its memory refused in turn.
 *
 *     run PROGRAM REFUSE LIST
 *
 * from the top of the repository, where REFUSE is refuse.c as a shared object and LIST a text with the name of a session in each
 * line. Each session is tried in these ways, each of them for N from 1 until a run asks for fewer growths than N:
 *
 *     once    the Nth growth alone is refused
 *     onward  the Nth and all later ones are
 *     again   the Nth alone, where each step of the script is given twice, one right behind the other
 *
 * A script has a step `dump` put behind it. What may be printed then:
 *
 *     - nothing, with `out of memory` on standard error and status 3;
 *     - of a script: for each step its right lines, or `refused 0 OutOfMemory`. The right lines of a step are those that the
 *       program itself prints for the script without the steps that were answered so before. The status is 3 where one was, else
 *       that of the session. Where the first of two equal steps was answered so and the second wasn't, the second has the lines
 *       that the step has in the session;
 *     - of words: the session's lines with its status; or with status 3 the line by which a plan or a verdict finds no memory;
 *       or, of a merge, the same as of a script, names being its steps;
 *     - of words of clr_desk, which a session's file `program` names: text, notes and status of the session; or with status 3 no text,
 *       and notes that have a line which says so; or, where the session is refused with status 2, its first note without what stands behind it, which is
 *       where the fault is or what a misspelt name may have meant;
 *     - of words that read a stream, the session's `input`: with status 3 the first lines of its text, and on standard error the first of its notes and then
 *       `out of memory`, since a stream is answered as it is read.
 *
 * Without a refusal the program has to print what the session says. In the ways `once` and `again` some step of each script has to
 * be lost while the run goes on: a program that ends at each refusal would never show what it does next. The last line is
 * 'N passed, M failed', a way of a session being one of N.
 */
#define _GNU_SOURCE
#include "control.h"

#include <errno.h>
#include <fcntl.h>
#include <spawn.h>
#include <stdarg.h>
#include <stdbool.h>
#include <stdio.h>
#include <stdlib.h>
#include <string.h>
#include <sys/mman.h>
#include <sys/resource.h>
#include <sys/wait.h>
#include <time.h>
#include <unistd.h>

enum { MOST_STEPS = 62, MOST_WORDS = 32, MOST_SESSIONS = 200, MOST_KEPT = 4096, SECONDS = 20 };

static const char LOST[] = "refused 0 OutOfMemory\n";
static const char NO_VERDICT[] = "0 OutOfMemory\n";
static const char NO_MEMORY[] = "out of memory\n";

/* Bytes that are kept, or lie within others. */
struct bytes {
    const char *start;
    size_t length;
};

/* Which of the steps are given, a bit for each. */
typedef uint64_t steps_set;

struct session {
    const char *name;
    struct bytes before;             /* the office and the separator; the words of a merge but its names aren't here */
    struct bytes steps[MOST_STEPS];  /* of a script, each with its edits; of a merge, its names */
    int count;                       /* how many steps there are; none for other words */
    char *words[MOST_WORDS];         /* the words, but for the names of a merge */
    int word_count;
    bool is_script, is_merge, is_doubled;
    struct bytes stream;             /* what words read from standard input, if they do */
    bool is_stream;
    bool is_desk;                    /* of clr_desk, which prints a text and notes */
    struct bytes lines, error;       /* what is printed where nothing is refused, and the line on standard error */
    int status;
};

/* How a run ended. */
struct end {
    struct bytes out, err;
    int status;  /* or -1: by a signal */
    uint64_t growths, refused;
};

/* What was printed without a refusal, by the steps that were given. */
struct kept {
    steps_set given;
    struct bytes out;
};

/* One for all workers. */
struct tally {
    int next;
    int passed, failed;
    uint64_t starts, refused, lost;
};

static const char *program, *preload;
static struct tally *tally;
static struct control *control;
static int control_file, in_file, out_file, err_file;
static struct kept kept[MOST_KEPT];
static int kept_count;
static uint64_t lost_steps;  /* of the session and the way at hand */

static void stop(const char *what) {
    fprintf(stderr, "growth: %s: %s\n", what, strerror(errno));
    exit(2);
}

/* Memory that is never given back but with the worker. */
static void *take(size_t size) {
    void *block = malloc(size + 1);
    if (block == NULL) {
        stop("memory");
    }
    return block;
}

static bool same(struct bytes a, struct bytes b) {
    return a.length == b.length && memcmp(a.start, b.start, a.length) == 0;
}

static bool begins(struct bytes whole, struct bytes part) {
    return whole.length >= part.length && memcmp(whole.start, part.start, part.length) == 0;
}

static struct bytes text(const char *start) {
    return (struct bytes){start, strlen(start)};
}

static struct bytes behind(struct bytes whole, size_t count) {
    return (struct bytes){whole.start + count, whole.length - count};
}

static struct bytes joined(struct bytes a, struct bytes b) {
    char *block = take(a.length + b.length);
    memcpy(block, a.start, a.length);
    memcpy(block + a.length, b.start, b.length);
    return (struct bytes){block, a.length + b.length};
}

/* ---- Files ---- */

static struct bytes read_file(int file) {
    off_t length = lseek(file, 0, SEEK_END);
    char *block = take((size_t)length);
    if (length < 0 || pread(file, block, (size_t)length, 0) != length) {
        stop("read");
    }
    block[length] = 0;
    return (struct bytes){block, (size_t)length};
}

/* A file of a session; nothing where it is missing. */
static struct bytes file_of(const char *session, const char *name, bool *is_there) {
    char path[512];
    snprintf(path, sizeof path, "sessions/%s/%s", session, name);
    int file = open(path, O_RDONLY | O_CLOEXEC);
    *is_there = file >= 0;
    if (file < 0) {
        return text("");
    }
    struct bytes whole = read_file(file);
    close(file);
    return whole;
}

static int new_file(const char *name) {
    int file = memfd_create(name, MFD_CLOEXEC);
    if (file < 0) {
        stop("memfd_create");
    }
    return file;
}

static void fill(int file, struct bytes content) {
    if (ftruncate(file, 0) != 0 || pwrite(file, content.start, content.length, 0) != (ssize_t)content.length) {
        stop("write");
    }
}

/* ---- Sessions ---- */

/* The next line of a text with its end. */
static struct bytes line_of(struct bytes rest) {
    const char *end = memchr(rest.start, '\n', rest.length);
    return (struct bytes){rest.start, end == NULL ? rest.length : (size_t)(end - rest.start) + 1};
}

static void add_step(struct session *session, struct bytes step) {
    for (int times = session->is_script && session->is_doubled ? 2 : 1; times > 0; times--) {
        if (session->count == MOST_STEPS) {
            fprintf(stderr, "growth: session %s has too many steps\n", session->name);
            exit(2);
        }
        session->steps[session->count++] = step;
    }
}

/* How many records behind it belong to a step. */
static long edits_of(struct bytes step) {
    if (!begins(step, text("apply,"))) {
        return 0;
    }
    const char *number = memrchr(step.start, ',', step.length);
    return atol(number + 1);
}

/* Cuts a script, whose records have a line each, into its steps. */
static void read_steps(struct session *session, struct bytes rest) {
    while (rest.length > 0) {
        struct bytes step = line_of(rest);
        for (long edits = edits_of(step); edits > 0; edits--) {
            step.length += line_of(behind(rest, step.length)).length;
        }
        rest = behind(rest, step.length);
        if (step.start[step.length - 1] != '\n') {
            step = joined(step, text("\n"));
        }
        add_step(session, step);
    }
    add_step(session, text("dump\n"));
}

static void read_script(struct session *session, struct bytes input) {
    struct bytes rest = input;
    while (rest.length > 0) {
        struct bytes line = line_of(rest);
        rest = behind(rest, line.length);
        if (same(line, text("---\n"))) {
            break;
        }
    }
    session->before = (struct bytes){input.start, input.length - rest.length};
    read_steps(session, rest);
}

/* Words, one a line; the names of a merge of clr_office are its steps. */
static void read_words(struct session *session, struct bytes rest) {
    while (rest.length > 0) {
        struct bytes line = line_of(rest);
        rest = behind(rest, line.length);
        struct bytes word = {line.start, line.length - (line.start[line.length - 1] == '\n')};
        bool is_merge = session->word_count == 0 && !session->is_desk && same(word, text("merge"));
        session->is_merge = session->is_merge || is_merge;
        if (session->is_merge && session->word_count == 3) {
            add_step(session, word);
        } else if (session->word_count < MOST_WORDS) {
            session->words[session->word_count++] = strndup(word.start, word.length);
        }
    }
}

static struct session *read_session(const char *name, bool is_doubled) {
    struct session *session = take(sizeof *session);
    bool is_there;
    memset(session, 0, sizeof *session);
    session->name = name;
    session->is_doubled = is_doubled;
    session->lines = file_of(name, "stdout", &is_there);
    session->error = file_of(name, "stderr", &is_there);
    struct bytes status = file_of(name, "status", &is_there);
    session->status = is_there ? atoi(status.start) : 0;
    session->is_desk = begins(file_of(name, "program", &is_there), text("clr_desk"));
    struct bytes words = file_of(name, "words", &is_there);
    session->is_script = !is_there;
    struct bytes input = file_of(name, "input", &is_there);
    if (!session->is_script) {
        read_words(session, words);
        session->stream = input;
        session->is_stream = is_there;
        return session;
    }
    if (!is_there) {
        fprintf(stderr, "growth: no session %s\n", name);
        exit(2);
    }
    read_script(session, input);
    return session;
}

/* ---- Runs ---- */

static bool has(steps_set given, int step) {
    return (given >> step & 1) != 0;
}

/* The steps that stand before one. */
static steps_set up_to(int step) {
    return ((steps_set)1 << step) - 1;
}

static void write_input(const struct session *session, steps_set given) {
    struct bytes input = session->before;
    size_t length = input.length;
    for (int step = 0; step < session->count; step++) {
        length += session->steps[step].length;
    }
    char *whole = malloc(length + 1), *end = whole;
    if (whole == NULL) {
        stop("memory");
    }
    end = mempcpy(end, input.start, input.length);
    for (int step = 0; step < session->count; step++) {
        if (has(given, step)) {
            end = mempcpy(end, session->steps[step].start, session->steps[step].length);
        }
    }
    fill(in_file, (struct bytes){whole, (size_t)(end - whole)});
    free(whole);
}

/* The words of a run; those of a merge end with the names that are given. */
static void list_words(const struct session *session, steps_set given, char **list) {
    *list++ = (char *)program;
    for (int word = 0; word < session->word_count; word++) {
        *list++ = session->words[word];
    }
    for (int step = 0; session->is_merge && step < session->count; step++) {
        if (has(given, step)) {
            *list++ = strndup(session->steps[step].start, session->steps[step].length);
        }
    }
    *list = NULL;
}

static int start(char **words) {
    char library[600], number[64];
    snprintf(library, sizeof library, "LD_PRELOAD=%s", preload);
    snprintf(number, sizeof number, CONTROL_VARIABLE "=%d", control_file);
    char *environment[] = {library, number, NULL};
    posix_spawn_file_actions_t files;
    pid_t child;
    posix_spawn_file_actions_init(&files);
    posix_spawn_file_actions_adddup2(&files, in_file, 0);
    posix_spawn_file_actions_adddup2(&files, out_file, 1);
    posix_spawn_file_actions_adddup2(&files, err_file, 2);
    errno = posix_spawn(&child, program, &files, NULL, words, environment);
    if (errno != 0) {
        stop(program);
    }
    posix_spawn_file_actions_destroy(&files);
    /* (a program that doesn't end is stopped, which is wrong) */
    prlimit(child, RLIMIT_CPU, &(struct rlimit){SECONDS, SECONDS}, NULL);
    return child;
}

/* Runs the program over these steps, the growths of these numbers refused. */
static struct end run(const struct session *session, steps_set given, uint64_t first, uint64_t last) {
    char *words[MOST_WORDS + MOST_STEPS + 2];
    int state;
    list_words(session, given, words);
    if (session->is_script) {
        write_input(session, given);
    } else {
        fill(in_file, session->stream);
    }
    fill(out_file, text(""));
    fill(err_file, text(""));
    lseek(in_file, 0, SEEK_SET);
    lseek(out_file, 0, SEEK_SET);
    lseek(err_file, 0, SEEK_SET);
    *control = (struct control){.first = first, .last = last};
    if (waitpid(start(words), &state, 0) < 0) {
        stop("waitpid");
    }
    __atomic_add_fetch(&tally->starts, 1, __ATOMIC_RELAXED);
    __atomic_add_fetch(&tally->refused, control->refused, __ATOMIC_RELAXED);
    return (struct end){
        .out = read_file(out_file),
        .err = read_file(err_file),
        .status = WIFEXITED(state) ? WEXITSTATUS(state) : -1,
        .growths = control->growths,
        .refused = control->refused,
    };
}

/* What the program prints for these steps where nothing is refused. */
static struct bytes out_of(const struct session *session, steps_set given) {
    for (int at = 0; at < kept_count; at++) {
        if (kept[at].given == given) {
            return kept[at].out;
        }
    }
    if (kept_count == MOST_KEPT) {
        kept_count = 0;
    }
    struct bytes out = run(session, given, 0, 0).out;
    kept[kept_count++] = (struct kept){given, out};
    return out;
}

/* The lines of a step of a script without the steps that are lost before it. */
static struct bytes lines_of(const struct session *session, steps_set lost, int step) {
    struct bytes before = out_of(session, up_to(step) & ~lost);
    struct bytes whole = out_of(session, up_to(step + 1) & ~(lost & up_to(step)));
    return begins(whole, before) ? behind(whole, before.length) : text("(other lines before it)");
}

/* ---- What is right ---- */

static bool is_no_memory(const struct end *end) {
    return end->status == 3 && end->out.length == 0 && same(end->err, text(NO_MEMORY));
}

/* Whether a step that was lost has the lines of the session where it was given again at once. */
static bool is_right_again(const struct session *session, steps_set lost, int step, struct bytes found) {
    bool is_second = session->is_doubled && step % 2 == 1;
    if (!is_second || !has(lost, step - 1)) {
        return true;
    }
    steps_set firsts = 0;
    for (int first = 0; first < step; first += 2) {
        firsts |= (steps_set)1 << first;
    }
    struct bytes before = out_of(session, firsts & up_to(step - 1));
    return same(found, behind(out_of(session, firsts), before.length));
}

/* Whether the lines of a script are right, each step's its own or those of one that was lost. */
static bool is_right_script(const struct session *session, const struct end *end) {
    steps_set lost = 0;
    struct bytes rest = end->out;
    for (int step = 0; step < session->count; step++) {
        struct bytes lines = lines_of(session, lost, step);
        if (begins(rest, lines)) {
            if (!is_right_again(session, lost, step, lines)) {
                return false;
            }
            rest = behind(rest, lines.length);
        } else if (begins(rest, text(LOST))) {
            rest = behind(rest, strlen(LOST));
            lost |= (steps_set)1 << step;
            lost_steps += 1;
        } else {
            return false;
        }
    }
    return rest.length == 0 && end->err.length == 0 && end->status == (lost == 0 ? session->status : 3);
}

/* Whether the lines of a merge are right: those without the names that were lost, and a line for each of these. */
static bool is_right_merge(const struct session *session, const struct end *end) {
    steps_set lost = 0;
    struct bytes rest = end->out;
    for (int name = 0; name < session->count; name++) {
        struct bytes line = line_of(rest);
        if (same(line, text(LOST))) {
            lost |= (steps_set)1 << name;
        }
        rest = behind(rest, line.length);
    }
    struct bytes others = out_of(session, up_to(session->count) & ~lost);
    rest = end->out;
    for (int name = 0; name < session->count; name++) {
        struct bytes line = has(lost, name) ? text(LOST) : line_of(others), own = line;
        char stopped[32];
        if (begins(line, text("notquiet "))) { /* its number counts the names that are lost too */
            snprintf(stopped, sizeof stopped, "notquiet %d\n", name + 1);
            own = text(stopped);
        }
        if (!begins(rest, own)) {
            return false;
        }
        rest = behind(rest, own.length);
        others = has(lost, name) ? others : behind(others, line.length);
    }
    return lost != 0 && same(rest, others) && end->err.length == 0 && end->status == 3;
}

/* The line by which words find no memory for a plan or a verdict; none for an audit. */
static bool is_lost_answer(const struct session *session, const struct end *end) {
    const char *word = session->words[0];
    bool is_plan = strcmp(word, "plan") == 0 || strcmp(word, "planunder") == 0;
    bool is_verdict = strcmp(word, "check") == 0 || session->is_merge;
    bool is_line = (is_plan && same(end->out, text(LOST))) || (is_verdict && same(end->out, text(NO_VERDICT)));
    return is_line && end->status == 3 && end->err.length == 0;
}

/* Whether clr_desk finds no memory: it prints no text, and one of its notes says that something was lost; or it leaves
 * out what stands behind the line of a fault. */
static bool is_lost_text(const struct session *session, const struct end *end) {
    if (end->out.length != 0) {
        return false;
    }
    if (end->status == 3) {
        const char *lost = memmem(end->err.start, end->err.length, NO_VERDICT, strlen(NO_VERDICT));
        return lost != NULL;
    }
    return end->status == 2 && session->status == 2 && same(end->err, line_of(session->error));
}

/* Whether these are lines at the beginning of a text. */
static bool are_first_lines(struct bytes whole, struct bytes part) {
    return begins(whole, part) && (part.length == 0 || part.start[part.length - 1] == '\n');
}

/* Whether words find no memory for the rest of a stream. */
static bool is_lost_stream(const struct session *session, const struct end *end) {
    size_t length = strlen(NO_MEMORY);
    if (!session->is_stream || end->status != 3 || end->err.length < length) {
        return false;
    }
    struct bytes notes = {end->err.start, end->err.length - length};
    return same(behind(end->err, notes.length), text(NO_MEMORY)) && are_first_lines(session->error, notes) && are_first_lines(session->lines, end->out);
}

static bool is_right(const struct session *session, const struct end *end) {
    if (end->refused > 0 && is_no_memory(end)) {
        return true;
    }
    if (session->is_script) {
        return is_right_script(session, end);
    }
    if (end->status == session->status && same(end->out, session->lines) && same(end->err, session->error)) {
        return true;
    }
    if (session->is_desk) {
        return end->refused > 0 && (is_lost_text(session, end) || is_lost_stream(session, end));
    }
    return end->refused > 0 && (is_lost_answer(session, end) || (session->is_merge && is_right_merge(session, end)));
}

/* Whether the first of each step's two, or a script that isn't doubled, prints what the session says, and a line for the dump. */
static bool is_as_stored(const struct session *session) {
    steps_set given = session->is_doubled ? 0x5555555555555555 & up_to(session->count) : up_to(session->count);
    struct bytes out = out_of(session, given);
    if (!begins(out, session->lines)) {
        return false;
    }
    struct bytes rest = behind(out, session->lines.length);
    return rest.length > 0 && line_of(rest).length == rest.length;
}

/* ---- All growths of all sessions ---- */

enum way { ONCE, ONWARD, AGAIN, WAYS };

static const char *const ways[] = {"once", "onward", "again"};

static void show(const struct session *session, enum way way, uint64_t number, const struct end *end) {
    char line[2048];
    int length = snprintf(line, sizeof line, "growth: session %s, %s, growth %llu: status %d, error line '%.*s', printed:\n%.*s\n",
                          session->name, ways[way], (unsigned long long)number, end->status, (int)end->err.length % 200,
                          end->err.start, (int)(end->out.length < 1500 ? end->out.length : 1500), end->out.start);
    if (write(1, line, (size_t)(length < (int)sizeof line ? length : (int)sizeof line - 1)) < 0) {
        stop("write");
    }
}

static void give_back(const struct end *end) {
    free((void *)end->out.start);
    free((void *)end->err.start);
}

/* Whether a run in which this growth is refused ends rightly; what is left of the session is to be tried where `is_last` isn't set. */
static bool is_right_at(const struct session *session, enum way way, uint64_t number, bool *is_last) {
    struct end end = run(session, up_to(session->count), number, way == ONWARD ? UINT64_MAX : number);
    bool is_good = is_right(session, &end);
    if (!is_good) {
        show(session, way, number, &end);
    }
    *is_last = end.refused == 0;
    give_back(&end);
    return is_good;
}

/* Whether a session is right in a way. */
static bool is_right_throughout(const char *name, enum way way) {
    struct session *session = read_session(name, way == AGAIN);
    bool is_last = false, is_good = true;
    kept_count = 0;
    lost_steps = 0;
    struct end end = run(session, up_to(session->count), 0, 0);
    /* (a step that is done is often refused when it is given again) */
    session->status = session->is_doubled && end.status == 1 ? 1 : session->status;
    if ((session->is_script && !is_as_stored(session)) || !is_right(session, &end)) {
        show(session, way, 0, &end);
        return false;
    }
    give_back(&end);
    for (uint64_t number = 1; !is_last; number++) {
        is_good = is_right_at(session, way, number, &is_last) && is_good;
    }
    __atomic_add_fetch(&tally->lost, lost_steps, __ATOMIC_RELAXED);
    if (session->is_script && way != ONWARD && lost_steps == 0) {
        fprintf(stderr, "growth: session %s, %s: no step is lost\n", session->name, ways[way]);
        return false;
    }
    return is_good;
}

static bool is_script(const char *name) {
    bool has_words;
    file_of(name, "words", &has_words);
    return !has_words;
}

/* Takes one session and way after another, until none is left. */
static void work(char **names, int count) {
    in_file = new_file("in");
    out_file = new_file("out");
    err_file = new_file("err");
    control_file = memfd_create("control", 0);
    if (control_file < 0 || ftruncate(control_file, sizeof *control) != 0) {
        stop("memfd_create");
    }
    control = mmap(NULL, sizeof *control, PROT_READ | PROT_WRITE, MAP_SHARED, control_file, 0);
    if (control == MAP_FAILED) {
        stop("mmap");
    }
    for (;;) {
        int item = __atomic_fetch_add(&tally->next, 1, __ATOMIC_RELAXED);
        if (item >= count * WAYS) {
            exit(0);
        }
        const char *name = names[item / WAYS];
        enum way way = item % WAYS;
        if (way != AGAIN || is_script(name)) {
            __atomic_add_fetch(is_right_throughout(name, way) ? &tally->passed : &tally->failed, 1, __ATOMIC_RELAXED);
        }
    }
}

/* The lines of a list that name sessions. */
static int read_names(const char *list, char **names) {
    FILE *file = fopen(list, "r");
    char line[256];
    int count = 0;
    if (file == NULL) {
        stop(list);
    }
    while (fgets(line, sizeof line, file) != NULL) {
        line[strcspn(line, " \n")] = 0;
        if (line[0] != 0 && line[0] != '#' && count < MOST_SESSIONS) {
            names[count++] = strdup(line);
        }
    }
    fclose(file);
    return count;
}

static double seconds(void) {
    struct timespec now;
    clock_gettime(CLOCK_MONOTONIC, &now);
    return (double)now.tv_sec + (double)now.tv_nsec / 1e9;
}

int main(int argc, char **argv) {
    char *names[MOST_SESSIONS];
    int state, broken = 0;
    if (argc != 4) {
        fprintf(stderr, "growth: run PROGRAM REFUSE LIST\n");
        return 2;
    }
    program = argv[1];
    preload = argv[2];
    int count = read_names(argv[3], names);
    double begin = seconds();
    tally = mmap(NULL, sizeof *tally, PROT_READ | PROT_WRITE, MAP_SHARED | MAP_ANONYMOUS, -1, 0);
    if (tally == MAP_FAILED) {
        stop("mmap");
    }
    for (long workers = sysconf(_SC_NPROCESSORS_ONLN); workers > 0; workers--) {
        if (fork() == 0) {
            work(names, count);
        }
    }
    while (wait(&state) > 0) {
        broken += !WIFEXITED(state) || WEXITSTATUS(state) != 0;
    }
    printf("growth: %d sessions, %llu starts, %llu growths refused, %llu steps lost, %.0f s\n", count, (unsigned long long)tally->starts,
           (unsigned long long)tally->refused, (unsigned long long)tally->lost, seconds() - begin);
    printf("%d passed, %d failed\n", tally->passed, tally->failed + broken);
    return tally->failed + broken > 0;
}
