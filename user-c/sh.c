/* sh: reads lines and runs the programs that they name.
 *
 *     list:      pipeline ; pipeline & ..      one after the other; one with & after it isn't waited for
 *     pipeline:  part | part ..                each writes what the next one reads; or cd DIRECTORY
 *     part:      WORD.. or (list)              with < FILE, > FILE and >> FILE, which writes at a file's end
 *
 * There is no tree of a line. First all of it is skipped, which finds its faults. Then it is run: who meets something that
 * another process is to run forks, skips that, and goes on after it. */
#include "kernel/types.h"
#include "kernel/stat.h"
#include "kernel/fcntl.h"
#include "kernel/param.h"
#include "user/user.h"

#define BLANKS    " \t\r\n"
#define OPERATORS "<>|&;()"

static char line[256];
static const char *at;          /* where it is read */
static const char *fault;       /* what is wrong with it, 0 where nothing is */

/* ---- reading */

/* Whether one of these bytes is the next that is no blank. */
static int is_next(const char *bytes)
{
    while (*at && strchr(BLANKS, *at))
        at++;
    return *at && strchr(bytes, *at);
}

static int is_word_next(void)
{
    return !is_next(OPERATORS) && *at;
}

/* A line with a fault is read no further. */
static void refuse(const char *why)
{
    if (!fault)
        fault = why;
    at = "";
}

static void skip_word(void)
{
    while (*at && !strchr(BLANKS OPERATORS, *at))
        at++;
}

/* Copies the next word, which the line has no 0 after, to where it is kept. */
static char *word(void)
{
    static char words[2 * sizeof line], *room = words;
    is_word_next();
    const char *start = at;
    skip_word();
    char *copy = room;
    memmove(copy, start, at - start);
    room += at - start;
    *room++ = 0;
    return copy;
}

/* Whether the next word is cd. */
static int is_cd_next(void)
{
    if (!is_word_next())
        return 0;
    const char *start = at;
    skip_word();
    int is_cd = at - start == 2 && start[0] == 'c' && start[1] == 'd';
    at = start;
    return is_cd;
}

/* ---- skipping */

static void skip_list(void);

/* Skips < FILE, > FILE or >> FILE. */
static void skip_redirection(void)
{
    at += at[0] == '>' && at[1] == '>' ? 2 : 1;
    if (!is_word_next())
        refuse("a file's name is missing");
    skip_word();
}

static void skip_group(void)
{
    at++;
    skip_list();
    if (is_next(")"))
        at++;
    else
        refuse("a ) is missing");
}

static void skip_part(void)
{
    int is_group = is_next("(");
    if (is_group)
        skip_group();
    for (;;) {
        if (is_next("<>"))
            skip_redirection();
        else if (is_next("(") || (is_group && is_word_next()))
            refuse("a ; is missing beside parentheses");
        else if (is_word_next())
            skip_word();
        else
            return;
    }
}

static void skip_pipeline(void)
{
    skip_part();
    while (is_next("|")) {
        at++;
        skip_part();
    }
}

static void skip_list(void)
{
    skip_pipeline();
    while (is_next(";&")) {
        at++;
        skip_pipeline();
    }
}

/* ---- running */

static void run_list(void);

static void complain(const char *before, const char *name, const char *after)
{
    fprintf(2, "%s%s%s\n", before, name, after);
}

/* fork, which complains where that is refused. */
static int start_child(void)
{
    int pid = fork();
    if (pid < 0)
        complain("no room for a child", "", "");
    return pid;
}

static void wait_for(int children)
{
    for (; children > 0; children--)
        wait(0);
}

/* Makes a descriptor one of the open file of another, which is closed. */
static void move(int from, int to)
{
    close(to);
    dup(from);
    close(from);
}

/* Reads a file to its end, so that what is written comes after. */
static void go_to_end(int file)
{
    static char buffer[512];
    struct stat told;
    if (fstat(file, &told) == 0 && told.type == T_FILE)
        while (read(file, buffer, sizeof buffer) > 0)
            ;
}

/* Opens a file in place of standard input or output. */
static void redirect(void)
{
    int reads = *at == '<', appends = at[0] == '>' && at[1] == '>';
    at += appends ? 2 : 1;
    char *name = word();
    int flags = reads ? O_RDONLY : appends ? O_RDWR | O_CREATE : O_WRONLY | O_CREATE | O_TRUNC;
    close(reads ? 0 : 1);
    int file = open(name, flags);
    if (file < 0) {
        complain("open ", name, " failed");
        exit(1);
    }
    if (appends)
        go_to_end(file);
}

/* Becomes what a part says: this process is there for nothing else. */
static void run_part(void)
{
    char *words[MAXARG] = { 0 };
    int count = 0;
    const char *group = is_next("(") ? at + 1 : 0;
    if (group)
        skip_group();
    for (;;) {
        if (is_next("<>"))
            redirect();
        else if (!is_word_next())
            break;
        else if (count < MAXARG - 1)
            words[count++] = word();
        else {
            complain("too many words for ", words[0], "");
            exit(1);
        }
    }
    if (group) {
        at = group;
        run_list();
    } else if (count > 0) {
        exec(words[0], words);
        complain("exec ", words[0], " failed");
        exit(1);
    }
    exit(0);
}

/* Starts a child for each part; returns how many there are. */
static int start_pipeline(void)
{
    int children = 0, input = -1, is_last;
    do {
        const char *part = at;
        int ends[2] = { -1, -1 };
        skip_part();
        is_last = !is_next("|");
        at++;
        if (!is_last && pipe(ends) < 0) {
            complain("no room for a pipe", "", "");
            break;
        }
        int pid = start_child();
        if (pid == 0) {
            at = part;
            close(ends[0]);
            if (input >= 0)
                move(input, 0);
            if (!is_last)
                move(ends[1], 1);
            run_part();
        }
        children += pid > 0;
        close(input);
        close(ends[1]);
        input = ends[0];
        if (pid < 0)
            break;
    } while (!is_last);
    close(input);
    return children;
}

/* Has a child of a child, which init waits for, run the pipeline. */
static void run_in_background(void)
{
    int pid = start_child();
    if (pid == 0) {
        if (start_child() == 0)
            wait_for(start_pipeline());
        exit(0);
    }
    wait_for(pid > 0);
}

/* cd is done here, since a child could change only its own directory. */
static void change_directory(void)
{
    word();
    if (!is_word_next())
        return;
    char *name = word();
    if (chdir(name) < 0)
        complain("cannot cd ", name, "");
}

/* Runs up to the end of the line, or to ). */
static void run_list(void)
{
    while (!is_next(")") && *at) {
        if (is_next(";&")) {
            at++;
            continue;
        }
        const char *pipeline = at;
        skip_pipeline();
        int in_background = is_next("&");
        const char *rest = at;
        at = pipeline;
        if (in_background)
            run_in_background();
        else if (is_cd_next())
            change_directory();
        else
            wait_for(start_pipeline());
        at = rest;
    }
}

/* Whether the line has no fault. */
static int is_right(void)
{
    at = line;
    fault = 0;
    skip_list();
    if (is_next(")"))
        refuse("a ( is missing");
    if (fault)
        complain(fault, "", "");
    return !fault;
}

int main(void)
{
    for (;;) {
        fprintf(2, "$ ");
        gets(line, sizeof line);
        if (!line[0])
            exit(0);
        if (is_right()) {
            at = line;
            run_list();
        }
    }
}
