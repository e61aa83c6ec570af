/* sh: reads lines, makes a tree of each, and runs it.
 *
 *     list:      pipeline ; pipeline & ..      one after the other; one with & after it isn't waited for
 *     pipeline:  part | part ..                each writes what the next one reads
 *     part:      WORD.. or (list)              with < FILE, > FILE, >> FILE */
#include "kernel/types.h"
#include "kernel/fcntl.h"
#include "kernel/param.h"
#include "user/user.h"

#define BLANKS    " \t\r\n"
#define OPERATORS "<>|&;()"
#define NODES     64

enum kind { COMMAND, GROUP, REDIRECTION, PIPE, LIST, BACKGROUND };

struct node {
    enum kind kind;
    struct node *left, *right;  /* of a group, a redirection and what goes in the background the left one alone */
    char *words[MAXARG];        /* of a command: a 0 after the last; of a redirection the file */
    int file, flags, appends;   /* of a redirection: the descriptor, and how it is opened */
};

static char line[256], words[2 * sizeof line];
static struct node nodes[NODES];
static char *at, *room;         /* where the line is read, and where the next word is kept */
static int count;               /* of the nodes in use */
static const char *fault;       /* what is wrong with the line, 0 where nothing is */

/* ---- reading */

static void refuse(const char *why)
{
    if (!fault)
        fault = why;
}

static struct node *make(enum kind kind, struct node *left, struct node *right)
{
    if (count == NODES) {
        refuse("the line has too many parts");
        count = 0;
    }
    struct node *node = &nodes[count++];
    memset(node, 0, sizeof *node);
    node->kind = kind;
    node->left = left;
    node->right = right;
    return node;
}

/* The next byte that is no blank: 0 at the end, and where there is a fault. */
static char next(void)
{
    while (*at && strchr(BLANKS, *at))
        at++;
    return fault ? 0 : *at;
}

static int is_word_next(void)
{
    return next() && !strchr(OPERATORS, *at);
}

static char *read_word(void)
{
    char *word = room;
    if (!is_word_next())
        refuse("a word is missing");
    else
        while (*at && !strchr(BLANKS OPERATORS, *at))
            *room++ = *at++;
    *room++ = 0;
    return word;
}

static struct node *read_redirection(struct node *inner)
{
    struct node *node = make(REDIRECTION, inner, 0);
    node->file = *at++ == '>';
    node->appends = node->file && *at == '>';
    at += node->appends;
    node->flags = !node->file ? O_RDONLY : node->appends ? O_RDWR | O_CREATE : O_WRONLY | O_CREATE | O_TRUNC;
    node->words[0] = read_word();
    return node;
}

static struct node *read_list(void);

static struct node *read_group(void)
{
    static int depth;           /* there is one page of stack */
    struct node *group = make(GROUP, 0, 0);
    at++;
    if (++depth > 8)
        refuse("too many (");
    group->left = read_list();
    depth--;
    if (next() != ')')
        refuse("a ) is missing");
    else
        at++;
    return group;
}

static struct node *read_part(void)
{
    struct node *inner = next() == '(' ? read_group() : make(COMMAND, 0, 0), *part = inner, **last = &part;
    for (int words = 0;;) {
        if (next() == '<' || next() == '>') {
            *last = read_redirection(inner);
            last = &(*last)->left;
        } else if (!is_word_next())
            break;
        else if (inner->kind == GROUP || words == MAXARG - 1)
            refuse("too many words");
        else
            inner->words[words++] = read_word();
    }
    return part;
}

static struct node *read_pipeline(void)
{
    struct node *part = read_part();
    if (next() != '|')
        return part;
    at++;
    return make(PIPE, part, read_pipeline());
}

static struct node *read_list(void)
{
    struct node *item = read_pipeline();
    if (next() == '&')
        item = make(BACKGROUND, item, 0);
    if (next() != '&' && next() != ';')
        return item;
    at++;
    return make(LIST, item, read_list());
}

/* The tree of the line: 0 where it has a fault. */
static struct node *read_line(void)
{
    at = line;
    room = words;
    count = 0;
    fault = 0;
    struct node *list = read_list();
    if (next())
        refuse("a ( is missing");
    if (fault)
        fprintf(2, "%s\n", fault);
    return fault ? 0 : list;
}

/* ---- running */

static void run(struct node *node) __attribute__((noreturn));

static int start(void)
{
    int pid = fork();
    if (pid < 0)
        fprintf(2, "no room for a child\n");
    return pid;
}

/* Waits for a child, and for those in the background that end before it. */
static void wait_for(int child)
{
    int ended = child < 0 ? child : wait(0);
    while (ended >= 0 && ended != child)
        ended = wait(0);
}

static void run_command(struct node *node)
{
    if (node->words[0]) {
        exec(node->words[0], node->words);
        fprintf(2, "exec %s failed\n", node->words[0]);
        exit(1);
    }
    exit(0);
}

static void redirect(struct node *node)
{
    static char skipped[512];
    close(node->file);
    if (open(node->words[0], node->flags) < 0) {
        fprintf(2, "open %s failed\n", node->words[0]);
        exit(1);
    }
    while (node->appends && read(node->file, skipped, sizeof skipped) > 0)
        ;
}

/* Becomes the part of a pipeline that writes into it, or reads from it. */
static void run_end(struct node *node, int ends[2], int own)
{
    close(own);
    dup(ends[own]);
    close(ends[0]);
    close(ends[1]);
    run(node);
}

static void run_pipe(struct node *node)
{
    int ends[2];
    if (pipe(ends) < 0) {
        fprintf(2, "no room for a pipe\n");
        exit(1);
    }
    int left = start();
    if (left == 0)
        run_end(node->left, ends, 1);
    int right = start();
    if (right == 0)
        run_end(node->right, ends, 0);
    close(ends[0]);
    close(ends[1]);
    while (wait(0) >= 0)
        ;
    exit(0);
}

static int is_cd(struct node *node)
{
    return node->kind == COMMAND && node->words[0] && !strcmp(node->words[0], "cd");
}

static void change_directory(struct node *node)
{
    if (node->words[1] && chdir(node->words[1]) < 0)
        fprintf(2, "cannot cd %s\n", node->words[1]);
}

/* Runs what is no list, in a child where it isn't cd. */
static void run_item(struct node *node)
{
    int is_background = node->kind == BACKGROUND;
    if (is_background)
        node = node->left;
    if (is_cd(node)) {
        change_directory(node);
        return;
    }
    int child = start();
    if (child == 0)
        run(node);
    if (!is_background)
        wait_for(child);
}

static void run_list(struct node *node)
{
    for (; node->kind == LIST; node = node->right)
        run_item(node->left);
    if (node->kind != COMMAND || node->words[0])
        run_item(node);
}

/* Becomes what a node says. */
static void run(struct node *node)
{
    for (; node->kind == REDIRECTION; node = node->left)
        redirect(node);
    switch (node->kind) {
    case COMMAND:
        run_command(node);
        break;
    case PIPE:
        run_pipe(node);
        break;
    default:
        run_list(node->kind == GROUP ? node->left : node);
    }
    exit(0);
}

int main(void)
{
    for (;;) {
        fprintf(2, "$ ");
        if (!gets(line, sizeof line)[0])
            exit(0);
        struct node *list = read_line();
        if (list)
            run_list(list);
    }
}
