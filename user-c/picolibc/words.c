/* words [FILE]: the words that a text has most often. A hash table, a list that grows, qsort. */
#include <ctype.h>
#include <stdio.h>
#include <stdlib.h>
#include <string.h>

#define ROWS  1024
#define SHOWN 12

struct word {
    struct word *next;
    int count;
    char text[];
};

static struct word *rows[ROWS], **all;
static int count, room;

static unsigned hash(const char *text)
{
    unsigned sum = 5381;
    while (*text)
        sum = sum * 33 + (unsigned char)*text++;
    return sum % ROWS;
}

static void keep(struct word *word)
{
    if (count == room) {
        room = 2 * room + 16;
        all = realloc(all, room * sizeof *all);
    }
    all[count++] = word;
}

static struct word *find(const char *text)
{
    struct word **row = &rows[hash(text)], *word = *row;
    while (word && strcmp(word->text, text) != 0)
        word = word->next;
    if (word)
        return word;
    word = malloc(sizeof *word + strlen(text) + 1);
    strcpy(word->text, text);
    word->count = 0;
    word->next = *row;
    *row = word;
    keep(word);
    return word;
}

static void count_words(char *line)
{
    const char *between = " \t\n.,;:()`'\"|";
    for (char *text = strtok(line, between); text; text = strtok(NULL, between)) {
        for (char *letter = text; *letter; letter++)
            *letter = tolower((unsigned char)*letter);
        find(text)->count++;
    }
}

static int by_count(const void *left, const void *right)
{
    const struct word *one = *(struct word *const *)left, *other = *(struct word *const *)right;
    return one->count != other->count ? other->count - one->count : strcmp(one->text, other->text);
}

int main(int argc, char *argv[])
{
    char line[400];
    FILE *in = argc > 1 ? fopen(argv[1], "r") : stdin;
    if (!in) {
        perror(argv[1]);
        return 1;
    }
    while (fgets(line, sizeof line, in))
        count_words(line);
    qsort(all, count, sizeof *all, by_count);
    for (int at = 0; at < SHOWN && at < count; at++)
        printf("%5d %-12s %.2f%%\n", all[at]->count, all[at]->text, 100.0 * all[at]->count / count);
    printf("%d words\n", count);
    return ferror(in);
}
