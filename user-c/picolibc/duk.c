/* duk FILE: runs a script in JavaScript, by the engine Duktape. */
#include <stdio.h>
#include <stdlib.h>
#include "duktape.h"

/* print(..): its arguments, with a blank between two. */
static duk_ret_t print(duk_context *engine)
{
    duk_push_string(engine, " ");
    duk_insert(engine, 0);
    duk_join(engine, duk_get_top(engine) - 1);
    puts(duk_safe_to_string(engine, -1));
    return 0;
}

/* The file's bytes, with a 0 after them, or none. */
static char *text_of(const char *name)
{
    FILE *file = fopen(name, "r");
    if (!file)
        return NULL;
    fseek(file, 0, SEEK_END);
    long size = ftell(file);
    char *text = calloc(1, size + 1);
    rewind(file);
    if (text && fread(text, 1, size, file) != (size_t)size) {
        free(text);
        text = NULL;
    }
    fclose(file);
    return text;
}

int main(int argc, char *argv[])
{
    char *text = argc == 2 ? text_of(argv[1]) : NULL;
    if (!text) {
        fprintf(stderr, "duk FILE\n");
        return 1;
    }
    duk_context *engine = duk_create_heap_default();
    if (!engine) {
        fprintf(stderr, "duk: no memory\n");
        return 1;
    }
    duk_push_c_function(engine, print, DUK_VARARGS);
    duk_put_global_string(engine, "print");
    int failed = duk_peval_string(engine, text) != 0;
    if (failed)
        printf("%s\n", duk_safe_to_string(engine, -1));
    duk_destroy_heap(engine);
    free(text);
    return failed;
}
