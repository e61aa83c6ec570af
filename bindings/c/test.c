/* test.c IMAGE SCRIPT: a session with each function of xv6.h, 40 machines at once, copies, and arguments that are wrong. The console's bytes go to
   standard output, and the events of the session to SCRIPT: `xv6 run --frames 256 IMAGE SCRIPT` has to print the same bytes.
   Each call is made in a thread with a stack of 256 kB.
   make check-library runs it under valgrind. The status is 0 where all is as it has to be. */
#include "xv6.h"

#include <pthread.h>
#include <stdio.h>
#include <stdlib.h>
#include <string.h>

#define FRAMES 256u
#define MANY 100000000u
#define MACHINES 40

static uint8_t *image;
static size_t length;
static int wrong;

static void must(int holds, const char *what)
{
    if (holds) return;
    fprintf(stderr, "test.c: %s\n", what);
    wrong = 1;
}

static int read_image(const char *name)
{
    FILE *file = fopen(name, "rb");
    if (file == NULL || fseek(file, 0, SEEK_END) != 0) return 0;
    length = (size_t)ftell(file);
    rewind(file);
    image = malloc(length);
    if (image == NULL || fread(image, 1, length, file) != length) return 0;
    return fclose(file) == 0;
}

/* ---- threads */

#define STACK (256u * 1024u)

/* Makes a call in a thread with a small stack. */
static void in_thread(void *(*call)(void *), void *words)
{
    pthread_attr_t how;
    pthread_t thread;
    if (pthread_attr_init(&how) != 0 || pthread_attr_setstacksize(&how, STACK) != 0 || pthread_create(&thread, &how, call, words) != 0) {
        fprintf(stderr, "test.c: no thread\n");
        exit(2);
    }
    must(pthread_join(thread, NULL) == 0, "a thread ends");
    pthread_attr_destroy(&how);
}

/* ---- a session */

/* Runs until nobody is ready, and keeps the event. */
static void run(struct xv6_machine *machine, FILE *script)
{
    uint32_t done = 0;
    must(xv6_run(machine, MANY, &done) == 0 && done < MANY, "a run ends by itself");
    if (done != 0) fprintf(script, "step %u\n", done);
}

static void type(struct xv6_machine *machine, FILE *script, const char *line)
{
    size_t i;
    for (i = 0; line[i] != 0; i++) must(xv6_key(machine, (uint8_t)line[i]) == 0, "a key");
    must(xv6_key(machine, '\n') == 0, "the key at a line's end");
    fprintf(script, "type %s\n", line);
}

/* Prints the console's bytes, a few at a time, and tells how many they are. */
static size_t print_console(struct xv6_machine *machine, FILE *out)
{
    uint8_t bytes[7];
    size_t all = 0, count;
    while ((count = xv6_console(machine, bytes, sizeof bytes)) != 0) {
        if (out != NULL) fwrite(bytes, 1, count, out);
        all += count;
    }
    return all;
}

/* The shell waits for a line, and its parent for the shell. */
static void look_at_processes(struct xv6_machine *machine)
{
    struct xv6_process process;
    struct xv6_name name;
    uint8_t page[4096], few[4] = {9, 9, 9, 9};
    must(xv6_next_pid(machine, 0) == 1, "process 1 is the first");
    must(xv6_process(machine, 1, &process) == 0 && process.pid == 1 && process.parent == 0, "process 1 is reported");
    must(process.state == XV6_WAITING && process.call == 3, "process 1 waits in wait");
    must(xv6_next_pid(machine, 1) == 2 && xv6_next_pid(machine, 2) == 0, "the shell is the other");
    must(xv6_process(machine, 2, &process) == 0 && process.parent == 1 && process.call == 5, "the shell waits in read");
    must(process.pc % 4 == 0 && process.size % 4096 == 0 && process.registers[0] == 0, "the shell's registers");
    must(xv6_page(machine, 2, process.pc / 4096, page, sizeof page) == (XV6_PAGE | XV6_READ | XV6_WRITE | XV6_EXECUTE), "the page of its pc");
    must(memcmp(page + process.pc % 4096 - 4, "\x73\0\0\0", 4) == 0, "an ecall is before its pc");
    must(xv6_page(machine, 2, process.size / 4096 - 2, few, 0) == XV6_PAGE, "the page below the stack can't be touched");
    must(xv6_page(machine, 2, process.pc / 4096, few, 2) != 0 && memcmp(few, page, 2) == 0 && few[2] == 9, "two bytes of a page");
    must(xv6_page(machine, 2, process.size / 4096, few, sizeof few) == 0 && few[2] == 9, "no page after the last");
    must(xv6_program(machine, 1, &name) == 0 && strcmp(name.text, "init") == 0, "process 1 is init");
    must(xv6_program(machine, 2, &name) == 0 && strcmp(name.text, "sh") == 0, "process 2 is sh");
    must(xv6_could_end(machine, 1, 2) == 1 && xv6_could_end(machine, 2, 1) == 0, "process 1 waits for the shell");
}

/* The number of a name of 14 bytes at most in the root's directory; 0 where there is none. */
static size_t find(struct xv6_machine *machine, const char *name)
{
    uint8_t entry[16];
    char told[15] = {0};
    size_t at, count;
    for (at = 0; xv6_read(machine, 1, at, entry, sizeof entry, &count) == 0 && count == sizeof entry; at += count) {
        memcpy(told, entry + 2, 14);
        if (strcmp(told, name) == 0) return (size_t)entry[0] + 256u * entry[1];
    }
    return 0;
}

/* The shell waits for the console, which all of its descriptors name. */
static void look_at_descriptors(struct xv6_machine *machine)
{
    struct xv6_descriptor one, other;
    struct xv6_wait wait;
    struct xv6_fault fault;
    must(xv6_wait(machine, 2, &wait) == 0 && wait.arguments[0] == 0 && wait.done == 0, "the shell reads its input");
    must(xv6_descriptor(machine, 2, 0, &one) == 0 && one.kind == XV6_ON_CONSOLE && one.readable == 1, "its input is the console");
    must(one.number == find(machine, "console") && one.offset == 0 && one.descriptors >= 3, "the console's node");
    must(xv6_descriptor(machine, 1, 1, &other) == 0 && memcmp(&one, &other, sizeof one) == 0, "its parent has the same open file");
    must(xv6_descriptor(machine, 2, 3, &one) == XV6_NONE && xv6_descriptor(machine, 2, 16, &one) == XV6_NONE, "no descriptor");
    must(xv6_directory(machine, 2) == 1 && xv6_directory(machine, 77) == 0, "its directory is the root");
    must(xv6_running(machine) == 0 && xv6_is_anyone_asleep(machine) == 0, "nobody runs, and nobody sleeps");
    must(xv6_compute(machine, 100, NULL, 0) == 0 && xv6_fault(machine, 2, &fault) == XV6_NONE, "no instruction, and no fault");
}

static void look_at_files(struct xv6_machine *machine)
{
    struct xv6_stat stat;
    uint8_t bytes[8] = {0};
    size_t count = 9, init = find(machine, "init");
    must(xv6_stat(machine, 1, &stat) == 0 && stat.kind == XV6_DIRECTORY && stat.size % 16 == 0, "the root");
    must(init != 0 && xv6_stat(machine, init, &stat) == 0 && stat.kind == XV6_FILE && stat.links == 1, "/init");
    must(xv6_read(machine, init, 0, bytes, sizeof bytes, &count) == 0 && count == 8, "8 bytes of /init");
    must(memcmp(bytes, "\x7f" "ELF", 4) == 0, "/init is a program");
    must(xv6_read(machine, init, stat.size, bytes, sizeof bytes, &count) == 0 && count == 0, "the end of /init");
    must(xv6_stat(machine, find(machine, "console"), &stat) == 0 && stat.kind == XV6_DEVICE, "the console");
    must(xv6_stat(machine, find(machine, "d"), &stat) == 0 && stat.kind == XV6_DIRECTORY, "a new directory");
    must(xv6_stat(machine, 199, &stat) == 0 && stat.kind == XV6_NO_NODE, "no node");
}

/* The image that a session leaves boots, and has its files. */
static void save_and_boot(struct xv6_machine *machine)
{
    uint8_t *saved = malloc(length);
    struct xv6_machine again = {NULL};
    size_t bytes = 0;
    must(saved != NULL && xv6_save(machine, saved, length, &bytes) == 0 && bytes == length, "the image is saved");
    must(machine->inside == NULL, "a saved machine is closed");
    must(xv6_boot(saved, length, FRAMES, &again) == 0 && find(&again, "d") != 0, "the saved image boots");
    xv6_close(&again);
    free(saved);
}

static void play(FILE *script)
{
    static const char *const lines[] = {"ls", "echo hi | cat", "mkdir d", "ls d", "nope"};
    struct xv6_machine machine = {NULL};
    struct xv6_space before = {0, 0}, after = {0, 0};
    uint8_t *room = malloc(length);
    uint32_t done, free_frames;
    size_t i;
    must(xv6_version() == XV6_VERSION, "the version");
    must(xv6_boot(image, length, FRAMES, &machine) == 0, "the image boots");
    run(&machine, script);
    free_frames = xv6_free_frames(&machine);
    must(free_frames > 0 && free_frames < FRAMES, "free frames");
    must(xv6_ticks(&machine) == 0 && xv6_coming_pid(&machine) == 3, "no tick, and process 3 comes next");
    must(room != NULL && xv6_free_space(&machine, room, length, &before) == 0, "free space");
    for (i = 0; i < sizeof lines / sizeof *lines; i++) {
        must(xv6_is_idle(&machine) == 1, "nobody is ready before a line");
        type(&machine, script, lines[i]);
        must(xv6_is_idle(&machine) == 0, "somebody is ready after it");
        must(xv6_steps(&machine, 17) == 0, "17 steps");
        must(xv6_tick(&machine) == 0, "a tick");
        fprintf(script, "step 17\ntick 1\n");
        run(&machine, script);
    }
    must(xv6_run(&machine, MANY, &done) == 0 && done == 0, "nobody is ready");
    must(xv6_free_frames(&machine) == free_frames, "all frames came back");
    must(xv6_ticks(&machine) == 5 && xv6_coming_pid(&machine) == 9, "five ticks and six children came");
    must(xv6_free_space(&machine, room, length, &after) == 0, "free space again");
    must(after.blocks + 1 == before.blocks && after.inodes + 1 == before.inodes, "a directory takes a block and an inode");
    must(xv6_free_space(&machine, room, length - 1, &before) == XV6_IMAGE_LENGTH && before.blocks != after.blocks, "too little room");
    free(room);
    must(print_console(&machine, stdout) > 100, "the console's bytes");
    look_at_processes(&machine);
    look_at_descriptors(&machine);
    look_at_files(&machine);
    save_and_boot(&machine);
}

/* ---- many machines */

static void play_many(void)
{
    struct xv6_machine machines[MACHINES];
    uint32_t done;
    size_t bytes[MACHINES];
    int i;
    for (i = 0; i < MACHINES; i++) must(xv6_boot(image, length, 64, &machines[i]) == 0, "each of 40 boots");
    for (i = 0; i < MACHINES; i++) {
        must(xv6_run(&machines[i], MANY, &done) == 0, "each of 40 runs");
        if (i % 2 == 0) must(xv6_key(&machines[i], 'x') == 0, "a key for every second");
    }
    for (i = 0; i < MACHINES; i++) bytes[i] = print_console(&machines[i], NULL);
    for (i = 0; i < MACHINES; i++) must(bytes[i] == bytes[1] + (i % 2 == 0), "each of 40 printed what is its own");
    for (i = 0; i < MACHINES; i++) xv6_close(&machines[i]);
}

/* ---- copies */

/* Whether two machines have the same processes, with all registers, and as many free frames. */
static int are_alike(struct xv6_machine *one, struct xv6_machine *other)
{
    struct xv6_process first, second;
    uint32_t pid = 0;
    while ((pid = xv6_next_pid(one, pid)) != 0) {
        if (xv6_process(one, pid, &first) != 0 || xv6_process(other, pid, &second) != 0) return 0;
        if (memcmp(&first, &second, sizeof first) != 0 || xv6_next_pid(one, pid) != xv6_next_pid(other, pid)) return 0;
    }
    return xv6_free_frames(one) == xv6_free_frames(other);
}

/* A copy in the middle of a command goes on as its source, another one has a tick more, and none sees what the others do. */
static void play_copies(int source_goes_first)
{
    struct xv6_machine source = {NULL}, twin = {NULL}, other = {NULL};
    uint32_t done;
    size_t bytes;
    int i;
    must(xv6_boot(image, length, FRAMES, &source) == 0 && xv6_run(&source, MANY, &done) == 0, "a machine that is copied");
    must(xv6_key(&source, 'l') == 0 && xv6_key(&source, 's') == 0 && xv6_key(&source, '\n') == 0, "its line");
    must(xv6_steps(&source, 300) == 0, "it is at its line");
    must(xv6_copy(&source, &twin) == 0 && xv6_copy(&source, &other) == 0, "two copies");
    must(twin.inside != NULL && twin.inside != source.inside && are_alike(&twin, &source), "a copy is like its source");
    must(xv6_tick(&other) == 0 && xv6_steps(&other, 300) == 0, "one copy goes on");
    must(are_alike(&twin, &source) && !are_alike(&other, &source), "the others stay");
    for (i = 0; i < 300; i++) {
        must(xv6_steps(&source, 1) == 0 && xv6_steps(&twin, 1) == 0, "one step of two machines");
        must(are_alike(&twin, &source), "both do the same");
    }
    must(!are_alike(&other, &source), "a tick goes another way");
    must(xv6_key(&other, 'x') == 0 && xv6_run(&source, MANY, &done) == 0 && xv6_run(&twin, MANY, &done) == 0, "a key for one of them");
    bytes = print_console(&source, NULL);
    must(bytes > 20 && print_console(&twin, NULL) == bytes, "a copy has the bytes that nobody took");
    xv6_close(source_goes_first ? &source : &twin);
    must(xv6_run(&other, MANY, &done) == 0 && print_console(&other, NULL) == bytes + 1, "what was closed is not missed");
    xv6_close(source_goes_first ? &twin : &source);
    xv6_close(&other);
}

/* A machine that has stopped has copies that have stopped. */
static void copy_stopped(void)
{
    static const char line[] = "kill 1\n";
    struct xv6_machine machine = {NULL}, twin = {NULL};
    uint8_t *saved = malloc(length), *other = malloc(length);
    uint32_t done;
    size_t i, bytes = 0;
    must(saved != NULL && other != NULL && xv6_boot(image, length, FRAMES, &machine) == 0, "the image boots for a kill");
    for (i = 0; line[i] != 0; i++) must(xv6_key(&machine, (uint8_t)line[i]) == 0, "a key of a kill");
    must(xv6_run(&machine, MANY, &done) == XV6_INIT_ENDED && xv6_copy(&machine, &twin) == 0, "a copy after the end");
    must(xv6_tick(&machine) == XV6_HALTED && xv6_tick(&twin) == XV6_HALTED && are_alike(&twin, &machine), "both have stopped");
    must(xv6_save(&twin, other, length, &bytes) == 0 && bytes == length, "the copy is saved");
    must(xv6_save(&machine, saved, length, &bytes) == 0 && bytes == length, "its source is saved");
    must(memcmp(saved, other, length) == 0, "both images are the same");
    free(saved);
    free(other);
}

/* ---- a machine looked at while it runs */

/* How many bytes are in the pipe that a descriptor of a process names, and the bytes. */
static size_t bytes_in_pipe(struct xv6_machine *machine, uint32_t pid, uint8_t *out, size_t most)
{
    struct xv6_descriptor named;
    size_t i, bytes = 0;
    for (i = 0; i < 16; i++) {
        if (xv6_descriptor(machine, pid, i, &named) != 0 || named.kind < XV6_ON_READ_END) continue;
        must(named.readable == (named.kind == XV6_ON_READ_END) && named.writable != named.readable, "an end of a pipe");
        must(xv6_pipe(machine, named.number, out, most, &bytes) == 0, "a pipe that is named is there");
        if (bytes != 0) return bytes;
    }
    return 0;
}

/* Steps up to the first after which a pipe has bytes. */
static void find_pipe(struct xv6_machine *machine)
{
    uint8_t bytes[8] = {0};
    size_t many = 0, none = 9;
    uint32_t pid, i;
    for (i = 0; i < 5000 && many == 0; i++) {
        must(xv6_steps(machine, 1) == 0, "a step of a pipe's writer");
        for (pid = xv6_next_pid(machine, 0); pid != 0 && many == 0; pid = xv6_next_pid(machine, pid)) many = bytes_in_pipe(machine, pid, bytes, 2);
    }
    must(many >= 2 && many <= 3 && memcmp(bytes, "hi\0", 3) == 0, "two bytes of a pipe");
    must(xv6_pipe(machine, SIZE_MAX, bytes, sizeof bytes, &none) == XV6_NONE && none == 9, "no pipe");
}

/* Goes from call to call to the end, and returns how many steps that were. */
static uint32_t go_by_calls(struct xv6_machine *machine, uint64_t *stops, size_t many)
{
    struct xv6_fault fault;
    uint32_t done = 0, pid, more;
    while (xv6_is_idle(machine) == 0) {
        pid = xv6_running(machine);
        more = xv6_compute(machine, MANY, stops, many);
        must(more == 0 || xv6_running(machine) == pid, "instructions of one process");
        must(pid == 0 || xv6_fault(machine, pid, &fault) == XV6_NONE, "a call is no fault");
        must(xv6_steps(machine, 1) == 0, "the step after them");
        done += more + 1;
    }
    return done;
}

/* Two programs at the ends of a pipe: the second waits for the first, and the first for what is typed. */
static void wait_at_pipe(void)
{
    static const char line[] = "cat | cat\n";
    struct xv6_machine machine = {NULL};
    struct xv6_name name;
    struct xv6_wait wait;
    uint32_t done;
    size_t i;
    must(xv6_boot(image, length, FRAMES, &machine) == 0 && xv6_run(&machine, MANY, &done) == 0, "a machine with a pipe");
    for (i = 0; line[i] != 0; i++) must(xv6_key(&machine, (uint8_t)line[i]) == 0, "a key of two programs");
    must(xv6_run(&machine, MANY, &done) == 0 && xv6_wait(&machine, 4, &wait) == 0 && wait.arguments[0] == 0, "the second waits");
    must(xv6_program(&machine, 4, &name) == 0 && strcmp(name.text, "cat") == 0, "it is cat");
    must(xv6_could_end(&machine, 4, 3) == 1 && xv6_could_end(&machine, 4, 2) == 0, "the first could end that");
    must(xv6_could_end(&machine, 3, 4) == 0 && xv6_could_end(&machine, 2, 3) == 1 && xv6_could_end(&machine, 2, 4) == 1, "and the shell's wait");
    xv6_close(&machine);
}

static void watch(void)
{
    static const char line[] = "echo hi | cat\n";
    struct xv6_machine machine = {NULL}, twin = {NULL}, probe = {NULL};
    struct xv6_process process, other_process;
    uint64_t digest = 0, other = 0;
    uint32_t done;
    size_t i;
    must(xv6_boot(image, length, FRAMES, &machine) == 0 && xv6_run(&machine, MANY, &done) == 0, "a machine that is watched");
    for (i = 0; line[i] != 0; i++) must(xv6_key(&machine, (uint8_t)line[i]) == 0, "a key of a pipe");
    must(xv6_copy(&machine, &twin) == 0, "a copy of it");
    must(xv6_digest(&machine, &digest) == 0 && xv6_digest(&twin, &other) == 0 && digest == other, "the same state, the same digest");
    must(xv6_run(&twin, MANY, &done) == 0 && go_by_calls(&machine, NULL, 0) == done, "from call to call it is as many steps");
    must(xv6_digest(&machine, &digest) == 0 && xv6_digest(&twin, &other) == 0 && digest == other, "and leaves the same state");
    must(xv6_tick(&twin) == 0 && xv6_digest(&twin, &other) == 0 && digest != other, "a tick has another digest");
    for (i = 0; line[i] != 0; i++) must(xv6_key(&machine, (uint8_t)line[i]) == 0, "the keys again");
    must(xv6_steps(&machine, 1) == 0 && xv6_process(&machine, xv6_running(&machine), &process) == 0, "the shell runs");
    must(xv6_compute(&machine, 100, &process.pc, 0) > 2 && xv6_process(&machine, 2, &process) == 0, "the shell computes");
    must(xv6_copy(&machine, &probe) == 0 && xv6_steps(&probe, 1) == 0 && xv6_compute(&probe, 1, NULL, 0) == 1, "a step after its call");
    must(xv6_process(&probe, 2, &process) == 0 && xv6_steps(&machine, 1) == 0, "where that comes to");
    must(xv6_compute(&machine, 100, &process.pc, 1) == 1 && xv6_process(&machine, 2, &other_process) == 0, "to an address");
    must(other_process.pc == process.pc, "and no further");
    find_pipe(&machine);
    xv6_close(&machine);
    xv6_close(&twin);
    xv6_close(&probe);
}

/* From call to call, exit and fault, by one function: it is as many steps, and the same calls. */
static void run_to(void)
{
    static const char line[] = "echo hi | cat\n";
    struct xv6_machine machine = {NULL}, twin = {NULL};
    struct xv6_reached reached;
    struct xv6_process child;
    uint32_t done, pid, all = 0, calls = 0, exits = 0;
    uint8_t bytes[16];
    size_t i;
    must(xv6_boot(image, length, FRAMES, &machine) == 0 && xv6_run(&machine, MANY, &done) == 0, "a machine that runs to something");
    for (i = 0; line[i] != 0; i++) must(xv6_key(&machine, (uint8_t)line[i]) == 0, "a key of it");
    must(xv6_copy(&machine, &twin) == 0 && xv6_run(&twin, MANY, &done) == 0, "its twin");
    do {
        must(xv6_run_to(&machine, XV6_TO_CALL | XV6_TO_FAULT | XV6_TO_EXIT, 0, MANY, &reached) == 0, "it runs to something");
        must(reached.what != XV6_TO_FAULT && (reached.what != XV6_TO_EXIT || reached.status == 0), "nothing of it is a fault");
        calls += reached.what == XV6_TO_CALL;
        exits += reached.what == XV6_TO_EXIT;
        all += reached.done;
    } while (reached.what != 0);
    must(all == done && are_alike(&machine, &twin), "it is as many steps");
    must(calls > 10 && exits == 2, "with calls, and two exits");
    for (i = 0; line[i] != 0; i++) must(xv6_key(&machine, (uint8_t)line[i]) == 0, "a key of it again");
    pid = xv6_coming_pid(&machine);
    must(xv6_process(&machine, pid, &child) == XV6_NO_PROCESS, "no child yet");
    must(xv6_run_to(&machine, XV6_TO_EXIT, 0, MANY, &reached) == 0 && reached.what == XV6_TO_EXIT && reached.pid == pid, "to an exit");
    must(xv6_coming_pid(&machine) > pid, "the next child has another pid");
    must(xv6_run_to(&machine, XV6_TO_CALL, 2, MANY, &reached) == 0 && reached.pid == 2 && reached.call != 0, "to a call of the shell");
    must(xv6_run_to(&machine, XV6_TO_CALL, 0, 1, &reached) == 0 && reached.done == 1, "at most one step");
    must(xv6_run_to(&machine, XV6_TO_FAULT, 0, MANY, &reached) == 0 && reached.what == 0, "no fault");
    while (xv6_run_to_output(&machine, MANY, bytes, sizeof bytes, &done) != 0) all += done;
    must(xv6_is_idle(&machine) == 1 && xv6_run_to_output(&machine, MANY, bytes, sizeof bytes, &done) == 0 && done == 0, "all output came");
    must(xv6_key(&machine, 'x') == 0 && xv6_run_to_output(&machine, MANY, bytes, sizeof bytes, &done) == 1 && bytes[0] == 'x', "an echo");
    must(xv6_run_to_output(&machine, MANY, NULL, 1, &done) == 0 && xv6_run_to_output(NULL, 1, bytes, 1, &done) == 0, "no place for output");
    must(xv6_run_to(NULL, XV6_TO_CALL, 0, 1, &reached) == XV6_NULL && xv6_run_to(&machine, 1, 0, 1, NULL) == XV6_NULL, "nulls");
    xv6_close(&machine);
    xv6_close(&twin);
}

/* To an address: the first instruction of a program that the shell begins. */
static void run_to_address(void)
{
    static const char line[] = "ls\n";
    struct xv6_machine machine = {NULL};
    struct xv6_reached reached = {0};
    struct xv6_process child;
    uint32_t done;
    size_t i;
    must(xv6_boot(image, length, FRAMES, &machine) == 0 && xv6_run(&machine, MANY, &done) == 0, "a machine that runs to an address");
    for (i = 0; line[i] != 0; i++) must(xv6_key(&machine, (uint8_t)line[i]) == 0, "a key of a program");
    must(xv6_run_to_address(&machine, 0, 3, MANY, &reached) == 0 && reached.what == XV6_TO_ADDRESS && reached.pid == 3, "to a program's begin");
    must(xv6_process(&machine, 3, &child) == 0 && child.pc == 0 && reached.done > 100, "it is there");
    must(xv6_run_to_address(&machine, 4, 0, 1, &reached) == 0 && reached.pid == 3 && reached.done == 1, "one instruction on");
    must(xv6_run_to_address(&machine, 4, 2, MANY, &reached) == 0 && reached.pid == 2, "the shell comes there, too");
    must(xv6_run_to_address(&machine, 0x123456, 0, MANY, &reached) == 0 && reached.what == 0, "nobody comes there");
    must(xv6_run_to_address(NULL, 0, 0, 1, &reached) == XV6_NULL && xv6_run_to_address(&machine, 0, 0, 1, NULL) == XV6_NULL, "nulls of it");
    xv6_close(&machine);
}

/* A process that is killed while it waits ends at its turn. */
static void run_to_killed(void)
{
    static const char line[] = "kill 2\n";
    struct xv6_machine machine = {NULL};
    struct xv6_reached reached;
    uint32_t done;
    size_t i;
    must(xv6_boot(image, length, FRAMES, &machine) == 0 && xv6_run(&machine, MANY, &done) == 0, "a machine whose shell is killed");
    for (i = 0; line[i] != 0; i++) must(xv6_key(&machine, (uint8_t)line[i]) == 0, "a key of a kill");
    must(xv6_run_to(&machine, XV6_TO_EXIT, 2, MANY, &reached) == 0 && reached.what == XV6_TO_EXIT && reached.pid == 2, "the shell's end");
    must(reached.status == -1 && xv6_run_to(&machine, XV6_TO_EXIT, 0, MANY, &reached) == 0, "with status -1");
    xv6_close(&machine);
}

/* ---- images and texts in memory */

static const char program[] = "_start: addi a7, zero, 2\n addi a0, zero, 7\n ecall\n";
/* A program's file that has nothing but a function's name: _start, of 8 bytes from address 0 on. */
static uint8_t named_program[64 + 3 * 64 + 2 * 24 + 8];

static void put_little(uint8_t *out, uint64_t value, size_t bytes)
{
    for (size_t index = 0; index < bytes; index++) out[index] = (uint8_t)(value >> (8 * index));
}

static void put_section(uint8_t *out, uint32_t type, const uint8_t *bytes, uint64_t size)
{
    put_little(out + 4, type, 4);
    put_little(out + 24, (uint64_t)(bytes - named_program), 8);
    put_little(out + 32, size, 8);
    put_little(out + 40, 2, 4); /* the section of its names */
    put_little(out + 56, 24, 8);
}

static void name_program(void)
{
    uint8_t *sections = named_program + 64, *symbols = sections + 3 * 64, *names = symbols + 2 * 24;
    memcpy(named_program, "\x7f" "ELF\x02\x01\x01", 7);
    put_little(named_program + 40, 64, 8); /* where the sections are */
    put_little(named_program + 58, 64, 2);
    put_little(named_program + 60, 3, 2);
    put_section(sections + 64, 2, symbols, 2 * 24);
    put_section(sections + 2 * 64, 3, names, 8);
    put_little(symbols + 24, 1, 4); /* its name */
    symbols[24 + 4] = 0x12; /* a global function */
    put_little(symbols + 24 + 6, 1, 2);
    put_little(symbols + 24 + 16, 8, 8);
    memcpy(names + 1, "_start", 7);
}

static const char other_program[] = "_start:\n    li a0, 100000\n    li a7, 2\n    ecall\n";
static const char wrong_program[] = "_start:\n    lli a0, 1\n    bee t0\n";
static uint8_t made[64 * 1024], file[XV6_PROGRAM_BYTES], report[4096];

/* An image of a program that ends with status 7, and of a directory with a file and a device. */
static void make_image(void)
{
    static const struct xv6_entry entries[] = {
        {5, 0, XV6_FILE, 0, 0}, {2, 0, XV6_DIRECTORY, 0, 0}, {4, 3, XV6_FILE, 0, 0}, {4, 0, XV6_DEVICE, 1, 2},
    };
    struct xv6_entry told[4];
    struct xv6_assembled assembled = {9, 9};
    struct xv6_summary summary = {0, 0};
    static uint8_t bytes[XV6_PROGRAM_BYTES + 64];
    size_t many;
    must(xv6_asm((const uint8_t *)program, sizeof program - 1, file, sizeof file, &assembled) == 0, "a program is assembled");
    must(assembled.bytes == 4096 + 12 && assembled.line == 0 && memcmp(file, "\x7f" "ELF", 4) == 0, "its file");
    memcpy(told, entries, sizeof told);
    told[0].size = assembled.bytes;
    memcpy(bytes, "/init", 5);
    memcpy(bytes + 5, file, assembled.bytes);
    memcpy(bytes + 5 + assembled.bytes, "/d/d/ahi\n/d/c", 13);
    many = 5 + assembled.bytes + 13;
    must(xv6_mkfs(told, 4, bytes, many, 16, made, sizeof made) == 0, "an image is made");
    must(xv6_check(made, sizeof made, &summary) == 0 && summary.inodes == 5 && summary.blocks == 8, "it uses 5 inodes and 8 blocks");
    must(xv6_mkfs(told, 4, bytes, many - 1, 16, made, sizeof made) == XV6_MAKE_ENTRY, "bytes that are too few");
    must(xv6_mkfs(told, 3, bytes, many, 16, made, sizeof made) == XV6_MAKE_ENTRY, "bytes that are too many");
    must(xv6_mkfs(told, 4, bytes, many, 16, made, 31 * 1024) == XV6_MAKE_NUMBERS, "an image that is too short");
    must(xv6_mkfs(told, 4, bytes, many, 15, made, sizeof made) == XV6_MAKE_NUMBERS, "an image of too few inodes");
    must(xv6_mkfs(told + 2, 1, (const uint8_t *)"/d/ahi\n", 7, 16, made, sizeof made) == XV6_MAKE_PARENT, "no directory above");
    told[0].kind = 4;
    must(xv6_mkfs(told, 4, bytes, many, 16, made, sizeof made) == XV6_MAKE_ENTRY, "an entry of no kind");
    must(xv6_check(made, sizeof made, &summary) == 0 && summary.inodes == 5, "nothing is written where it is refused");
}

/* Reads, lists and writes files of that image, which boots and ends with status 7. */
static void use_image(void)
{
    struct xv6_machine machine = {NULL};
    struct xv6_process ended;
    struct xv6_walk walk;
    static uint8_t before[sizeof made];
    uint8_t few[4] = {9, 9, 9, 9}, lines[256];
    uint32_t done;
    size_t many = 0;
#define PATH(text) (const uint8_t *)(text), sizeof(text) - 1
    must(xv6_get(made, sizeof made, PATH("/d/a"), few, sizeof few, &many) == 0 && many == 3, "a file");
    must(memcmp(few, "hi\n\x09", 4) == 0, "its bytes");
    must(xv6_get(made, sizeof made, PATH("/init"), few, 2, &many) == 0 && many == 4108, "a part of a file");
    must(memcmp(few, "\x7f" "E\n\x09", 4) == 0, "as many bytes as there is room for");
    memcpy(before, made, sizeof made);
    must(xv6_put(made, sizeof made, PATH("/d/b"), PATH("you")) == 0 && memcmp(before, made, sizeof made) != 0, "a file is put");
    must(xv6_get(made, sizeof made, PATH("/d/b"), few, sizeof few, &many) == 0 && many == 3 && memcmp(few, "you", 3) == 0, "it is there");
    must(xv6_list(made, sizeof made, PATH("/d"), lines, sizeof lines, &many) == 0 && many == 5 * 30, "a list of five");
    must(memcmp(lines + 4 * 30, "b              2     6      3\n", 30) == 0, "its last line");
    memcpy(before, made, sizeof made);
    must(xv6_put(made, sizeof made, PATH("/d"), PATH("x")) == XV6_PATH_IS_DIRECTORY, "a directory is no file");
    must(xv6_put(made, sizeof made, PATH("/d/c"), PATH("x")) == XV6_PATH_EXISTS, "a device is no file");
    must(xv6_put(made, sizeof made, PATH("/e/c"), PATH("x")) == XV6_PATH_NOT_FOUND, "no directory above");
    must(xv6_put(made, sizeof made, PATH("/big"), file, sizeof file) == XV6_PATH_BLOCKS, "a file that is too large");
    must(memcmp(before, made, sizeof made) == 0, "nothing is changed where it is refused");
    must(xv6_get(made, sizeof made, PATH("/none"), few, sizeof few, &many) == XV6_PATH_NOT_FOUND, "no file");
    must(xv6_list(made, sizeof made, PATH("/init"), lines, sizeof lines, &many) == XV6_PATH_NOT_DIRECTORY, "no directory");
    must(xv6_boot(made, sizeof made, 64, &machine) == 0, "the image boots");
    must(xv6_walk(&machine, 1, 0, &walk) == 0 && walk.count == 3, "the walk of address 0");
    must((walk.entries[0] & 31) == 1 && (walk.entries[1] & 31) == 1 && (walk.entries[2] & 31) == 31, "two tables and a leaf");
    must(xv6_walk(&machine, 1, (uint64_t)1 << 38, &walk) == 0 && walk.count == 0, "an address that is not canonical");
    must(xv6_walk(&machine, 77, 0, &walk) == XV6_NO_PROCESS, "no process to walk for");
    must(xv6_run(&machine, MANY, &done) == XV6_INIT_ENDED, "process 1 ends");
    must(xv6_process(&machine, 1, &ended) == 0 && ended.status == 7, "with status 7");
    xv6_close(&machine);
}

/* A program that loads from where it has no page. */
static void run_to_fault(void)
{
    static const char text[] = "_start: lui a0, 0x700\n ld a1, 0(a0)\n";
    struct xv6_assembled assembled;
    struct xv6_machine machine = {NULL};
    struct xv6_reached reached;
    must(xv6_asm(PATH(text), file, sizeof file, &assembled) == 0, "a program that faults");
    must(xv6_put(made, sizeof made, PATH("/init"), file, assembled.bytes) == 0, "it is put");
    must(xv6_boot(made, sizeof made, 64, &machine) == 0, "it boots");
    must(xv6_run_to(&machine, XV6_TO_FAULT, 1, MANY, &reached) == XV6_INIT_ENDED && reached.what == XV6_TO_FAULT, "to its fault");
    must(reached.fault.cause == XV6_LOAD_PAGE && reached.fault.address == 0x700000 && reached.fault.pc == 4, "which is a load's");
    xv6_close(&machine);
}

/* Bytes that are no image are refused, by each function alike. */
static void refuse_bytes(void)
{
    struct xv6_summary summary = {1, 2};
    uint8_t few[4];
    size_t many = 7;
    must(xv6_check(made, sizeof made - 1, &summary) == XV6_IMAGE_LENGTH && summary.inodes == 1, "a length that is odd");
    must(xv6_check(NULL, 0, &summary) == XV6_IMAGE_LENGTH, "no bytes");
    made[1024] ^= 1;
    must(xv6_check(made, sizeof made, &summary) == XV6_IMAGE_MAGIC, "another magic number");
    must(xv6_get(made, sizeof made, PATH("/init"), few, sizeof few, &many) == XV6_IMAGE_MAGIC && many == 7, "no file of no image");
    must(xv6_put(made, sizeof made, PATH("/init"), PATH("x")) == XV6_IMAGE_MAGIC, "no file is put into no image");
    must(xv6_list(made, sizeof made, PATH("/"), few, sizeof few, &many) == XV6_IMAGE_MAGIC, "no list of no image");
    made[1024] ^= 1;
    must(xv6_migrate(made, sizeof made) == XV6_IMAGE_MAGIC, "an image that is not of the other format");
}

/* Texts for other assemblers. */
static void expand_texts(void)
{
    struct xv6_expanded told = {9, 9};
    struct xv6_assembled assembled = {9, 9};
    const uint8_t *text = (const uint8_t *)other_program;
    size_t count = 9;
    must(xv6_as(text, sizeof other_program - 1, file, sizeof file, report, sizeof report, &told) == 0, "a text is expanded");
    must(told.bytes == 4096 + 16 && told.report < sizeof report, "its file and its report");
    must(memcmp(report + told.report - 11, "4 12 ecall\n", 11) == 0, "the last line of its report");
    must(xv6_locate(file, told.bytes, 0, report, sizeof report, &count) == 0 && count == 0, "a file without symbols has no names");
    name_program();
    must(xv6_locate(named_program, sizeof named_program, 4, report, sizeof report, &count) == 0 && count == 10, "a name of an address");
    must(memcmp(report, "_start+0x4", 10) == 0, "function and offset");
    must(xv6_locate(named_program, sizeof named_program, 0, report, 2, &count) == 0 && count == 6, "more than there is room for");
    must(memcmp(report, "_start+0x4", 10) == 0, "nothing is written outside");
    must(xv6_as((const uint8_t *)wrong_program, sizeof wrong_program - 1, file, sizeof file, report, sizeof report, &told) == XV6_AS_FAULTS, "faults");
    must(told.bytes == 0 && memcmp(report, "2 5 ", 4) == 0, "the first in line 2, column 5");
    must(xv6_asm((const uint8_t *)wrong_program, sizeof wrong_program - 1, file, sizeof file, &assembled) == XV6_ASM_MNEMONIC, "a fault");
    must(assembled.line == 2 && assembled.bytes == 0, "in line 2");
    must(xv6_locate(file, 0, 0, report, sizeof report, &count) == 0 && count == 0, "no file has no names");
    must(xv6_asm(PATH("\xff"), file, sizeof file, &assembled) == XV6_ASM_UTF8 && assembled.line == 0, "a text that is none");
    must(xv6_asm(PATH("x: x:"), file, sizeof file, &assembled) != 0, "what is no line");
}

/* ---- arguments that are wrong */

static struct xv6_machine up, closed, copied;
static struct xv6_process process;
static struct xv6_stat stat_out;
static struct xv6_descriptor named;
static struct xv6_wait waits;
static struct xv6_fault fault;
static struct xv6_walk walked;
static struct xv6_name name_out;
static struct xv6_space space_out;
static uint64_t digest;
static uint8_t room[16];
static size_t count;
static uint32_t steps;

static uint32_t boots(const uint8_t *bytes, size_t many, uint32_t frames)
{
    struct xv6_machine machine = {NULL};
    uint32_t answer = xv6_boot(bytes, many, frames, &machine);
    must((answer == 0) == (machine.inside != NULL), "a handle is there after 0 alone");
    xv6_close(&machine);
    return answer;
}

#define ROW(call, answer) must((call) == (answer), #call " is " #answer)

static void refuse_images(void)
{
    ROW(boots(image, length - 1, FRAMES), XV6_BOOT_IMAGE);
    ROW(boots(image, 1024, FRAMES), XV6_BOOT_IMAGE);
    ROW(boots(image, 0, FRAMES), XV6_BOOT_IMAGE);
    ROW(boots(NULL, 0, FRAMES), XV6_BOOT_IMAGE);
    ROW(boots(NULL, 1024, FRAMES), XV6_NULL);
    ROW(boots(image, length, 63), XV6_BOOT_FRAMES);
    ROW(boots(image, length, 32769), XV6_BOOT_FRAMES);
    ROW(boots(image, length, 0xffffffffu), XV6_BOOT_FRAMES);
    ROW(boots(image, length, 64), 0u);
    ROW(xv6_boot(image, length, FRAMES, NULL), XV6_NULL);
}

/* Each function of a machine, where there is none. */
static void refuse_handle(struct xv6_machine *machine)
{
    ROW(xv6_steps(machine, 1), XV6_NULL);
    ROW(xv6_run(machine, 1, &steps), XV6_NULL);
    ROW(xv6_tick(machine), XV6_NULL);
    ROW(xv6_key(machine, 'x'), XV6_NULL);
    ROW(xv6_console(machine, room, sizeof room), 0u);
    ROW(xv6_is_idle(machine), 1u);
    ROW(xv6_next_pid(machine, 0), 0u);
    ROW(xv6_process(machine, 1, &process), XV6_NULL);
    ROW(xv6_page(machine, 1, 0, room, sizeof room), 0u);
    ROW(xv6_free_frames(machine), 0u);
    ROW(xv6_ticks(machine), 0u);
    ROW(xv6_coming_pid(machine), 0u);
    ROW(xv6_program(machine, 1, &name_out), XV6_NULL);
    ROW(xv6_could_end(machine, 1, 2), 0);
    ROW(xv6_free_space(machine, image, length, &space_out), XV6_NULL);
    ROW(xv6_compute(machine, 1, NULL, 0), 0u);
    ROW(xv6_running(machine), 0u);
    ROW(xv6_is_anyone_asleep(machine), 0u);
    ROW(xv6_descriptor(machine, 1, 0, &named), XV6_NULL);
    ROW(xv6_pipe(machine, 0, room, sizeof room, &count), XV6_NULL);
    ROW(xv6_wait(machine, 1, &waits), XV6_NULL);
    ROW(xv6_directory(machine, 1), 0u);
    ROW(xv6_fault(machine, 1, &fault), XV6_NULL);
    ROW(xv6_walk(machine, 1, 0, &walked), XV6_NULL);
    ROW(xv6_digest(machine, &digest), XV6_NULL);
    ROW(xv6_stat(machine, 1, &stat_out), XV6_NULL);
    ROW(xv6_read(machine, 1, 0, room, sizeof room, &count), XV6_NULL);
    ROW(xv6_save(machine, room, sizeof room, &count), XV6_NULL);
    ROW(xv6_copy(machine, &copied), XV6_NULL);
    ROW(xv6_is_closed(&copied), 1);
    ROW(xv6_is_closed(machine), 1);
    xv6_close(machine);
}

/* What must not be null. */
static void refuse_nulls(void)
{
    struct xv6_summary summary;
    struct xv6_assembled assembled;
    struct xv6_expanded told;
    size_t many;
    must(xv6_mkfs(NULL, 1, made, 1, 16, made, sizeof made) == XV6_NULL && xv6_mkfs(NULL, 0, NULL, 1, 16, made, 1) == XV6_NULL, "mkfs");
    must(xv6_mkfs(NULL, 0, NULL, 0, 16, NULL, 1) == XV6_NULL && xv6_check(NULL, 1, &summary) == XV6_NULL, "mkfs and check");
    must(xv6_check(made, sizeof made, NULL) == XV6_NULL && xv6_migrate(NULL, 1) == XV6_NULL, "check and migrate");
    must(xv6_get(NULL, 1, PATH("/"), room, 1, &many) == XV6_NULL && xv6_get(made, 1, NULL, 1, room, 1, &many) == XV6_NULL, "get");
    must(xv6_get(made, 1, PATH("/"), NULL, 1, &many) == XV6_NULL && xv6_get(made, 1, PATH("/"), room, 1, NULL) == XV6_NULL, "get");
    must(xv6_list(NULL, 1, PATH("/"), room, 1, &many) == XV6_NULL && xv6_list(made, 1, PATH("/"), room, 1, NULL) == XV6_NULL, "list");
    must(xv6_put(NULL, 1, PATH("/"), PATH("x")) == XV6_NULL && xv6_put(made, 1, PATH("/"), NULL, 1) == XV6_NULL, "put");
    must(xv6_asm(NULL, 1, file, 1, &assembled) == XV6_NULL && xv6_asm(PATH("x"), NULL, 1, &assembled) == XV6_NULL, "asm");
    must(xv6_asm(PATH("x"), file, 1, NULL) == XV6_NULL && xv6_as(PATH("x"), file, 1, NULL, 1, &told) == XV6_NULL, "asm and as");
    must(xv6_locate(NULL, 1, 0, room, 1, &many) == XV6_NULL && xv6_locate(made, 1, 0, NULL, 1, &many) == XV6_NULL, "locate");
    must(xv6_locate(made, 1, 0, room, 1, NULL) == XV6_NULL, "locate");
    must(xv6_as(NULL, 1, file, 1, report, 1, &told) == XV6_NULL && xv6_as(PATH("x"), file, 1, report, 1, NULL) == XV6_NULL, "as");
}

/* A place that is null, for a machine that is up. */
static void refuse_places(void)
{
    ROW(xv6_copy(&up, NULL), XV6_NULL);
    ROW(xv6_copy(&up, &up), XV6_NULL);
    ROW(xv6_run(&up, 1, NULL), XV6_NULL);
    ROW(xv6_process(&up, 1, NULL), XV6_NULL);
    ROW(xv6_stat(&up, 1, NULL), XV6_NULL);
    ROW(xv6_compute(&up, 1, NULL, 1), 0u);
    ROW(xv6_descriptor(&up, 1, 0, NULL), XV6_NULL);
    ROW(xv6_pipe(&up, 0, NULL, 1, &count), XV6_NULL);
    ROW(xv6_pipe(&up, 0, room, sizeof room, NULL), XV6_NULL);
    ROW(xv6_wait(&up, 1, NULL), XV6_NULL);
    ROW(xv6_fault(&up, 1, NULL), XV6_NULL);
    ROW(xv6_walk(&up, 1, 0, NULL), XV6_NULL);
    ROW(xv6_program(&up, 1, NULL), XV6_NULL);
    ROW(xv6_free_space(&up, NULL, length, &space_out), XV6_NULL);
    ROW(xv6_free_space(&up, image, length, NULL), XV6_NULL);
    ROW(xv6_digest(&up, NULL), XV6_NULL);
    ROW(xv6_console(&up, NULL, 1), 0u);
    ROW(xv6_console(&up, NULL, 0), 0u);
    ROW(xv6_page(&up, 1, 0, NULL, 1), 0u);
    ROW(xv6_page(&up, 1, 0, NULL, 0) & XV6_PAGE, 1u);
    ROW(xv6_read(&up, 1, 0, NULL, 1, &count), XV6_NULL);
    ROW(xv6_read(&up, 1, 0, room, sizeof room, NULL), XV6_NULL);
    ROW(xv6_read(&up, 1, 0, NULL, 0, &count), 0u);
    ROW(xv6_save(&up, NULL, 1, &count), XV6_NULL);
    ROW(xv6_save(&up, room, sizeof room, NULL), XV6_NULL);
}

/* Numbers of nothing. */
static void find_nothing(void)
{
    ROW(xv6_process(&up, 0, &process), (uint32_t)XV6_NO_PROCESS);
    ROW(xv6_process(&up, 77, &process), (uint32_t)XV6_NO_PROCESS);
    ROW(xv6_process(&up, 0xffffffffu, &process), (uint32_t)XV6_NO_PROCESS);
    ROW(xv6_next_pid(&up, 0xffffffffu), 0u);
    ROW(xv6_descriptor(&up, 77, 0, &named), (uint32_t)XV6_NONE);
    ROW(xv6_descriptor(&up, 1, SIZE_MAX, &named), (uint32_t)XV6_NONE);
    ROW(xv6_pipe(&up, 0, room, sizeof room, &count), (uint32_t)XV6_NONE);
    ROW(xv6_wait(&up, 77, &waits), (uint32_t)XV6_NONE);
    ROW(xv6_could_end(&up, 77, 1), 0);
    ROW(xv6_could_end(&up, 1, 77), 0);
    ROW(xv6_program(&up, 77, &name_out), (uint32_t)XV6_NONE);
    ROW(xv6_fault(&up, 77, &fault), (uint32_t)XV6_NONE);
    ROW(xv6_page(&up, 77, 0, room, sizeof room), 0u);
    ROW(xv6_page(&up, 1, UINT64_MAX, room, sizeof room), 0u);
    ROW(xv6_stat(&up, SIZE_MAX, &stat_out) + stat_out.kind, 0u);
    ROW(xv6_read(&up, SIZE_MAX, 0, room, sizeof room, &count) + count, 0u);
    ROW(xv6_read(&up, 1, SIZE_MAX, room, sizeof room, &count) + count, 0u);
}

/* After a save into too little room the machine is closed, and the length of its image is told. */
static void save_a_part(void)
{
    ROW(xv6_save(&up, room, sizeof room, &count), 0u);
    ROW(count, length);
    ROW(memcmp(room, image, sizeof room), 0);
}

/* Keys without end, of which none is read. */
static void press_keys(void)
{
    int i;
    for (i = 0; i < 300; i++) ROW(xv6_key(&up, 'a'), 0u);
}

static void refuse(void)
{
    refuse_images();
    refuse_nulls();
    refuse_handle(NULL);
    must(xv6_boot(image, length, FRAMES, &closed) == 0, "the image boots again");
    xv6_close(&closed);
    refuse_handle(&closed);
    must(xv6_boot(image, length, FRAMES, &up) == 0, "the image boots a third time");
    refuse_places();
    find_nothing();
    press_keys();
    save_a_part();
    refuse_handle(&up);
}

static void *try_all(void *script)
{
    play(script);
    play_many();
    play_copies(0);
    play_copies(1);
    copy_stopped();
    watch();
    wait_at_pipe();
    run_to();
    run_to_address();
    run_to_killed();
    make_image();
    use_image();
    run_to_fault();
    refuse_bytes();
    expand_texts();
    refuse();
    return NULL;
}

int main(int argc, char **argv)
{
    FILE *script;
    if (argc != 3 || !read_image(argv[1]) || (script = fopen(argv[2], "w")) == NULL) {
        fprintf(stderr, "test.c: an image that can be read, and a script that can be written\n");
        return 2;
    }
    in_thread(try_all, script);
    must(fclose(script) == 0, "the script is written");
    free(image);
    return wrong;
}
