/* The machine as a C library: xv6 (RISC-V edition) as a pure function of its image and of what it is given.

   Link with libxv6.a or libxv6.so. The functions of the library are xv6_raw_...; the ones below call them, and answer an
   error where a handle, `inside`, a place for an answer, or a buffer with a length is null.

   Memory   The library copies the image, and keeps no pointer of the caller's after a call. `inside` is the library's own:
            xv6_close and xv6_save free it and clear `inside`, nothing else may. Make no copy of a handle: one of a machine
            that was closed is not known as such, and to use it is undefined. xv6_copy makes a machine of its own.
   Errors   0, or a number of those below. After XV6_INIT_ENDED one can still look and save; after XV6_CONSOLE_LOST each event,
            xv6_stat, xv6_read and xv6_save answer XV6_HALTED. The numbers that xv6_is_idle, xv6_console, xv6_next_pid,
            xv6_page, xv6_free_frames, xv6_ticks, xv6_coming_pid, xv6_compute, xv6_running, xv6_is_anyone_asleep and
            xv6_directory return are no errors: where something is null the first returns 1, and the others 0.
   Threads  A machine is at one call at a time. Different machines may be at calls in different threads. No call is made from a
            signal handler, nor from the forked child of a process with threads. A thread that makes a call has a stack of 256 kB
            or more: one that finds too little ends the process.
   Replays  The events of a machine are its steps, ticks and keys, and xv6_run tells how many steps it took: the same events on
            the same image with the same number of frames do the same, as with `xv6 run`. */
#ifndef XV6_H
#define XV6_H

#include <stddef.h>
#include <stdint.h>

#ifdef __cplusplus
extern "C" {
#endif

/* The number of the interface, not of the release: the major number times 1000, and the minor one. A new function adds 1; one that
   changes, or a struct that does, adds 1000. */
#define XV6_VERSION 1004

/* The most bytes that xv6_asm and xv6_as make of a text. */
#define XV6_PROGRAM_BYTES 274432u

/* A machine. All of it is cleared before xv6_boot and xv6_copy, and after xv6_close. */
struct xv6_machine {
    void *inside;
};

/* A process, as it stands between two events. */
struct xv6_process {
    uint64_t registers[32]; /* x0 to x31 */
    uint64_t pc;
    uint64_t size;          /* in bytes */
    uint32_t pid;
    uint32_t parent;        /* the pid of its parent; 0 for process 1 */
    uint32_t state;         /* XV6_RUNNING .. XV6_ENDED */
    uint32_t call;          /* the number of the call that it waits in; else 0 */
    int32_t status;         /* what it ended with; else 0 */
    uint32_t killed;        /* 1 where it was killed, else 0 */
};

/* The open file that a descriptor of a process names. */
struct xv6_descriptor {
    uint64_t number;        /* of its node, or of its pipe */
    uint32_t file;          /* its own number: descriptors that name the same open file share its offset */
    uint32_t kind;          /* XV6_ON_FILE .. XV6_ON_WRITE_END */
    uint32_t offset;        /* in bytes; 0 except in a file or a directory */
    uint32_t readable;      /* 1 or 0 */
    uint32_t writable;      /* 1 or 0 */
    uint32_t descriptors;   /* how many descriptors of all processes name it */
};

/* The call that a process waits in. Its number is in struct xv6_process. */
struct xv6_wait {
    uint64_t arguments[3];  /* a0 to a2 as it began: of read and write the descriptor, the address and the count */
    uint64_t done;          /* how many bytes were read or written so far */
    uint32_t since;         /* the count of ticks as it began */
};

/* The fault that the next instruction of a process would raise. */
struct xv6_fault {
    uint64_t address;       /* the target of a jump, the address of a load or a store, else the pc */
    uint64_t pc;
    uint32_t cause;         /* XV6_JUMP_MISALIGNED .. XV6_STORE_PAGE */
};

/* A node of the disk. */
struct xv6_stat {
    uint32_t kind;          /* XV6_NO_NODE .. XV6_DEVICE */
    uint32_t links;         /* how many names it has */
    uint32_t size;          /* in bytes */
};

/* The walk of an address through the page table of a process. */
struct xv6_walk {
    uint64_t entries[3];    /* those of levels 2, 1 and 0: the last of them that was read is a leaf, or not valid */
    uint32_t count;         /* how many were read */
};

/* What an image has at a path. */
struct xv6_entry {
    uint64_t path;          /* how many bytes its path has */
    uint64_t size;          /* how many bytes the file has; 0 of what is none */
    uint32_t kind;          /* XV6_DIRECTORY, XV6_FILE or XV6_DEVICE */
    uint16_t major;         /* which driver the device has, and which of the driver's devices it is; 0 of what is none */
    uint16_t minor;
};

/* What an image uses. */
struct xv6_summary {
    uint64_t inodes;
    uint64_t blocks;        /* of 1024 bytes, for data */
};

/* What is free on a disk. */
struct xv6_space {
    uint64_t inodes;
    uint64_t blocks;        /* of 1024 bytes, for data */
};

/* The name of a program. */
struct xv6_name {
    char text[15];          /* it ends with a zero */
};

/* What became of an assembly text. */
struct xv6_assembled {
    uint64_t bytes;         /* how many the program's file has; 0 where there is none */
    uint64_t line;          /* the line of the fault, from 1 on; 0 where there is none */
};

/* What became of a text as other assemblers take it. */
struct xv6_expanded {
    uint64_t bytes;         /* how many the program's file has; 0 where there is none */
    uint64_t report;        /* how many the report has */
};

/* Why an image doesn't boot. xv6_copy answers XV6_BOOT_MEMORY alone. */
enum {
    XV6_BOOT_IMAGE = 1,     /* the bytes are no image */
    XV6_BOOT_FRAMES = 2,    /* fewer than 64 frames, or more than 32768 */
    XV6_BOOT_DEVICE = 3,    /* never: the disk is in memory */
    XV6_BOOT_MEMORY = 4,    /* the host has no memory */
    XV6_BOOT_INIT = 5       /* there is no file /init, it is no program, or the frames don't suffice for it */
};

/* Why a machine stops. */
enum {
    XV6_INIT_ENDED = 1,     /* process 1 ended */
    XV6_DEVICE_FAILED = 2,  /* never: the disk is in memory */
    XV6_CONSOLE_LOST = 3,   /* the host has no memory for the console's bytes */
    XV6_HALTED = 4          /* it had stopped before */
};

/* The host has no memory for what was asked. */
enum { XV6_NO_MEMORY = 4 };

/* Why the bytes are no image: the first of these rules that they break. */
enum {
    XV6_IMAGE_LENGTH = 101,         /* they are not as many as the super block says */
    XV6_IMAGE_MAGIC = 102,          /* the magic number is wrong */
    XV6_IMAGE_NUMBERS = 103,        /* the numbers of the super block don't fit one another */
    XV6_IMAGE_NODE_TYPE = 104,      /* an inode has an unknown type, or the root is no directory */
    XV6_IMAGE_ADDRESS = 105,        /* an inode names what is no data block, or too many */
    XV6_IMAGE_SHARED_BLOCK = 106,   /* a block is named twice */
    XV6_IMAGE_BITMAP = 107,         /* the bitmap doesn't mark the blocks that are in use */
    XV6_IMAGE_SIZE = 108,           /* an inode has a size that its type can't have */
    XV6_IMAGE_ENTRY = 109,          /* an entry of a directory is wrong */
    XV6_IMAGE_LINKS = 110,          /* a count of links is wrong */
    XV6_IMAGE_UNREACHED = 111       /* an inode in use isn't reached from the root */
};

/* Why nothing is read from a path of an image, or put there. */
enum {
    XV6_PATH_NOT_FOUND = 201,       /* there is no file, or none of the directories above it */
    XV6_PATH_NOT_DIRECTORY = 202,
    XV6_PATH_EXISTS = 203,          /* a device is there */
    XV6_PATH_IS_DIRECTORY = 204,
    XV6_PATH_NOT_EMPTY = 205,       /* never, as the next three */
    XV6_PATH_DOT = 206,
    XV6_PATH_DEAD = 207,
    XV6_PATH_LINKS = 208,
    XV6_PATH_BLOCKS = 209,          /* no block is free, or the file would be too long */
    XV6_PATH_INODES = 210,          /* no inode is free */
    XV6_PATH_FULL = 211             /* the directory is full */
};

/* Why no image is made. */
enum {
    XV6_MAKE_NAME = 301,            /* a path doesn't begin with a slash, or one of its names is none */
    XV6_MAKE_TWICE = 302,           /* a name is there already */
    XV6_MAKE_BLOCKS = 303,          /* a file or a directory would be too long, or the blocks don't suffice */
    XV6_MAKE_INODES = 304,          /* no inode is left */
    XV6_MAKE_PARENT = 305,          /* the directory above is neither the root nor an earlier entry */
    XV6_MAKE_NUMBERS = 306,         /* no image has so many bytes and inodes */
    XV6_MAKE_ENTRY = 307            /* an entry is of no kind, or the bytes are not those of the entries */
};

/* What xv6_migrate answers where the files take more blocks than the image has. */
enum { XV6_MIGRATE_BLOCKS = 401 };

/* What is wrong with a line of an assembly text; of more than one the least. */
enum {
    XV6_ASM_UTF8 = 500,             /* the text is no UTF-8; told with line 0 */
    XV6_ASM_SYNTAX = 501,           /* a character or a string that isn't read, or a word that begins with no letter or dot */
    XV6_ASM_MNEMONIC = 502,         /* no instruction or directive is called so */
    XV6_ASM_OPERAND = 503,          /* the operands are not those of the word */
    XV6_ASM_RANGE = 504,            /* a number or a distance doesn't fit, or the program has more than 270336 bytes */
    XV6_ASM_LABEL = 505,            /* nothing defines a label */
    XV6_ASM_TWICE = 506,            /* an earlier line defines the label */
    XV6_ASM_ALIGN = 507             /* an instruction at an address that is no multiple of 4, or an odd distance */
};

/* What xv6_as answers where the report says what is wrong with the text. */
enum { XV6_AS_FAULTS = 600 };

/* What xv6_process returns where there is no such process, and others where there is nothing to put. */
enum { XV6_NO_PROCESS = 1, XV6_NONE = 1 };

/* Something that must not be null is. The number is no other's. */
#define XV6_NULL 6u

/* The calls that processes wait in. */
enum { XV6_WAIT = 3, XV6_READS = 5, XV6_SLEEP = 13, XV6_WRITES = 16 };

enum { XV6_RUNNING = 1, XV6_READY = 2, XV6_WAITING = 3, XV6_ENDED = 4 };
enum { XV6_NO_NODE = 0, XV6_DIRECTORY = 1, XV6_FILE = 2, XV6_DEVICE = 3 };
enum { XV6_ON_FILE = 1, XV6_ON_CONSOLE = 2, XV6_ON_DEVICE = 3, XV6_ON_READ_END = 4, XV6_ON_WRITE_END = 5 };

/* The causes of faults, by the numbers of the RISC-V manual. */
enum {
    XV6_JUMP_MISALIGNED = 0,
    XV6_ILLEGAL_INSTRUCTION = 2,
    XV6_BREAKPOINT = 3,
    XV6_LOAD_MISALIGNED = 4,
    XV6_STORE_MISALIGNED = 6,
    XV6_FETCH_PAGE = 12,
    XV6_LOAD_PAGE = 13,
    XV6_STORE_PAGE = 15
};

enum { XV6_PAGE = 1, XV6_READ = 2, XV6_WRITE = 4, XV6_EXECUTE = 8 };

/* ---- the functions of the library; nothing is tested */

uint32_t xv6_raw_version(void);
uint32_t xv6_raw_boot(const uint8_t *image, size_t length, uint32_t frames, struct xv6_machine *out);
uint32_t xv6_raw_copy(struct xv6_machine *machine, struct xv6_machine *out);
void xv6_raw_close(struct xv6_machine machine);
uint32_t xv6_raw_steps(struct xv6_machine *machine, uint32_t times);
uint32_t xv6_raw_run(struct xv6_machine *machine, uint32_t most, uint32_t *done);
uint32_t xv6_raw_compute(struct xv6_machine *machine, uint32_t most, const uint64_t *stops, size_t count);
uint32_t xv6_raw_tick(struct xv6_machine *machine);
uint32_t xv6_raw_key(struct xv6_machine *machine, uint8_t byte);
size_t xv6_raw_console(struct xv6_machine *machine, uint8_t *out, size_t room);
uint32_t xv6_raw_is_idle(struct xv6_machine *machine);
uint32_t xv6_raw_is_anyone_asleep(struct xv6_machine *machine);
uint32_t xv6_raw_running(struct xv6_machine *machine);
uint32_t xv6_raw_next_pid(struct xv6_machine *machine, uint32_t after);
uint32_t xv6_raw_process(struct xv6_machine *machine, uint32_t pid, struct xv6_process *out);
uint32_t xv6_raw_descriptor(struct xv6_machine *machine, uint32_t pid, size_t descriptor, struct xv6_descriptor *out);
uint32_t xv6_raw_pipe(struct xv6_machine *machine, size_t number, uint8_t *out, size_t room, size_t *count);
uint32_t xv6_raw_wait(struct xv6_machine *machine, uint32_t pid, struct xv6_wait *out);
uint32_t xv6_raw_directory(struct xv6_machine *machine, uint32_t pid);
uint32_t xv6_raw_fault(struct xv6_machine *machine, uint32_t pid, struct xv6_fault *out);
uint32_t xv6_raw_page(struct xv6_machine *machine, uint32_t pid, uint64_t page, uint8_t *out, size_t room);
uint32_t xv6_raw_walk(struct xv6_machine *machine, uint32_t pid, uint64_t address, struct xv6_walk *out);
uint32_t xv6_raw_free_frames(struct xv6_machine *machine);
uint32_t xv6_raw_ticks(struct xv6_machine *machine);
uint32_t xv6_raw_coming_pid(struct xv6_machine *machine);
uint32_t xv6_raw_digest(struct xv6_machine *machine, uint64_t *out);
uint32_t xv6_raw_stat(struct xv6_machine *machine, size_t inode, struct xv6_stat *out);
uint32_t xv6_raw_read(struct xv6_machine *machine, size_t inode, size_t at, uint8_t *out, size_t room, size_t *count);
uint32_t xv6_raw_save(struct xv6_machine machine, uint8_t *out, size_t room, size_t *bytes);
uint32_t xv6_raw_mkfs(const struct xv6_entry *entries, size_t count, const uint8_t *bytes, size_t length, uint32_t inodes, uint8_t *image,
    size_t room);
uint32_t xv6_raw_check(const uint8_t *image, size_t length, struct xv6_summary *out);
uint32_t xv6_raw_list(const uint8_t *image, size_t length, const uint8_t *path, size_t path_length, uint8_t *out, size_t room, size_t *count);
uint32_t xv6_raw_get(const uint8_t *image, size_t length, const uint8_t *path, size_t path_length, uint8_t *out, size_t room, size_t *count);
uint32_t xv6_raw_put(uint8_t *image, size_t length, const uint8_t *path, size_t path_length, const uint8_t *bytes, size_t count);
uint32_t xv6_raw_migrate(uint8_t *image, size_t length);
uint32_t xv6_raw_locate(const uint8_t *file, size_t length, uint64_t address, uint8_t *out, size_t room, size_t *count);
uint32_t xv6_raw_asm(const uint8_t *text, size_t length, uint8_t *out, size_t room, struct xv6_assembled *told);
uint32_t xv6_raw_as(const uint8_t *text, size_t length, uint8_t *out, size_t room, uint8_t *report, size_t report_room, struct xv6_expanded *told);

/* ---- the functions to call */

/* Whether there is no machine in a handle. */
static inline int xv6_is_closed(const struct xv6_machine *machine)
{
    return machine == NULL || machine->inside == NULL;
}

/* The version of the library: a program refuses one whose thousands differ from XV6_VERSION's. */
static inline uint32_t xv6_version(void)
{
    return xv6_raw_version();
}

/* Boots a machine from an image, with 64 to 32768 frames of 4096 bytes. XV6_BOOT_.., and then nothing is written. */
static inline uint32_t xv6_boot(const uint8_t *image, size_t length, uint32_t frames, struct xv6_machine *out)
{
    if (out == NULL || (image == NULL && length != 0)) return XV6_NULL;
    return xv6_raw_boot(image, length, frames, out);
}

/* Copies a machine, with the bytes of its console that nobody took: both go on by themselves from where it stands, and each is closed by
   itself. XV6_BOOT_MEMORY where the host has no memory, and then nothing is written. `out` is another place than `machine`. */
static inline uint32_t xv6_copy(struct xv6_machine *machine, struct xv6_machine *out)
{
    return xv6_is_closed(machine) || out == NULL || out == machine ? XV6_NULL : xv6_raw_copy(machine, out);
}

/* Ends a machine, frees its memory and clears `inside`. Nothing happens where it was cleared. */
static inline void xv6_close(struct xv6_machine *machine)
{
    if (xv6_is_closed(machine)) return;
    xv6_raw_close(*machine);
    machine->inside = NULL;
}

/* So many steps, each an instruction or a turn of the scheduler, up to the first at which the machine stops. */
static inline uint32_t xv6_steps(struct xv6_machine *machine, uint32_t times)
{
    return xv6_is_closed(machine) ? XV6_NULL : xv6_raw_steps(machine, times);
}

/* At most so many steps, and none once no process runs or is ready. `done`: how many; xv6_steps of as many does the same. */
static inline uint32_t xv6_run(struct xv6_machine *machine, uint32_t most, uint32_t *done)
{
    return xv6_is_closed(machine) || done == NULL ? XV6_NULL : xv6_raw_run(machine, most, done);
}

/* At most so many steps that are instructions of the process that runs: up to a call or a fault, which is not done, and no further
   than to the first of `count` addresses that its pc comes to after the first of them. Returns how many: 0 where no process runs. */
static inline uint32_t xv6_compute(struct xv6_machine *machine, uint32_t most, const uint64_t *stops, size_t count)
{
    return xv6_is_closed(machine) || (stops == NULL && count != 0) ? 0 : xv6_raw_compute(machine, most, stops, count);
}

/* What xv6_run_to runs to. A sum of them is any of them. XV6_TO_ADDRESS is what xv6_run_to_address runs to. */
enum { XV6_TO_CALL = 1, XV6_TO_FAULT = 2, XV6_TO_EXIT = 4, XV6_TO_ADDRESS = 8 };

/* What xv6_run_to and xv6_run_to_address came to. */
struct xv6_reached {
    uint32_t what;          /* XV6_TO_CALL .. XV6_TO_ADDRESS; 0: none, since all processes wait or the steps were taken */
    uint32_t pid;           /* of which process */
    uint32_t done;          /* how many steps were taken: xv6_steps of as many does the same */
    uint32_t call;          /* the number of the call, a7 */
    int32_t status;         /* what it ended with; -1 where it is gone already */
    struct xv6_fault fault; /* the fault, after XV6_TO_FAULT */
};

/* Whether a process came to its end in the last step, and what it ended with. */
static inline int xv6_has_ended(struct xv6_machine *machine, uint32_t pid, int32_t *status)
{
    struct xv6_process now;
    *status = -1;
    if (xv6_raw_process(machine, pid, &now) != 0) return 1;
    if (now.state != XV6_ENDED) return 0;
    *status = now.status;
    return 1;
}

/* The pids of processes that were killed and end at their next turn, at `out`; how many. */
static inline size_t xv6_killed(struct xv6_machine *machine, uint32_t out[64])
{
    struct xv6_process now;
    uint32_t pid = 0;
    size_t count = 0;
    while ((pid = xv6_raw_next_pid(machine, pid)) != 0) {
        if (count < 64 && xv6_raw_process(machine, pid, &now) == 0 && now.killed != 0 && now.state != XV6_ENDED) out[count++] = pid;
    }
    return count;
}

/* Runs to the next call, fault or exit of a process, or of any one where `pid` is 0; at most so many steps. The machine is before the
   instruction of a call and after that of a fault or an exit; a call that is next already is passed. 0, or why the machine stops. */
static inline uint32_t xv6_run_to(struct xv6_machine *machine, uint32_t what, uint32_t pid, uint32_t most, struct xv6_reached *out)
{
    struct xv6_process now;
    uint32_t answer, step, running, is_fault, ends[64];
    size_t count, at;
    if (xv6_is_closed(machine) || out == NULL) return XV6_NULL;
    out->what = out->pid = out->done = out->call = 0;
    out->status = -1;
    for (;;) {
        out->done += xv6_raw_compute(machine, most - out->done, NULL, 0);
        if (out->done >= most) return 0;
        running = xv6_raw_running(machine);
        is_fault = running != 0 && xv6_raw_fault(machine, running, &out->fault) == 0;
        if ((what & XV6_TO_CALL) != 0 && running != 0 && !is_fault && out->done != 0 && (pid == 0 || pid == running)
            && xv6_raw_process(machine, running, &now) == 0) {
            out->what = XV6_TO_CALL;
            out->pid = running;
            out->call = (uint32_t)now.registers[17];
            return 0;
        }
        ends[0] = running;
        count = running != 0 ? 1 : (what & XV6_TO_EXIT) != 0 ? xv6_killed(machine, ends) : 0;
        answer = xv6_raw_run(machine, 1, &step);
        out->done += step;
        for (at = 0; at < count; at++) {
            if ((pid != 0 && pid != ends[at]) || !xv6_has_ended(machine, ends[at], &out->status)) continue;
            if ((what & (is_fault ? (uint32_t)XV6_TO_FAULT | XV6_TO_EXIT : (uint32_t)XV6_TO_EXIT)) == 0) continue;
            out->what = is_fault && (what & XV6_TO_FAULT) != 0 ? XV6_TO_FAULT : XV6_TO_EXIT;
            out->pid = ends[at];
            return answer;
        }
        if (answer != 0 || step == 0) return answer;
    }
}

/* Runs until the next instruction of a process, or of any one where `pid` is 0, is at an address; at most so many steps. An instruction that
   is there already is passed. 0, or why the machine stops. */
static inline uint32_t xv6_run_to_address(struct xv6_machine *machine, uint64_t address, uint32_t pid, uint32_t most, struct xv6_reached *out)
{
    struct xv6_process now;
    uint32_t answer = 0, step;
    if (xv6_is_closed(machine) || out == NULL) return XV6_NULL;
    out->what = out->pid = out->done = out->call = 0;
    out->status = -1;
    while (out->done < most && answer == 0) {
        step = xv6_raw_compute(machine, most - out->done, &address, 1);
        if (step == 0) answer = xv6_raw_run(machine, 1, &step);
        if (step == 0) break;
        out->done += step;
        if (xv6_raw_process(machine, xv6_raw_running(machine), &now) != 0 || now.pc != address || (pid != 0 && pid != now.pid)) continue;
        out->what = XV6_TO_ADDRESS;
        out->pid = now.pid;
        break;
    }
    return answer;
}

/* Runs until the console prints, at most so many steps, and takes its bytes as xv6_console does. 0: none came before all processes wait,
   the machine stops or the steps were taken. `done`: how many steps. Bytes that nobody took before come at once, after none. */
static inline size_t xv6_run_to_output(struct xv6_machine *machine, uint32_t most, uint8_t *out, size_t room, uint32_t *done)
{
    size_t count;
    uint32_t answer, step;
    if (xv6_is_closed(machine) || done == NULL || out == NULL || room == 0) return 0;
    *done = 0;
    while ((count = xv6_raw_console(machine, out, room)) == 0) {
        *done += xv6_raw_compute(machine, most - *done, NULL, 0);
        if (*done >= most) return 0;
        answer = xv6_raw_run(machine, 1, &step);
        *done += step;
        if (answer != 0 || step == 0) return xv6_raw_console(machine, out, room);
    }
    return count;
}

/* A timer interrupt. */
static inline uint32_t xv6_tick(struct xv6_machine *machine)
{
    return xv6_is_closed(machine) ? XV6_NULL : xv6_raw_tick(machine);
}

/* A byte typed at the console. */
static inline uint32_t xv6_key(struct xv6_machine *machine, uint8_t byte)
{
    return xv6_is_closed(machine) ? XV6_NULL : xv6_raw_key(machine, byte);
}

/* Takes the oldest of the console's bytes that nobody took, as many as there is room for, and tells how many. 0: none is left. */
static inline size_t xv6_console(struct xv6_machine *machine, uint8_t *out, size_t room)
{
    return xv6_is_closed(machine) || (out == NULL && room != 0) ? 0 : xv6_raw_console(machine, out, room);
}

/* 1 where no process runs and none is ready, so that a step changes nothing; else 0. 1, too, where there is no machine. */
static inline uint32_t xv6_is_idle(struct xv6_machine *machine)
{
    return xv6_is_closed(machine) ? 1 : xv6_raw_is_idle(machine);
}

/* 1 where a process waits in sleep, so that a tick can make it ready; else 0. */
static inline uint32_t xv6_is_anyone_asleep(struct xv6_machine *machine)
{
    return xv6_is_closed(machine) ? 0 : xv6_raw_is_anyone_asleep(machine);
}

/* The pid of the process that runs. 0: none does. */
static inline uint32_t xv6_running(struct xv6_machine *machine)
{
    return xv6_is_closed(machine) ? 0 : xv6_raw_running(machine);
}

/* The least pid above another. 0: there is none. From 0 on these are all processes. */
static inline uint32_t xv6_next_pid(struct xv6_machine *machine, uint32_t after)
{
    return xv6_is_closed(machine) ? 0 : xv6_raw_next_pid(machine, after);
}

/* What is told of a process, at `out`. XV6_NO_PROCESS, and then nothing is written. */
static inline uint32_t xv6_process(struct xv6_machine *machine, uint32_t pid, struct xv6_process *out)
{
    return xv6_is_closed(machine) || out == NULL ? XV6_NULL : xv6_raw_process(machine, pid, out);
}

/* The open file that one of the 16 descriptors of a process names, at `out`. XV6_NONE where it names none. */
static inline uint32_t xv6_descriptor(struct xv6_machine *machine, uint32_t pid, size_t descriptor, struct xv6_descriptor *out)
{
    return xv6_is_closed(machine) || out == NULL ? XV6_NULL : xv6_raw_descriptor(machine, pid, descriptor, out);
}

/* The bytes of a pipe that were written and not read yet, the oldest first and as many as there is room for. `count`: how many the pipe
   has, at most 512. XV6_NONE where there is no such pipe. */
static inline uint32_t xv6_pipe(struct xv6_machine *machine, size_t number, uint8_t *out, size_t room, size_t *count)
{
    return xv6_is_closed(machine) || count == NULL || (out == NULL && room != 0) ? XV6_NULL : xv6_raw_pipe(machine, number, out, room, count);
}

/* The call that a process waits in, at `out`. XV6_NONE where it waits in none. */
static inline uint32_t xv6_wait(struct xv6_machine *machine, uint32_t pid, struct xv6_wait *out)
{
    return xv6_is_closed(machine) || out == NULL ? XV6_NULL : xv6_raw_wait(machine, pid, out);
}

/* Whether a process could end what another one waits for: a child its parent's `wait` by its end, and who holds an end of a pipe, by a read,
   a write or a close, the `read` or the `write` at its other end. Typed lines and ticks come from outside, and any process may kill. */
static inline int xv6_could_end(struct xv6_machine *machine, uint32_t pid, uint32_t other)
{
    struct xv6_process process;
    struct xv6_descriptor awaited, held;
    struct xv6_wait wait;
    size_t at;
    if (xv6_is_closed(machine) || xv6_raw_process(machine, pid, &process) != 0 || xv6_raw_wait(machine, pid, &wait) != 0) return 0;
    if (process.call == XV6_WAIT) return xv6_raw_process(machine, other, &process) == 0 && process.parent == pid;
    if (process.call != XV6_READS && process.call != XV6_WRITES) return 0;
    if (xv6_raw_descriptor(machine, pid, (uint32_t)wait.arguments[0], &awaited) != 0 || awaited.kind < XV6_ON_READ_END) return 0;
    for (at = 0; at < 16; at++) {
        if (xv6_raw_descriptor(machine, other, at, &held) != 0 || held.number != awaited.number) continue;
        if (held.kind >= XV6_ON_READ_END && held.kind != awaited.kind) return 1;
    }
    return 0;
}

/* The number of the working directory of a process. 0: it has ended, or there is no such process. */
static inline uint32_t xv6_directory(struct xv6_machine *machine, uint32_t pid)
{
    return xv6_is_closed(machine) ? 0 : xv6_raw_directory(machine, pid);
}

/* The fault that the next instruction of a process would raise if it were done now, at `out`. XV6_NONE where it would raise none; a call
   is no fault. Where a process runs and xv6_compute takes no step, its next instruction is a call or has a fault. */
static inline uint32_t xv6_fault(struct xv6_machine *machine, uint32_t pid, struct xv6_fault *out)
{
    return xv6_is_closed(machine) || out == NULL ? XV6_NULL : xv6_raw_fault(machine, pid, out);
}

/* The 4096 bytes of a page of a process, as many as there is room for. The sum of XV6_PAGE and of what its program may do with it:
   XV6_READ, XV6_WRITE, XV6_EXECUTE. 0: there is no such page, and nothing is written. */
static inline uint32_t xv6_page(struct xv6_machine *machine, uint32_t pid, uint64_t page, uint8_t *out, size_t room)
{
    return xv6_is_closed(machine) || (out == NULL && room != 0) ? 0 : xv6_raw_page(machine, pid, page, out, room);
}

/* The walk of an address through the page table of a process, at `out`: the entries that are read one after another, from the root's on.
   An entry has its frame's number from bit 10 on, and below: 1 valid, 2 read, 4 write, 8 execute, 16 user. A walk that ends at an entry
   that is not valid, or after three that lead on, reaches nothing. XV6_NO_PROCESS, and then nothing is written. */
static inline uint32_t xv6_walk(struct xv6_machine *machine, uint32_t pid, uint64_t address, struct xv6_walk *out)
{
    return xv6_is_closed(machine) || out == NULL ? XV6_NULL : xv6_raw_walk(machine, pid, address, out);
}

/* How many frames are free. */
static inline uint32_t xv6_free_frames(struct xv6_machine *machine)
{
    return xv6_is_closed(machine) ? 0 : xv6_raw_free_frames(machine);
}

/* How many timer ticks the machine has had since it started, modulo 2^32: what `uptime` returns. */
static inline uint32_t xv6_ticks(struct xv6_machine *machine)
{
    return xv6_is_closed(machine) ? 0 : xv6_raw_ticks(machine);
}

/* The pid that the next fork gives, if it gives one. */
static inline uint32_t xv6_coming_pid(struct xv6_machine *machine)
{
    return xv6_is_closed(machine) ? 0 : xv6_raw_coming_pid(machine);
}

/* A number that is made of the whole state, at `out`: machines in the same state have the same one, and others another except by chance. */
static inline uint32_t xv6_digest(struct xv6_machine *machine, uint64_t *out)
{
    return xv6_is_closed(machine) || out == NULL ? XV6_NULL : xv6_raw_digest(machine, out);
}

/* What is told of the node with a number, at `out`; XV6_NO_NODE is its kind where there is none. Node 1 is the root's directory, and
   a directory's bytes are records of 16: two of its node's number, the lesser first, and 14 of a name; 0 is the number of none. */
static inline uint32_t xv6_stat(struct xv6_machine *machine, size_t inode, struct xv6_stat *out)
{
    return xv6_is_closed(machine) || out == NULL ? XV6_NULL : xv6_raw_stat(machine, inode, out);
}

/* The bytes of a node from the place `at` on, as many as there are and there is room for. `count`: how many; 0 at its end, for a
   device, and where there is no such node. */
static inline uint32_t xv6_read(struct xv6_machine *machine, size_t inode, size_t at, uint8_t *out, size_t room, size_t *count)
{
    return xv6_is_closed(machine) || count == NULL || (out == NULL && room != 0) ? XV6_NULL : xv6_raw_read(machine, inode, at, out, room, count);
}

/* A number whose least byte comes first. */
static inline uint64_t xv6_little(const uint8_t *bytes, size_t count)
{
    uint64_t number = 0;
    while (count-- > 0) number = number << 8 | bytes[count];
    return number;
}

/* Reads the header of the first part that a program's file loads. 0 where the file is no program. */
static inline int xv6_first_part(struct xv6_machine *machine, size_t inode, uint8_t part[56])
{
    uint8_t head[64];
    uint64_t at, headers;
    size_t count;
    if (xv6_raw_read(machine, inode, 0, head, sizeof head, &count) != 0 || count < sizeof head) return 0;
    if (xv6_little(head, 4) != 0x464c457f) return 0;
    headers = xv6_little(head + 56, 2);
    for (at = xv6_little(head + 32, 8); headers-- > 0; at += 56) {
        if (xv6_raw_read(machine, inode, (size_t)at, part, 56, &count) != 0 || count < 56) return 0;
        if (xv6_little(part, 4) == 1) return 1;
    }
    return 0;
}

/* How many bytes of the first page of a file's program a process has, up to the first that differs. 0 where the file is no program. */
static inline size_t xv6_same_bytes(struct xv6_machine *machine, uint32_t pid, size_t inode)
{
    uint8_t part[56], file[4096], page[4096];
    size_t count, same = 0;
    if (!xv6_first_part(machine, inode, part)) return 0;
    if (xv6_raw_read(machine, inode, (size_t)xv6_little(part + 8, 8), file, sizeof file, &count) != 0) return 0;
    if (xv6_raw_page(machine, pid, xv6_little(part + 16, 8) / sizeof page, page, sizeof page) == 0) return 0;
    while (same < count && same < xv6_little(part + 32, 8) && file[same] == page[same]) same++;
    return same;
}

/* Looks at the programs of a directory and of those below it, for the one of which a process has the most bytes. */
static inline void xv6_look_for_name(struct xv6_machine *machine, uint32_t pid, size_t directory, int depth, size_t *most, struct xv6_name *out)
{
    struct xv6_stat stat;
    uint8_t entry[16];
    size_t at, count, inode, same, i;
    for (at = 0; xv6_raw_read(machine, directory, at, entry, sizeof entry, &count) == 0 && count == sizeof entry; at += sizeof entry) {
        inode = (size_t)entry[0] + 256u * entry[1];
        if (inode == 0 || entry[2] == '.' || xv6_raw_stat(machine, inode, &stat) != 0) continue;
        if (stat.kind == XV6_DIRECTORY && depth != 0) xv6_look_for_name(machine, pid, inode, depth - 1, most, out);
        same = stat.kind == XV6_FILE ? xv6_same_bytes(machine, pid, inode) : 0;
        if (same <= *most) continue;
        *most = same;
        for (i = 0; i < 14; i++) out->text[i] = (char)entry[2 + i];
    }
}

/* The name of the program that a process has, at `out`. A machine keeps no names: it is that of the file whose first page the process has in
   the most of its bytes, and in 16 at least, in the root or up to three directories below. XV6_NONE where there is none. */
static inline uint32_t xv6_program(struct xv6_machine *machine, uint32_t pid, struct xv6_name *out)
{
    size_t most = 15, i;
    if (xv6_is_closed(machine) || out == NULL) return XV6_NULL;
    for (i = 0; i < sizeof out->text; i++) out->text[i] = 0;
    xv6_look_for_name(machine, pid, 1, 3, &most, out);
    return most == 15 ? XV6_NONE : 0;
}

/* Ends a machine, as xv6_close does: its processes go, and files that only they held. The bytes of its disk come to `out`, as many as
   there is room for; an image has as many as the one that was booted. `bytes`: how many they are. After an error it is closed, too. */
static inline uint32_t xv6_save(struct xv6_machine *machine, uint8_t *out, size_t room, size_t *bytes)
{
    uint32_t answer;
    if (xv6_is_closed(machine) || bytes == NULL || (out == NULL && room != 0)) return XV6_NULL;
    answer = xv6_raw_save(*machine, out, room, bytes);
    machine->inside = NULL;
    return answer;
}

/* ---- images in memory: no machine is needed */

/* Makes an image of the entries of a manifest, as many bytes as there is room for: 1024 a block. `bytes` has, for each entry in its turn,
   its path and, of a file, its contents. Paths begin with a slash, and a directory comes before what is in it; the first entry is inode 2.
   XV6_MAKE_.. or XV6_NO_MEMORY, and then nothing is written. */
static inline uint32_t xv6_mkfs(const struct xv6_entry *entries, size_t count, const uint8_t *bytes, size_t length, uint32_t inodes,
    uint8_t *image, size_t room)
{
    if ((entries == NULL && count != 0) || (bytes == NULL && length != 0) || (image == NULL && room != 0)) return XV6_NULL;
    return xv6_raw_mkfs(entries, count, bytes, length, inodes, image, room);
}

/* Checks an image. What it uses comes to `out`. XV6_IMAGE_.. or XV6_NO_MEMORY, and then nothing is written. */
static inline uint32_t xv6_check(const uint8_t *image, size_t length, struct xv6_summary *out)
{
    return out == NULL || (image == NULL && length != 0) ? XV6_NULL : xv6_raw_check(image, length, out);
}

/* What is free on a machine's disk, as a save would leave it now, at `out`; the machine goes on. `room` holds a saved image meanwhile: it has
   as many bytes as the image that was booted. XV6_BOOT_MEMORY, what xv6_save and xv6_check answer, or XV6_IMAGE_LENGTH where `room` is
   smaller, and then nothing is written at `out`. */
static inline uint32_t xv6_free_space(struct xv6_machine *machine, uint8_t *room, size_t length, struct xv6_space *out)
{
    struct xv6_machine copy = {NULL};
    struct xv6_summary used;
    size_t bytes;
    uint32_t answer;
    if (xv6_is_closed(machine) || room == NULL || out == NULL) return XV6_NULL;
    answer = xv6_raw_copy(machine, &copy);
    if (answer == 0) answer = xv6_save(&copy, room, length, &bytes);
    if (answer == 0) answer = xv6_raw_check(room, length < bytes ? length : bytes, &used);
    if (answer != 0) return answer;
    out->blocks = xv6_little(room + 1024 + 8, 4) - used.blocks;
    out->inodes = xv6_little(room + 1024 + 12, 4) - 1 - used.inodes;
    return 0;
}

/* Lists the directory of a path: a line for each entry, its name in 14 places, its type (1 directory, 2 file, 3 device), its number in 5
   and its size in 6, with a blank between two and a newline after the last, as `xv6 ls`. As many bytes as there is room for come to `out`.
   `count`: how many the list has. XV6_IMAGE_.., XV6_PATH_.. or XV6_NO_MEMORY, and then nothing is written. */
static inline uint32_t xv6_list(const uint8_t *image, size_t length, const uint8_t *path, size_t path_length, uint8_t *out, size_t room,
    size_t *count)
{
    if (count == NULL || (image == NULL && length != 0) || (path == NULL && path_length != 0) || (out == NULL && room != 0)) return XV6_NULL;
    return xv6_raw_list(image, length, path, path_length, out, room, count);
}

/* Reads the file of a path: as many bytes as there is room for. `count`: how many the file has. XV6_IMAGE_.., XV6_PATH_.. or
   XV6_NO_MEMORY, and then nothing is written. */
static inline uint32_t xv6_get(const uint8_t *image, size_t length, const uint8_t *path, size_t path_length, uint8_t *out, size_t room,
    size_t *count)
{
    if (count == NULL || (image == NULL && length != 0) || (path == NULL && path_length != 0) || (out == NULL && room != 0)) return XV6_NULL;
    return xv6_raw_get(image, length, path, path_length, out, room, count);
}

/* Puts a file into an image, in place: the file of the path has these bytes, and is made where there is none. All other files stay, and an
   image has as many bytes as before. XV6_IMAGE_.., XV6_PATH_.. or XV6_NO_MEMORY, and then nothing is changed. */
static inline uint32_t xv6_put(uint8_t *image, size_t length, const uint8_t *path, size_t path_length, const uint8_t *bytes, size_t count)
{
    if ((image == NULL && length != 0) || (path == NULL && path_length != 0) || (bytes == NULL && count != 0)) return XV6_NULL;
    return xv6_raw_put(image, length, path, path_length, bytes, count);
}

/* Makes of an image of the format of small files, which earlier versions wrote, one of the format in use with the same files, in place.
   XV6_IMAGE_.., XV6_MIGRATE_BLOCKS or XV6_NO_MEMORY, and then nothing is changed. */
static inline uint32_t xv6_migrate(uint8_t *image, size_t length)
{
    return image == NULL && length != 0 ? XV6_NULL : xv6_raw_migrate(image, length);
}

/* What a program's file says of an address, by its symbol table and its line numbers, as "sum+0x10 (oops.c:4)": as many bytes as there is
   room for. `count`: how many it has, 0 where the file says nothing of the address. XV6_NO_MEMORY, and then nothing is written. */
static inline uint32_t xv6_locate(const uint8_t *file, size_t length, uint64_t address, uint8_t *out, size_t room, size_t *count)
{
    if (count == NULL || (file == NULL && length != 0) || (out == NULL && room != 0)) return XV6_NULL;
    return xv6_raw_locate(file, length, address, out, room, count);
}

/* Assembles a text, as `xv6 asm`. As many bytes of the program's file as there is room for come to `out`; it has at most XV6_PROGRAM_BYTES.
   XV6_ASM_.. or XV6_NO_MEMORY, and then nothing comes to `out`, and `told` has the line. */
static inline uint32_t xv6_asm(const uint8_t *text, size_t length, uint8_t *out, size_t room, struct xv6_assembled *told)
{
    return told == NULL || (text == NULL && length != 0) || (out == NULL && room != 0) ? XV6_NULL : xv6_raw_asm(text, length, out, room, told);
}

/* Assembles a text as other assemblers take it, as `xv6 as`: the program's file comes to `out`, and a report in lines of text to `report`,
   each as many bytes as there is room for; `told` has how many they are. It includes no other files.
   0: the report has the lines that xv6_asm takes, each as "LINE ADDRESS TEXT": the line of the text that it comes of, from 1 on, or 0, and
   its address in the program, in decimal.
   XV6_AS_FAULTS: the report has all that is wrong, in the order of the text, each as "LINE COLUMN WORDS", both from 1 on; nothing comes to
   `out`. XV6_NO_MEMORY: nothing is written. */
static inline uint32_t xv6_as(const uint8_t *text, size_t length, uint8_t *out, size_t room, uint8_t *report, size_t report_room,
    struct xv6_expanded *told)
{
    if (told == NULL || (text == NULL && length != 0) || (out == NULL && room != 0) || (report == NULL && report_room != 0)) return XV6_NULL;
    return xv6_raw_as(text, length, out, room, report, report_room, told);
}

#ifdef __cplusplus
}
#endif

#endif
