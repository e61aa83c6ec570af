# A function for each call of the kernel: its number goes to a7, the answer comes in a0, and no other register changes.
#include "kernel/syscall.h"

        .macro  kernel function, number
        .section .text.\function, "ax"
        .globl  \function
\function:
        li      a7, \number
        ecall
        ret
        .endm

        kernel  fork, SYS_fork
        kernel  exit, SYS_exit
        kernel  wait, SYS_wait
        kernel  pipe, SYS_pipe
        kernel  read, SYS_read
        kernel  kill, SYS_kill
        kernel  exec, SYS_exec
        kernel  fstat, SYS_fstat
        kernel  chdir, SYS_chdir
        kernel  dup, SYS_dup
        kernel  getpid, SYS_getpid
        kernel  sbrk, SYS_sbrk
        kernel  sleep, SYS_sleep
        kernel  pause, SYS_sleep
        kernel  uptime, SYS_uptime
        kernel  open, SYS_open
        kernel  write, SYS_write
        kernel  mknod, SYS_mknod
        kernel  unlink, SYS_unlink
        kernel  link, SYS_link
        kernel  mkdir, SYS_mkdir
        kernel  close, SYS_close
