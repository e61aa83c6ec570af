/* Closes no end: it ends soon enough. */
#include "kernel/types.h"
#include "kernel/stat.h"
#include "user/user.h"

int
main(int argc, char *argv[])
{
  int p1[2], p2[2], pid;
  char buf[5];

  pipe(p1);
  pipe(p2);
  pid = fork();
  if (pid == 0) {
    read(p1[0], buf, 4);
    printf("%d: received ping\n", getpid());
    write(p2[1], "pong", 4);
  } else {
    write(p1[1], "ping", 4);
    read(p2[0], buf, 4);
    printf("%d: received pong\n", getpid());
    wait((int *)0);
  }
  exit(0);
}
