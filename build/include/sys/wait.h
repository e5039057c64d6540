// How another process ended, as much of it as the C code here uses.
#ifndef SYS_WAIT_H
#define SYS_WAIT_H

#include <unistd.h>

pid_t waitpid(pid_t, int *, int);

#endif
