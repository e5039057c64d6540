// Processes, as much of them as the C code here uses.
#ifndef UNISTD_H
#define UNISTD_H

typedef int pid_t;

pid_t fork(void);
_Noreturn void _exit(int);

#endif
