/* Stops a program at a system call that changes files, counted from 1. `stop kill N PROGRAM ..` kills it just before its N-th such call. `stop full N
 * PROGRAM ..` lets that call and every later one that wants space fail, as on a full disk. `stop count 0 PROGRAM ..` stops it nowhere, and says on standard error how many
 * bytes it wrote to files. Exits as the program does, with 137 where it was killed and 125 where it cannot be watched. */
#define _GNU_SOURCE
#include <errno.h>
#include <fcntl.h>
#include <signal.h>
#include <stdbool.h>
#include <stdio.h>
#include <stdlib.h>
#include <string.h>
#include <sys/ptrace.h>
#include <sys/syscall.h>
#include <sys/user.h>
#include <sys/wait.h>
#include <unistd.h>

enum { KILLED = 137, CANNOT = 125, AT_SYSTEM_CALL = 0x80 };

typedef struct user_regs_struct registers;

enum mode { KILL, FULL, COUNT, MODES };
static const char *const mode_words[MODES] = {[KILL] = "kill", [FULL] = "full", [COUNT] = "count"};

static bool wants_space(const registers *r) {
    switch (r->orig_rax) {
    case SYS_write: case SYS_writev:
        return r->rdi > STDERR_FILENO;
    case SYS_pwrite64: case SYS_mkdir: case SYS_mkdirat:
        return true;
    case SYS_fallocate:
        return (r->rsi & FALLOC_FL_PUNCH_HOLE) == 0;
    case SYS_openat:
        return (r->rdx & O_CREAT) != 0;
    }
    return false;
}

static bool changes_files(const registers *r) {
    switch (r->orig_rax) {
    case SYS_fallocate: case SYS_ftruncate: case SYS_fsync: case SYS_fdatasync: case SYS_rename: case SYS_renameat: case SYS_renameat2: case SYS_unlink:
    case SYS_unlinkat: case SYS_rmdir:
        return true;
    }
    return wants_space(r);
}

/* Goes on to where the program enters or leaves a system call, or ends; its exit code, or -1 where it goes on. */
static int go_on(pid_t program, int signal) {
    int status;
    ptrace(PTRACE_SYSCALL, program, NULL, (void *)(long)signal);
    waitpid(program, &status, 0);
    if (WIFEXITED(status))
        return WEXITSTATUS(status);
    if (WIFSIGNALED(status))
        return 128 + WTERMSIG(status);
    int stop = WSTOPSIG(status);
    if (stop == (SIGTRAP | AT_SYSTEM_CALL))
        return -1;
    return go_on(program, stop == SIGTRAP ? 0 : stop); /* the trap is that of the exec */
}

static int kill_it(pid_t program) {
    kill(program, SIGKILL);
    waitpid(program, NULL, 0);
    return KILLED;
}

/* At the entry of a call: it is not made, and answers that there is no space. The exit code, or -1. */
static int refuse_space(pid_t program, registers *r) {
    r->orig_rax = (unsigned long long)-1;
    ptrace(PTRACE_SETREGS, program, NULL, r);
    int code = go_on(program, 0);
    if (code < 0) {
        ptrace(PTRACE_GETREGS, program, NULL, r);
        r->rax = (unsigned long long)-ENOSPC;
        ptrace(PTRACE_SETREGS, program, NULL, r);
    }
    return code;
}

/* What a call that has ended wrote to a file. */
static unsigned long long bytes_written(pid_t program) {
    registers r;
    ptrace(PTRACE_GETREGS, program, NULL, &r);
    bool writes = r.orig_rax == SYS_write || r.orig_rax == SYS_writev || r.orig_rax == SYS_pwrite64;
    return writes && r.rdi > STDERR_FILENO && (long long)r.rax > 0 ? r.rax : 0;
}

static int watch(pid_t program, enum mode mode, long number) {
    registers r;
    unsigned long long bytes = 0;
    int code = -1;
    for (long count = 0; code < 0;) {
        code = go_on(program, 0); /* to the entry of a call */
        if (code >= 0)
            break;
        ptrace(PTRACE_GETREGS, program, NULL, &r);
        count += changes_files(&r);
        if (mode == KILL && count == number)
            return kill_it(program);
        bool refuses = mode == FULL && count >= number && wants_space(&r);
        code = refuses ? refuse_space(program, &r) : go_on(program, 0); /* to its end */
        if (code < 0 && mode == COUNT)
            bytes += bytes_written(program);
    }
    if (mode == COUNT)
        fprintf(stderr, "%llu\n", bytes);
    return code;
}

static enum mode mode_of(const char *word) {
    enum mode mode = KILL;
    while (mode < MODES && strcmp(word, mode_words[mode]) != 0)
        mode++;
    return mode;
}

int main(int argc, char **argv) {
    enum mode mode = argc < 4 ? MODES : mode_of(argv[1]);
    if (mode == MODES) {
        fprintf(stderr, "stop: kill, full or count, a number, and a program are wanted\n");
        return CANNOT;
    }
    pid_t program = fork();
    if (program == 0) {
        if (ptrace(PTRACE_TRACEME, 0, NULL, NULL) == 0 && raise(SIGSTOP) == 0)
            execvp(argv[3], argv + 3);
        perror("stop");
        _exit(CANNOT);
    }
    int status;
    if (program < 0 || waitpid(program, &status, 0) < 0 || !WIFSTOPPED(status) ||
        ptrace(PTRACE_SETOPTIONS, program, NULL, PTRACE_O_TRACESYSGOOD | PTRACE_O_EXITKILL) != 0) {
        perror("stop");
        return CANNOT;
    }
    return watch(program, mode, strtol(argv[2], NULL, 10));
}
