/*
 * Runs a program so that one of its reads fails: failing FILE K PROGRAM WORD..
 *
 * The K-th time, from 1, that the program reads from FILE, by whatever call that the system has for it,
 * the call returns the error of a broken disk in place of what it read. All else is as ever. The exit
 * status is 0 if there was such a read and the program ended by itself, 3 if it made fewer reads, 4 if a
 * signal ended it, and 2 if it can't be run or watched here.
 */
#define _GNU_SOURCE
#include <errno.h>
#include <limits.h>
#include <signal.h>
#include <stdio.h>
#include <stdlib.h>
#include <string.h>
#include <sys/ptrace.h>
#include <sys/syscall.h>
#include <sys/user.h>
#include <sys/wait.h>
#include <unistd.h>

enum { FAILED = 0, USAGE = 2, FEWER_READS = 3, KILLED = 4 };

/* Whether a call reads from a file. */
static int reads(unsigned long long call) {
    return call == SYS_read || call == SYS_pread64 || call == SYS_readv || call == SYS_preadv;
}

/* Whether a descriptor of a process is that of a file, by its full name. */
static int is_file(pid_t process, unsigned long long descriptor, const char *name) {
    char link[64], target[PATH_MAX];
    snprintf(link, sizeof link, "/proc/%d/fd/%llu", (int)process, descriptor);
    ssize_t length = readlink(link, target, sizeof target - 1);
    if (length < 0) return 0;
    target[length] = 0;
    return strcmp(target, name) == 0;
}

/* Stops the program at each call of the system and behind it; returns what main returns. */
static int watch(pid_t process, const char *name, long fail_at) {
    int status, inside = 0, failed = 0;
    long seen = 0;
    if (waitpid(process, &status, 0) < 0 || !WIFSTOPPED(status)) return USAGE;
    if (ptrace(PTRACE_SETOPTIONS, process, 0, PTRACE_O_TRACESYSGOOD | PTRACE_O_EXITKILL) < 0)
        return USAGE;
    for (int signal = 0;;) {
        struct user_regs_struct registers;
        if (ptrace(PTRACE_SYSCALL, process, 0, signal) < 0) return USAGE;
        if (waitpid(process, &status, 0) < 0) return USAGE;
        if (WIFEXITED(status)) return failed ? FAILED : FEWER_READS;
        if (!WIFSTOPPED(status)) return KILLED;
        int stop = WSTOPSIG(status);
        /* a signal is passed on, but for the one that says that the program has begun */
        signal = stop == (SIGTRAP | 0x80) || stop == SIGTRAP ? 0 : stop;
        if (stop != (SIGTRAP | 0x80)) continue;
        inside = !inside;
        if (inside) continue;
        if (ptrace(PTRACE_GETREGS, process, 0, &registers) < 0) return USAGE;
        if (!reads(registers.orig_rax) || !is_file(process, registers.rdi, name)) continue;
        if (++seen != fail_at) continue;
        registers.rax = (unsigned long long)-EIO;
        if (ptrace(PTRACE_SETREGS, process, 0, &registers) < 0) return USAGE;
        failed = 1;
    }
}

int main(int count, char **words) {
    char name[PATH_MAX];
    if (count < 4 || realpath(words[1], name) == NULL) {
        fprintf(stderr, "usage: failing FILE K PROGRAM WORD..\n");
        return USAGE;
    }
    pid_t process = fork();
    if (process == 0) {
        if (ptrace(PTRACE_TRACEME, 0, 0, 0) == 0) execv(words[3], words + 3);
        _exit(127);
    }
    return process < 0 ? USAGE : watch(process, name, atol(words[2]));
}
