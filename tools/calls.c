/* Runs a program and watches its calls of the system in one folder: it makes files, writes them, and syncs them and the folder.

       calls FOLDER RECORD HOW NUMBER PROGRAM WORD..

   FOLDER is a whole path without links. RECORD gets a line for each call that was made, and for each reply:

       make NAME | write NAME AT BYTES | sync NAME | lost NAME | reply BYTES

   with bytes in hexadecimal digits and the name `.` for the folder itself. HOW is `run`; or `before`, `half` or `after`: the program is killed
   there, at its call of that number, counted from 1, `half` in a write of which half is made; or `fail`: its sync of that number is not made
   and answers EIO, which is `lost` in the record. It ends with the status of the program, with 137 where it was killed, and with 120 where the
   program made a call that is not known here. */
#define _GNU_SOURCE
#include <errno.h>
#include <fcntl.h>
#include <linux/filter.h>
#include <linux/seccomp.h>
#include <signal.h>
#include <stddef.h>
#include <stdio.h>
#include <stdlib.h>
#include <string.h>
#include <sys/prctl.h>
#include <sys/ptrace.h>
#include <sys/syscall.h>
#include <sys/uio.h>
#include <sys/user.h>
#include <sys/wait.h>
#include <unistd.h>

#ifndef __x86_64__
#error "the registers of this processor are not known"
#endif

enum { KILLED = 137, UNKNOWN = 120 };

/* The calls that stop the program; those after fdatasync change files in ways that are not watched. */
static const int stopping[] = {
    SYS_openat, SYS_write, SYS_pwrite64, SYS_fsync, SYS_fdatasync,
    SYS_open, SYS_creat, SYS_writev, SYS_pwritev, SYS_pwritev2, SYS_truncate, SYS_ftruncate, SYS_fallocate, SYS_rename, SYS_renameat,
    SYS_renameat2, SYS_unlink, SYS_unlinkat, SYS_link, SYS_linkat, SYS_symlink, SYS_symlinkat, SYS_mkdir, SYS_mkdirat, SYS_rmdir, SYS_sync,
    SYS_syncfs, SYS_sync_file_range, SYS_copy_file_range, SYS_sendfile, SYS_splice, SYS_fork, SYS_vfork, SYS_clone, SYS_clone3,
};
enum { STOPPING = sizeof stopping / sizeof stopping[0] };

static const char *folder, *how;
static unsigned long number, calls, syncs;
static FILE *record;
static pid_t child;

static void fail(const char *what) {
    fprintf(stderr, "calls: %s: %s\n", what, strerror(errno));
    exit(UNKNOWN);
}

/* In the child: each of these calls stops it, and no other one does. */
static void stop_at_calls(void) {
    struct sock_filter filter[STOPPING + 3];
    filter[0] = (struct sock_filter)BPF_STMT(BPF_LD | BPF_W | BPF_ABS, offsetof(struct seccomp_data, nr));
    for (int i = 0; i < STOPPING; i++)
        filter[i + 1] = (struct sock_filter)BPF_JUMP(BPF_JMP | BPF_JEQ | BPF_K, stopping[i], STOPPING - i, 0);
    filter[STOPPING + 1] = (struct sock_filter)BPF_STMT(BPF_RET | BPF_K, SECCOMP_RET_ALLOW);
    filter[STOPPING + 2] = (struct sock_filter)BPF_STMT(BPF_RET | BPF_K, SECCOMP_RET_TRACE);
    struct sock_fprog all = {STOPPING + 3, filter};
    if (prctl(PR_SET_NO_NEW_PRIVS, 1, 0, 0, 0) || prctl(PR_SET_SECCOMP, SECCOMP_MODE_FILTER, &all)) fail("seccomp");
}

/* The name in the folder of what is open there, `.` for the folder, or none. */
static const char *name_of(int descriptor) {
    static char path[4096];
    char link[64];
    size_t front = strlen(folder);
    snprintf(link, sizeof link, "/proc/%d/fd/%d", (int)child, descriptor);
    ssize_t length = readlink(link, path, sizeof path - 1);
    if (length < 0) return NULL;
    path[length] = 0;
    if (strncmp(path, folder, front)) return NULL;
    if (!path[front]) return ".";
    return path[front] == '/' ? path + front + 1 : NULL;
}

static void note_bytes(unsigned long long at, size_t length) {
    static unsigned char bytes[1 << 20];
    while (length > 0) {
        size_t part = length < sizeof bytes ? length : sizeof bytes;
        struct iovec here = {bytes, part}, there = {(void *)at, part};
        if (process_vm_readv(child, &here, 1, &there, 1, 0) != (ssize_t)part) fail("reading the program's memory");
        for (size_t i = 0; i < part; i++) fprintf(record, "%02x", bytes[i]);
        at += part;
        length -= part;
    }
}

static void end(int status) {
    fclose(record);
    exit(status);
}

static void kill_child(void) {
    kill(child, SIGKILL);
    waitpid(child, NULL, __WALL);
    end(KILLED);
}

static struct user_regs_struct registers(void) {
    struct user_regs_struct all;
    if (ptrace(PTRACE_GETREGS, child, 0, &all)) fail("the program's registers");
    return all;
}

static void set_registers(struct user_regs_struct all) {
    if (ptrace(PTRACE_SETREGS, child, 0, &all)) fail("the program's registers");
}

/* Lets the program go on to the end of the call at which it stands, and gives what the call answers. */
static long long answer(void) {
    int status;
    ptrace(PTRACE_SYSCALL, child, 0, 0);
    if (waitpid(child, &status, __WALL) != child || !WIFSTOPPED(status)) fail("the end of a call");
    return (long long)registers().rax;
}

/* The program stands at a call that changes the folder or syncs something of it. */
static void handle(struct user_regs_struct at, const char *name) {
    int is_sync = at.orig_rax == SYS_fsync || at.orig_rax == SYS_fdatasync;
    int is_here = ++calls == number && strcmp(how, "run") && strcmp(how, "fail");
    int is_failing = is_sync && ++syncs == number && !strcmp(how, "fail");
    struct user_regs_struct asked = at;
    char kept[4096];
    snprintf(kept, sizeof kept, "%s", name ? name : "");
    if (is_here && !strcmp(how, "half") && at.orig_rax == SYS_pwrite64) asked.rdx /= 2;
    if (is_here && !strcmp(how, "before")) asked.orig_rax = -1;
    if (is_failing) asked.orig_rax = -1;
    set_registers(asked);
    if (is_here && !strcmp(how, "before")) kill_child();
    long long got = answer();
    if (is_failing) {
        asked = registers();
        asked.rax = -EIO;
        set_registers(asked);
        fprintf(record, "lost %s\n", kept);
    } else if (got >= 0 && is_sync) {
        fprintf(record, "sync %s\n", kept);
    } else if (got >= 0 && at.orig_rax == SYS_openat) {
        const char *made = name_of((int)got);
        if (made) fprintf(record, "make %s\n", made);
    } else if (got > 0) {
        fprintf(record, "write %s %llu ", kept, at.r10);
        note_bytes(at.rsi, (size_t)got);
        fputc('\n', record);
    }
    if (is_here) kill_child();
}

/* The program stands at one of the calls at which it stops. */
static void look(void) {
    struct user_regs_struct at = registers();
    const char *name;
    switch (at.orig_rax) {
        case SYS_openat:
            if (at.rdx & O_TRUNC) break;
            if (at.rdx & O_CREAT) handle(at, NULL);
            return;
        case SYS_write:
            if (name_of((int)at.rdi)) break;
            if (at.rdi == 1) {
                fputs("reply ", record);
                note_bytes(at.rsi, at.rdx);
                fputc('\n', record);
            }
            return;
        case SYS_pwrite64:
        case SYS_fsync:
        case SYS_fdatasync:
            name = name_of((int)at.rdi);
            if (name) handle(at, name);
            return;
    }
    fprintf(stderr, "calls: the program makes the call %lld, of which this test knows nothing\n", (long long)at.orig_rax);
    end(UNKNOWN);
}

int main(int count, char **words) {
    int status;
    if (count < 6) return UNKNOWN;
    folder = words[1];
    how = words[3];
    number = strtoul(words[4], NULL, 10);
    record = fopen(words[2], "w");
    if (!record) fail(words[2]);
    child = fork();
    if (child < 0) fail("fork");
    if (child == 0) {
        ptrace(PTRACE_TRACEME, 0, 0, 0);
        raise(SIGSTOP);
        stop_at_calls();
        execv(words[5], words + 5);
        fail(words[5]);
    }
    if (waitpid(child, &status, __WALL) != child) fail("waiting");
    if (ptrace(PTRACE_SETOPTIONS, child, 0, PTRACE_O_EXITKILL | PTRACE_O_TRACESECCOMP | PTRACE_O_TRACESYSGOOD)) fail("ptrace");
    for (int signal = 0;;) {
        ptrace(PTRACE_CONT, child, 0, signal);
        if (waitpid(child, &status, __WALL) != child) fail("waiting");
        if (WIFEXITED(status)) end(WEXITSTATUS(status));
        if (WIFSIGNALED(status)) end(128 + WTERMSIG(status));
        signal = WSTOPSIG(status);
        if (status >> 8 == (SIGTRAP | PTRACE_EVENT_SECCOMP << 8)) {
            look();
            signal = 0;
        } else if (signal == SIGTRAP) {
            signal = 0;
        }
    }
}
