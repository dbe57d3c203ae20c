/* Runs a program under ptrace, and makes chosen reads and writes of its standard streams fail or come short. It serves a program
 * that has its C library inside, before which faults.c can't stand. What it does is told by the environment (faults.h), but for
 * allocations, which it doesn't see. For one thread, on x86-64.
 *
 *   traced PROGRAM WORDS...     ends as the program ends; status 126 where it can't be traced */
#define _GNU_SOURCE
#include "faults.h"
#include <signal.h>
#include <sys/ptrace.h>
#include <sys/syscall.h>
#include <sys/user.h>
#include <sys/wait.h>

enum { CANT = 126, OF_CALL = SIGTRAP | 0x80 };

/* The call that the program is in: the length that it asked for, and what it's answered in place of the system's answer. */
static struct {
    int is_inside, is_read, is_answered;
    unsigned long long length;
    long long answer;
} call;

static void shorten(struct user_regs_struct *at, uint64_t most) {
    call.length = at->rdx;
    if (at->rdx > most)
        at->rdx = most;
}

static void answer(struct user_regs_struct *at, const struct chosen *it) {
    call.is_answered = 1;
    call.answer = -(long long)it->what;
    at->orig_rax = (unsigned long long)-1; /* no call at all */
}

static void enter(struct user_regs_struct *at) {
    call.is_read = (at->orig_rax == SYS_read && at->rdi == 0) || at->orig_rax == SYS_pread64; /* by place the input alone */
    int is_write = at->orig_rax == SYS_write && (at->rdi == 1 || at->rdi == 2);
    call.is_answered = 0;
    call.length = at->rdx;
    if (call.is_read) {
        uint64_t number = told->reads++;
        if (is_chosen(&failing_read, number))
            answer(at, &failing_read);
        else if (is_chosen(&shrink, number) && ftruncate(0, (off_t)shrink.what) != 0)
            abort();
        shorten(at, read_most);
    } else if (is_write) {
        const struct chosen *it = &failing_write[at->rdi - 1];
        if (is_chosen(it, told->writes[at->rdi - 1]++))
            answer(at, it);
        shorten(at, write_most);
    }
}

static void leave(struct user_regs_struct *at) {
    at->rdx = call.length; /* a call leaves it as it was */
    if (call.is_answered)
        at->rax = (unsigned long long)call.answer;
    if (call.is_read && (long long)at->rax > 0)
        told->bytes_read += at->rax;
}

static void step(pid_t program) {
    struct user_regs_struct at;
    if (ptrace(PTRACE_GETREGS, program, NULL, &at) != 0)
        exit(CANT);
    call.is_inside ? leave(&at) : enter(&at);
    call.is_inside = !call.is_inside;
    if (ptrace(PTRACE_SETREGS, program, NULL, &at) != 0)
        exit(CANT);
}

static void follow(pid_t program) {
    int status, with = 0;
    while (ptrace(PTRACE_SYSCALL, program, NULL, (void *)(long)with) == 0 && waitpid(program, &status, 0) == program) {
        with = 0;
        if (WIFEXITED(status))
            exit(WEXITSTATUS(status));
        if (WIFSIGNALED(status)) {
            signal(WTERMSIG(status), SIG_DFL);
            raise(WTERMSIG(status));
        }
        if (WSTOPSIG(status) == OF_CALL)
            step(program);
        else if (WSTOPSIG(status) != SIGTRAP) /* that of exec */
            with = WSTOPSIG(status);
    }
    exit(CANT);
}

int main(int count, char **words) {
    int status;
    choose_all();
    pid_t program = count > 1 ? fork() : -1;
    if (program == 0) {
        if (ptrace(PTRACE_TRACEME, 0, NULL, NULL) == 0)
            execv(words[1], words + 1);
        _exit(CANT);
    }
    if (program < 0 || waitpid(program, &status, 0) != program || !WIFSTOPPED(status))
        return CANT;
    if (ptrace(PTRACE_SETOPTIONS, program, NULL, (void *)(PTRACE_O_TRACESYSGOOD | PTRACE_O_EXITKILL)) != 0)
        return CANT;
    follow(program);
}
