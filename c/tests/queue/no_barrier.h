/* Included by tests that try what the library does without the system's barrier. */
#ifndef NO_BARRIER_H
#define NO_BARRIER_H

#include "../need.h"

#include <errno.h>
#include <stddef.h>
#include <unistd.h>
#if defined(__linux__)
#include <linux/filter.h>
#include <linux/seccomp.h>
#include <sys/prctl.h>
#include <sys/syscall.h>
#endif

/* From now on the system refuses this process the barrier. */
static void refuses_the_barrier(void)
{
#if defined(SYS_membarrier) && (defined(__x86_64__) || defined(__aarch64__))
    struct sock_filter steps[] = {
        BPF_STMT(BPF_LD | BPF_W | BPF_ABS, offsetof(struct seccomp_data, nr)),
        BPF_JUMP(BPF_JMP | BPF_JEQ | BPF_K, SYS_membarrier, 0, 1),
        BPF_STMT(BPF_RET | BPF_K, SECCOMP_RET_ERRNO | EPERM),
        BPF_STMT(BPF_RET | BPF_K, SECCOMP_RET_ALLOW),
    };
    struct sock_fprog filter = {sizeof steps / sizeof *steps, steps};
    need(prctl(PR_SET_NO_NEW_PRIVS, 1, 0, 0, 0) == 0 && prctl(PR_SET_SECCOMP, SECCOMP_MODE_FILTER, &filter) == 0, "no filter");
    need(syscall(SYS_membarrier, 0, 0, 0) == -1 && errno == EPERM, "the barrier isn't refused");
#endif
}
#endif
