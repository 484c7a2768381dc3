#!/usr/bin/python3
"""Makes a seccomp policy, as an array of struct sock_filter: policy.py > policy.bpf

It needs libseccomp's module of Python (in Debian python3-seccomp)."""
import sys

try:
    import seccomp
except ImportError:
    sys.exit("policy: Python has no module seccomp: in Debian the package python3-seccomp has it")

policy = seccomp.SyscallFilter(seccomp.ERRNO(1))
for name in ["read", "write", "close", "fstat", "mmap", "munmap", "brk", "rt_sigreturn", "futex", "exit_group"]:
    policy.add_rule(seccomp.ALLOW, name)
policy.add_rule(seccomp.ALLOW, "socket", seccomp.Arg(0, seccomp.EQ, 1))
policy.add_rule(seccomp.ALLOW, "lseek", seccomp.Arg(1, seccomp.LE, 1 << 33))
policy.add_rule(seccomp.ERRNO(38), "clone3")
policy.add_rule(seccomp.KILL, "ptrace")
policy.export_bpf(sys.stdout)
