# A kernel thread that doesn't sleep: first in a patched function, then there with cond_resched, then outside of it with
# cond_resched.  Before Linux 6.4 a walk alone can move it, and finds it busy; from then on it checks itself.
run caller run 0 40 a:m01
tenths 2
record kernel-thread --module /modules/klp_fix.ko --no-syscalls --sample 0.5
in_kernel_thread ca:s15,ca:r10,c:r25
load klp_fix
recorded
