# Tasks that are preempted in calls through a pointer, deep in a patched function: with preempt=full,
# Linux 6.1 took such a stack for reliable and didn't see the function.  They begin after the recorder: the calls of a
# task that was on a CPU as the recording began aren't known.
record thunk --module /modules/klp_fix.ko --no-syscalls --sample 0.5 --seconds 120
CPU=1 run loop1 run 0 0 a:t70
CPU=1 run loop2 run 0 0 a:t80
CPU=0 run loop3 run 0 0 ca:t90
CPU=0 run loop4 run 0 0 cab:t90
tenths 3
load klp_fix
recorded
