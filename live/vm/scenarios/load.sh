# Completion under load: the kernel's own sample patch, while tasks read /proc/cmdline, fork and compute.
readers() { while :; do cat /proc/cmdline > /dev/null; usleep 50000; done; }
background readers
CPU=1 run busy run 0 60 d:s02
run forker fork 1 0 150
record load --module /modules/livepatch_sample.ko --sample 0.25
load livepatch_sample
recorded
