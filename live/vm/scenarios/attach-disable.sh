# The recorder comes when a disable has been stuck; the operator then turns it round, and round again.
load klp_fix
settle 200
run uninterruptible run 1 0 ca:u02
in_kernel_thread cab:w03
CPU=1 run kspin run 0 0 d:s20
run forker fork 1 0 150 b:m01
tenths 5
enabled 0 klp_fix
tenths 15
take_picture disabling
record attach-disable --until stop --no-syscalls --sample 0.5
tenths 10
enabled 1 klp_fix
tenths 15
enabled 0 klp_fix
tenths 12
go 2
tenths 8
go 3
settle 200
tenths 5
recorded TERM
