# The recorder comes when the enable has been stuck for seconds: a task that no signal wakes holds it, and a kernel thread.
load klp_real
settle 200
run holder run 1 0 ca:u02
in_kernel_thread cab:w03
CPU=1 run spin spin
run calls calls 70
run threads threads 2 40 b:m01
tenths 5
load klp_fix
tenths 8
record attach-enable --sample 0.5 --seconds 120
tenths 15
go 2
tenths 12
go 3
recorded
