# Three patches, one on another, over tasks that fork and have threads; then taken away from the top.
run threads threads 3 30 abc:m01
run forker fork 1 0 110 cb:m01
run holder run 1 0 bc:w02
run calls calls 50
tenths 4
record stacked --module /modules/klp_fix.ko --module /modules/klp_fix2.ko --module /modules/klp_real.ko \
	--until stop --no-syscalls --sample 0.5
load klp_fix
tenths 6
go 2
settle 200
run holder run 1 0 bc:w02
tenths 2
load klp_fix2
tenths 12
go 2
settle 200
load klp_real
settle 300
enabled 0 klp_real
settle 300
tenths 3
enabled 0 klp_fix2
settle 300
tenths 5
recorded TERM
