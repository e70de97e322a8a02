# An enable that is turned round while a task holds it open, and turned round again, each time held open.
run holder run 1 0 ca:u01
run caller run 0 10 a:m03
in_kernel_thread cab:w03
CPU=1 run spinner run 0 0 d:s04
tenths 5
record reversal --module /modules/klp_fix.ko --until stop --all --sample 0.5
load klp_fix
tenths 5
run newcomer run 1 0 ab:u05		# born over, so it runs the new functions and holds up the way back
tenths 8
enabled 0 klp_fix
tenths 12
enabled 1 klp_fix
tenths 12
go 1
tenths 5
go 3
settle 150
go 5
tenths 3
enabled 0 klp_fix
settle 150
tenths 5
recorded TERM
