# What the kernel refuses while a patch is in transition: a second patch, and the value that it has already.
run holder run 1 0 ca:w01
run caller run 0 30 b:m01
tenths 3
record refused --module /modules/klp_fix.ko --module /modules/klp_real.ko --no-syscalls --sample 0.5
load klp_fix
tenths 5
load klp_real
enabled 1 klp_fix
tenths 10
go 1
recorded
