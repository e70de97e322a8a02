# Everything recorded: a sleeper in the patched functions, and tasks that call them all the while.
run holder run 1 0 ca:w01
CPU=1 run busy run 0 150 a:s01 db:s01
run threads threads 2 100 ab:m01
run forker fork 1 0 300 b:m01
tenths 5
record all --module /modules/klp_fix.ko --all --sample 0.5
load klp_fix
tenths 15
go 1
recorded
