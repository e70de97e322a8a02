# The recording ends while two tasks still hold the patch open.
read_a_pipe
run pauser zombie
run inC run 1 0 c:w01
tenths 5
record open --module /modules/klp_real.ko --seconds 8 --sample 0.5
load klp_real
recorded
