# As sleepers, with the scheduler's switches and the calls of the functions recorded, but no system calls.
sleepers
record no-syscalls --module /modules/klp_real.ko --sample 0.5 --no-syscalls
load klp_real
( echo x | cat; sleep 3 ) | cat > /dev/null &
tenths 20
echo hello >&5
tenths 10
kill $P_pauser
tenths 8
kill $P_threads
recorded
