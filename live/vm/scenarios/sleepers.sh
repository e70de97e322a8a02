# Tasks that sleep in pipe_read and in pause(2) hold the patch open until somebody wakes them.
sleepers
record sleepers --module /modules/klp_real.ko --sample 0.5
load klp_real
( echo x | cat; sleep 3 ) | cat > /dev/null &
tenths 30
echo hello >&5
tenths 10
kill $P_pauser
tenths 12
kill $P_threads
recorded
