# `now` without a recorder: a task that no signal wakes, a kernel thread, and tasks that come and go.
run holder run 1 0 ca:u02
in_kernel_thread cab:w03
CPU=1 run spin spin
run calls calls 70
tenths 5
load klp_fix
tenths 12
live now --trace $OUT/now.lptrace > $OUT/now.txt 2>&1
sed 's/^/    /' $OUT/now.txt
take_picture waiting
go 2
go 3
settle 200
live now
