# The recorder is ended by each signal, at last by one that it can't catch; the next one cleans up after it.
run holder run 1 0 ca:u01
tenths 2
load klp_fix
for signal in INT TERM HUP; do
	record ended-by-$signal --until stop
	tenths 5
	recorded $signal
done
record ended-by-KILL --until stop
tenths 5
kill -KILL $REC
wait $REC
left_over ended-by-KILL
live doctor > $OUT/doctor-after-KILL.txt 2>&1
say "doctor after KILL: status $?"
sed 's/^/    /' $OUT/doctor-after-KILL.txt
left_over ended-by-KILL-and-after-doctor
record after-KILL --seconds 30
go 1
recorded
live doctor > $OUT/doctor.txt 2>&1
say "doctor: status $?"
sed 's/^/    /' $OUT/doctor.txt
