# What recording costs: small reads and writes, forks with exec, while a patch is held open; without a recorder, and
# with each kind of recording.
rounds() {
	t0=$(uptime_now)
	dd if=/dev/zero of=/dev/null bs=1 count=200000 2>/dev/null
	t1=$(uptime_now)
	n=0; while [ $n -lt 150 ]; do /bin/busybox true; n=$((n+1)); done
	t2=$(uptime_now)
	echo "$1: 400000 system calls from $t0 to $t1, 150 forks with exec from $t1 to $t2" | tee -a $OUT/cost.txt
}
run holder run 1 0 a:u01
load klp_fix
tenths 10
rounds none
rounds none
for kind in least no-syscalls all; do
	words=--$kind
	[ $kind = least ] && words=
	record cost-$kind --until stop --buffer 65536 $words
	rounds $kind
	rounds $kind
	recorded TERM
	ls -l $OUT/cost-$kind.rec >> $OUT/cost.txt
	rm $OUT/cost-$kind.rec
done
rounds none
