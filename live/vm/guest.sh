# What the scenarios use.  Each scenario runs in a shell of its own, with klp_box loaded and no patch.
ROOM=/room		# in memory: /init mounts it
OUT=$ROOM/out
uptime_now() { cut -d' ' -f1 /proc/uptime; }
tenths() { usleep ${1}00000; }
say() { echo "  $*"; }

run() {		# NAME WORDS..: starts a task of that name; its pid is then in P_NAME
	workload "$@" & eval "P_$1=$!"
	echo $! >> $ROOM/started
}
background() {	# COMMAND..: the same for any command; its pid is then in PID
	"$@" & PID=$!
	echo $! >> $ROOM/started
}
read_a_pipe() {		# a task sleeps in pipe_read until somebody writes to descriptor 5
	mkfifo $ROOM/pipe
	background cat $ROOM/pipe > /dev/null
	exec 5> $ROOM/pipe
}
sleepers() {		# tasks that sleep in pipe_read and in pause(2), beside some that run
	read_a_pipe
	CPU=1 run spin spin
	run pauser zombie
	run threads threads 2 40 c:m01
	run calls calls 70
	tenths 5
}
go() { echo "$1" > /proc/klpbox/go; }		# those who wait for this key go on
in_kernel_thread() { echo "$1" > /proc/klpbox/kth; }
load() { insmod /modules/$1.ko || say "load $1: status $?"; }
enabled() { echo "$1" > /sys/kernel/livepatch/$2/enabled || say "enabled $2 $1: status $?"; }
moving() { grep -q 1 /sys/kernel/livepatch/*/transition 2>/dev/null; }
settle() {	# TENTHS: until no patch is in transition, or so long
	n=0
	while [ $n -lt "$1" ] && moving; do usleep 100000; n=$((n+1)); done
	! moving
}

live() { python3 -S -E /bin/lpt-live "$@"; }
record() {	# LABEL WORDS..: starts the recorder, and waits until it records
	label=$1; shift
	python3 -S -E /bin/lpt-live record -o $OUT/$label.rec "$@" > $OUT/$label.err 2>&1 &
	REC=$!			# of the recorder itself, not of a shell around it, as signals go to it
	while ! grep -q '^lpt-live: recording' $OUT/$label.err; do
		kill -0 $REC 2>/dev/null || break
		usleep 100000
	done
}
recorded() {	# [SIGNAL]: waits for the recorder's end, or asks for it
	[ -n "$1" ] && kill -$1 $REC
	wait $REC
	say "recorder of $label: status $?"
	sed 's/^/    /' $OUT/$label.err
	left_over $label
}
left_over() {	# what a recorder left behind in the kernel: nothing, or it is named
	left=$(grep -c lpt_live /sys/kernel/tracing/kprobe_events)
	[ -d /sys/kernel/tracing/instances/lpt_live ] && left="$left and its instance"
	echo "$1: probes left behind: $left" | tee -a $OUT/$scenario.left
}

take_picture() {	# what /proc and /sys show of the tasks and patches at this moment, as a folder of files
	to=$ROOM/picture
	mkdir -p $to
	for f in /proc/[0-9]*/task/[0-9]*; do
		mkdir -p $to$f
		for each in stat stack patch_state; do cat $f/$each > $to$f/$each; done
	done 2>/dev/null
	for f in $(find /sys/kernel/livepatch -type f); do mkdir -p $to${f%/*}; cat $f > $to$f; done 2>/dev/null
	for d in $(find /sys/kernel/livepatch -type d); do mkdir -p $to$d; done
	mkdir -p $to/proc/self
	for f in /proc/modules /proc/version /proc/self/stack /proc/self/patch_state; do cat $f > $to$f; done
	grep -E 'sys_pause|pipe_read|box_|klp_' /proc/kallsyms > $to/proc/kallsyms
	tar -czf $OUT/$1.tar.gz -C $to .
	rm -rf $to
}

clean() {	# the state that each scenario begins with
	for k in 1 2 3 4 5 6 7 8 9; do go $k; done
	for p in $(cat $ROOM/started 2>/dev/null); do kill -CONT $p; kill -KILL $p; done 2>/dev/null
	rm -f $ROOM/started $ROOM/pipe
	settle 100
	for patch in klp_real klp_fix2 klp_fix livepatch_sample; do
		grep -q "^$patch " /proc/modules || continue
		if [ -d /sys/kernel/livepatch/$patch ]; then	# it goes away once the patch is disabled
			enabled 0 $patch
			settle 200 || say "$patch is still in transition"
		fi
		n=0
		while ! rmmod $patch 2>/dev/null && [ $n -lt 30 ]; do usleep 100000; n=$((n+1)); done
		grep -q "^$patch " /proc/modules && say "$patch stays loaded"
	done
}

send_files() {
	for f in $OUT/*; do
		[ -f "$f" ] || continue
		echo "FILE ${f##*/}"
		base64 "$f"
		echo "DONE"
	done > /dev/ttyS1
}
