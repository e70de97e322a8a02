# Tasks that hold the patch open and are killed, stopped and continued, or stay as zombies.
run killed run 1 0 ca:w01
run stopped run 1 0 ab:w02
run spared run 1 0 b:u04
run parent zombie
run leaver onclose a:m02
tenths 4
record fates --module /modules/klp_fix.ko --all --sample 0.5
load klp_fix
tenths 10
kill -KILL $P_killed
tenths 6
kill -STOP $P_stopped
tenths 12
kill -CONT $P_stopped
go 4
recorded
