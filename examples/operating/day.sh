#!/bin/sh
# day.sh FOLDER: clears day.csv, of day.desk if it is there; with status 0, results.txt may be published
trap 'trap "" HUP INT TERM; exec 2>&-; kill $!; sleep .2; kill $!; wait; exit 10' HUP INT TERM
run() { "$@" < day.csv & wait $!; }  # a step that a signal ends
[ "$1" ] && CDPATH= cd -- "$1/" && ! [ -p lock -o -p day.csv -o -p day.desk ] && command exec 9>> lock || exit 10
flock -n 9 || { [ $? = 1 ] || exit 10; echo "$1: another run has the lock" >&2; exit 75; }
(trap "" HUP INT TERM; rm -rf new results.txt replies.txt) && mkdir new || exit 10
if [ -e day.desk ] || [ -L day.desk ]; then
    dam-desk --journal day.desk > new/day.csv & wait $! || { echo "desk: $?"; exit 10; }
    [ -s new/day.csv ] && mv new/day.csv . || { echo "no journal"; exit 10; }
fi
run dam-lint day.csv  # status 1: refused commands; 7: faults
run dam replay > new/replies.txt || { echo "replay: $?"; exit 10; }
run prlimit --as=268435456 timeout 600 dam clear > new/results.txt || { echo "clear: $?"; exit 10; }
run dam-audit --best day.csv new/results.txt || { echo "audit: $?"; exit 20; }
trap "" HUP INT TERM
mv new/replies.txt . && mv new/results.txt . && rmdir new || exit 10
