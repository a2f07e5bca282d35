#!/bin/sh
# relayd runs with two small stores; then, on the example files: which lines it passes on, what it says of a configuration, where names go.
# Each command that is shown is the one that is run, and its files are kept in bin/demo, so it can be run again.
#
#     examples/demo.sh [PROGRAM]    bin/relayd without PROGRAM
set -eu
cd "$(dirname "$0")/.."
relayd=${1:-bin/relayd}
work=bin/demo
mkdir -p "$work"

rules='--rules examples/relay-rules.conf --rewrite examples/rewrite-rules.conf --longest-name 1024'
cat > "$work/names.txt" <<END
collectd.web01_example_com.cpu-0.cpu-idle
stats.timers.api.latency.upper_90
stats.counters.api.requests.count
disk.used;host=db01;mount=/var
stats.statsd.processing_time
END

# Shows a command, and runs it. What goes to standard error is shown too, after the rest.
run() {
    echo "\$ $1"
    sh -c "$1" 2> "$work/notes" || echo "(status $?)"
    cat "$work/notes"
    rm "$work/notes"
}

echo "== a running relay with two stores, and the files of its configuration"
python3 examples/running.py "$work" "$relayd"
echo
echo "== lines that go in (^I is a tab, ^M a carriage return, \$ the end of a line)"
run "cat -A examples/metrics.txt"
echo
echo "== lines that come out, and what is noted on standard error (a blank line is no bad line)"
run "$relayd pass --explain --moment 1700000010 < examples/metrics.txt"
echo
echo "== a configuration without faults"
run "$relayd check --config examples/relay.conf $rules"
echo
echo "== one with a fault: carbon's default for USE_FLOW_CONTROL"
run "sed 's/^USE_FLOW_CONTROL.*/USE_FLOW_CONTROL = True/' examples/relay.conf > $work/faulty.conf"
run "$relayd check --explain --config $work/faulty.conf $rules"
echo
echo "== where names go by the rules: each name, its new name where rewriting changed it, and its destinations"
run "cat $work/names.txt"
run "$relayd route --config examples/relay.conf $rules --names $work/names.txt"
echo
echo "== and by the hash ring, which does not use the rules"
run "sed 's/^RELAY_METHOD.*/RELAY_METHOD = consistent-hashing/' examples/relay.conf > $work/ring.conf"
run "$relayd route --config $work/ring.conf $rules --names $work/names.txt"
echo
echo "== the lines that went in above, through a whole relay: replayed by a script"
run "od -An -v -tx1 -w4096 examples/metrics.txt | tr -d ' ' | sed 's/^/0 1700000010 /' | \\
      awk -v destinations=3 -f examples/replay-script.awk > $work/metrics.script"
echo
echo "== the store b loses its connection within a line: that line is written again, and the other stores do not notice"
awk '{ print } $0 == "take 1" && !lost { print "wrote 1 60\ndown 1\nup 1"; lost = 1 }' "$work/metrics.script" > "$work/lost.script"
run "$relayd replay --config examples/relay.conf $rules $work/lost.script > $work/replayed"
run "grep -vE '^(not now|handed)' $work/replayed"
echo "what each connection was handed, as text:"
perl -ne 'print "store $1, connection $2:\n", pack("H*", $3), "\n" if /^handed (\d+) (\d+) (.*)/' "$work/replayed"
echo
echo "== all files of this are kept in $work"
