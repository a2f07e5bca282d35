# Makes a line for each name of what the test mode of carbon-c-relay prints: the name as it was rewritten, and its
# destinations, in the form of `relayd route --names`. A name that is only aggregated has no destination. A destination
# that gets another name, since its match is above a rewrite, is written with it, as in `servers.web1.load=10.0.0.1:2003`.
#
#     sed 's/$/ 1 2\n--- 1 2/' names.txt | carbon-c-relay -f c-relay.conf -t | awk -f c-relay-routes.awk
#
# The name --- between two names shows where the output of one ends, also where both are rewritten to the same name; it has
# no line. The script refuses an input in which the test mode has printed nothing.
function flush(    i) {
    if (given != "" && given != "---") {
        printf "%s", name
        for (i = 1; i <= count; i++) printf " %s%s", sent[i] == name ? "" : sent[i] "=", destination[i]
        print ""
    }
    count = 0
}
function look_at(new) { if (new != name) { flush(); given = name = new } }
/^(rewrite|aggregation|match)$/ { kind = $0; is_first = 1; tested = 1; next }
/^nothing matched / { tested = 1; look_at($NF); next }
!kind { next }
# A validate has two more lines: its expression beside the value and the time, and what came of it.
/^    validate$/ { of_validate = 2; next }
of_validate { of_validate--; next }
kind == "rewrite" && /into\(.*\) -> / { name = $NF; next }
/ -> / {
    if (kind == "aggregation" && !is_first) next
    is_first = 0
    look_at($NF)
    next
}
kind == "match" && /^        [^ ]+$/ { destination[++count] = $1; sent[count] = name }
END {
    flush()
    if (!tested) { print "c-relay-routes.awk: this is no output of carbon-c-relay -t" > "/dev/stderr"; exit 1 }
}
