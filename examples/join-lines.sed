# Joins the lines of a list that carbon.conf or relay-rules.conf has in several lines, for `sed -E -f`. carbon adds an
# indented line to the value above it; relayd reads each line by itself. Comments and empty lines are left out, since they
# may be between the lines of a list.
#
#     sed -E -f join-lines.sed carbon.conf > relay.conf
#
# It joins every indented line to the one above it: if a file indents all its keys, join its lists by hand.
/^[[:space:]]*([#;]|$)/d
:next
$!{
N
/\n[[:space:]]*([#;][^\n]*)?$/{
s/\n[^\n]*$//
b next
}
/\n[[:space:]]/{
s/\n[[:space:]]+/ /
b next
}
}
P
D
