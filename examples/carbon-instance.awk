# Makes the configuration of one instance of carbon-relay: the keys of [relay:NAME] in the place of those of [relay]. It
# leaves out comments and all other sections.
#
#     awk -v name=NAME -f carbon-instance.awk joined.conf > relay.conf
#
# It takes a file with each list on one line (join-lines.sed). It refuses one with an indented line, which may be a part of
# a list, and one that lacks [relay] or [relay:NAME].
function refuse(why) { print "carbon-instance.awk: " why > "/dev/stderr"; refused = 1; exit 1 }
/^[#;]/ || /^[ \t\r]*$/ { next }
/^[ \t]/ { refuse("line " NR " is indented, and may continue the line above: join the lines first, with join-lines.sed") }
{ sub(/[ \t\r]+$/, "") }
/^\[/ {
    from = $0 == "[relay]" ? 1 : $0 == "[relay:" name "]" ? 2 : 0
    if (from) seen[from] = 1
    next
}
from && match($0, /[=:]/) {
    key = substr($0, 1, RSTART - 1); gsub(/[ \t]/, "", key)
    if (!(key in place)) place[key] = ++count
    if (from >= of[key]) { line[place[key]] = $0; of[key] = from }
}
END {
    if (refused) exit 1
    if (!(1 in seen)) refuse("the file has no section [relay]")
    if (!(2 in seen)) refuse("the file has no section [relay:" name "]; give -v name=NAME")
    print "[relay]"
    for (i = 1; i <= count; i++) print line[i]
}
