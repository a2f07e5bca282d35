# Gives tagged names the destinations that carbon-c-relay has for the part before their tags, which alone it routes by.
#
#     .. | awk -f c-relay-routes.awk | awk -f c-relay-tags.awk - names.txt
#
# It takes lines of destinations, one for each name without tags, and the names with their tags. It refuses a name of
# which the first has no line.
NR == FNR { name = $1; sub(/^[^ ]+/, ""); to[name] = $0; next }
{
    name = $0; sub(/;.*/, "", name)
    if (!(name in to)) { print "c-relay-tags.awk: no line for " name > "/dev/stderr"; exit 1 }
    print $0 to[name]
}
