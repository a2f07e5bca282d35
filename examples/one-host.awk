# Prints those lines of `relayd route --names` that have two destinations on one host.
#
#     relayd route --config relay.conf --names names.txt | awk -f one-host.awk
{
    split("", seen)
    for (i = 2; i <= NF; i++) {
        split($i, part, ":")
        if (seen[part[1]]++) { print; next }
    }
}
