# Makes a script for `relayd replay` of captured bytes, in which each store takes all that is sent to it.
#
# A line of input has the number of a reader, a moment and bytes in hexadecimal:
#
#     0 1700000000 612e622031203220350a
#
# and these variables say more, as in `-v destinations=3`:
#
#     destinations   how many DESTINATIONS the configuration has; by default 1
#     kind           what the readers read: line (the default), pickle or datagram
#     offers         how many offers are made after a piece; without it one for each line and destination
#
# An offer or a write too many is answered `not now` and changes nothing. docs/REPLAY.md has more.

BEGIN {
    if (!destinations) destinations = 1
    if (kind == "") kind = "line"
}

# tshark of some versions writes colons between the bytes.
NF == 3 {
    gsub(":", "", $3)
    if ($1 > last) last = $1
    reader[++count] = $1
    moment[count] = int($2)
    bytes[count] = $3
}

END {
    for (r = 0; r <= last; r++) print "reader " kind
    for (d = 0; d < destinations; d++) print "up " d
    for (i = 1; i <= count; i++) {
        print "piece " reader[i] " " moment[i] " " bytes[i]
        most = offers ? offers : destinations * lines(bytes[i])
        for (n = 0; n < most; n++) print "offer " reader[i]
        for (d = 0; d < destinations; d++) send(d)
    }
}

# How many lines end in these bytes at most; the last may go on.
function lines(hex,    found, place) {
    for (place = 1; place < length(hex); place += 2) if (substr(hex, place, 2) == "0a") found++
    return found + 1
}

# A batch, all of which is written: what is more than is left is refused, so halves of halves write all, up to 16 MB.
function send(d,    n) {
    print "take " d
    for (n = 8388608; n >= 1; n /= 2) print "wrote " d " " n
}
