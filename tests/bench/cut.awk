# A plan file of 20 terminals cut to twelve: the source, which becomes terminal 0, and the eleven numbers after it (0 follows
# 19), with the links among them, f if it is below twelve, else 11, and of each group its members among them.
function number(digits,    i, n) {
    n = 0
    for (i = 1; i <= length(digits); i++) n = n * 16 + index("0123456789abcdef", substr(digits, i, 1)) - 1
    return n
}
function renamed(terminal) { return (terminal - source + 20) % 20 }
/^01/ {
    source = number(substr($0, 5, 2))
    f = substr($0, 7, 2)
    print "010c00" (f != "ff" && number(f) > 11 ? "0b" : f)
}
/^02/ {
    from = renamed(number(substr($0, 3, 2)))
    to = renamed(number(substr($0, 5, 2)))
    if (from < 12 && to < 12) printf "02%02x%02x\n", from, to
}
/^07/ {
    group = number(substr($0, 3, 6))
    members = 0
    for (i = 0; i < 20; i++) if (int(group / 2 ^ i) % 2 && renamed(i) < 12) members += 2 ^ renamed(i)
    printf "07%06x\n", members
}
