# Whether no part of a long script takes more than a twentieth above what the first one takes: of memory beyond what was held when
# the first began, in one of these reports, and of processor time, by the least of each part over all reports (hostile/watch.c). The
# first part is also the one in which the program meets its script and its room for lines, so the last three parts may take no more
# than a tenth above the second, third and fourth. Three parts are told by the quickest of them: what grows with the steps makes each
# later part slower, and other work on the machine makes slower whichever part it meets.
function quickest(first, part, time) {
    time = least[first]
    for (part = first + 1; part < first + 3; part++) if (least[part] < time) time = least[part]
    return time
}
FNR == 1 { reports++ }
reports == 1 { start[FNR] = $1; peak[FNR] = $2 }
FNR > 1 {
    time = $3 - before
    if (!(FNR - 1 in least) || time < least[FNR - 1]) least[FNR - 1] = time
}
{ before = $3 }
END {
    for (part = 1; part <= 10; part++) {
        memory = peak[part] - start[1]
        if (part == 1) first_memory = memory
        if (memory > first_memory * 1.05 || least[part] > least[1] * 1.05) is_more = 1
        report = report sprintf("  part %d: %d bytes, %.1f ms\n", part, memory, least[part] / 1e6)
    }
    if (quickest(8) > quickest(2) * 1.1) is_more = 1
    if (is_more || first_memory <= 0) printf "%s", report
    exit is_more || first_memory <= 0
}
