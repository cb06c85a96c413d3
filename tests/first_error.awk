# What the log of a check says first of what is not proved: a goal of the code that is false at some values; where it names none, the first
# error of a proof file; where there is none, the first goal that was not proved. Hints are left out, and so is how far two types are printed
# alike, where it also says in what they differ once computed.
{ line[NR] = $0 }
function boundary(s) { return s ~ /: (error|note)/ || s ~ /^(note|help|rt|fn|struct|enum|logic|library|statements|crate|checked)[: ]/ }
function hint(s) {
    return s ~ / do(es)? not unfold here| computes? no further|shown computed|^  here `\?|^  the `_` at |^  `grind` with |^  the goal has names of |^  names you can use|^  \|/
}
function find(pattern,    i) {
    for (i = 1; i <= NR && line[i] !~ pattern; i++) ;
    return i <= NR ? i : 0
}
function show(i,    last, computed) {
    for (last = i; last < NR && !boundary(line[last + 1]); last++) ;
    for (computed = last; computed > i && line[computed] !~ /^  computed as far as they go/; computed--) ;
    if (computed > i) {
        sub(/ as printed, the two (types|sides) .*/, "", line[i])
        print line[i]
        i = computed
    }
    for (; i <= last; i++) {
        sub(/ It read [0-9]+ hypothes.*/, "", line[i])
        if (!hint(line[i])) print line[i]
    }
}
# a goal of the code, and the line that says what it must prove
function show_goal(i,    goal) {
    show(i)
    match(line[i], /`[^`]*`\)/)
    goal = substr(line[i], RSTART, RLENGTH - 1)
    for (i++; i <= NR && index(line[i], "note: " goal " of ") != 1; i++) ;
    if (i > NR) return
    sub(/ of [^ ]* must prove/, " must prove", line[i])
    show(i)
}
END {
    if (i = find("it is not proved that .*values at which this goal is false")) show_goal(i)
    else if (i = find(": error")) show(i)
    else if (i = find("it is not proved that ")) show_goal(i)
}
