# Reads a module as text and prints each line that would mean something else where a pointer has 32 bits: a pointer
# taken as a number or a number as a pointer, a place that holds both or is used in part, a struct with a pointer
# inside, an alignment left to the layout, a copy whose length isn't a constant. Exits with 1 where there is one. The
# bits of a double are 64 anywhere.
function bad(why) {
    print "line " NR ", " why ": " $0
    found = 1
}
# Place p holds a pointer (kind 1) or something else (kind 2).
function holds(p, kind) {
    if ((p in held) && held[p] != kind) bad("a place of a pointer and of a number")
    held[p] = kind
}
/^define/ { split("", whole); split("", held) }
# A type with a name could hide a pointer.
/^%[^ ]+ = type / { bad("a named type") }
!/^  / { next }
/ = bitcast double [^ ]+ to i64$/ { next }
/ (ptrtoint|inttoptr|bitcast|addrspacecast|asm|volatile|atomic) / { bad("a pointer as a number, or unknown") }
/^  (%[^ ]+ = )?(load|store|alloca) / && !/, align [0-9]/ { bad("no alignment") }
/@llvm\.mem/ && !/, i64 [0-9]+, i1 false\)$/ { bad("no constant length") }
# A slice's, pointer and length, lie alike.
/ (load|store) [{<[][^%]*ptr[^%]*[}>\]]/ && !/ = load { ptr, i64 }, ptr / { bad("a struct with a pointer inside") }
/ = alloca ptr, align / { whole[$1] = 1; pointers++; next }
{ words = split($0, word, /[ ,()]+/) }
word[2] == "store" { holds(word[6], word[3] == "ptr" ? 1 : 2); next }
word[4] == "load" { holds(word[7], word[5] == "ptr" ? 1 : 2); next }
{
    for (k = 2; k <= words; k++)
        if (word[k] in whole) bad("a pointer's place not as a whole")
}
END { if (!pointers) { print "no module"; found = 1 } exit found }
