# Refuses in the text of a module for 64-bit pointers, as clang prints it, what means something else where pointers have 32 bits:
#     awk -f controller/widths/widths.awk MODULE.ll
# prints each such line with its function, and ends with status 1 if there is one. The module counts addresses in bytes and gives a pointer
# eight of them. A shorter pointer leaves half of these unused; but an aggregate in memory that holds one gets other offsets and another
# length than the module counts on. An aggregate in registers has neither, so those passed, returned, made and taken apart there may stay.

# What is wrong with a line, or nothing. Its quoted names, which may hold any word and any sign, are left out of it.
function fault(text, others, type, count, words, i) {
    if (text ~ / (inttoptr|ptrtoint|ptrtoaddr) /) return "a number from a pointer, or a pointer from a number"

    others = text
    gsub(/getelementptr (inbounds nuw )?i8, /, "", others)
    if (others ~ /getelementptr/) return "an address that is not counted in bytes"

    if (text ~ /^%.* = type /) return "a type by name, which is not looked into"
    if (text ~ /^@[^ ]* = .*ptr/) return "a constant or variable that holds a pointer"
    if (text ~ /(byref|byval|sret)\([^)]*ptr/) return "an argument in memory that holds a pointer"

    # what is allocated, loaded or stored stands before the first name of a value
    if (match(text, / (alloca|load|store) [^%@]*/)) {
        type = substr(text, RSTART, RLENGTH)
        sub(/, ptr $/, "", type)
        if (type ~ /[[{<].*ptr|alloca ptr, i/) return "an aggregate in memory that holds a pointer"
    }

    # a slot for one pointer is no longer than a pointer: whoever fills, copies or is handed it may count on eight bytes
    if (text ~ / = alloca ptr/) {
        match(text, /%[^ ]*/)
        slots[substr(text, RSTART, RLENGTH)] = 1
        return ""
    }
    if (text ~ / (load|store) ptr/) sub(/, ptr %[^ ,]*/, "", text)
    count = split(text, words, /[ ,()]+/)
    for (i = 1; i <= count; i++) if (words[i] in slots) return "a pointer's slot, which is not only loaded and stored"
    return ""
}

BEGIN {
    place = "the module"
    refused = 0
}

/^define / {
    match($0, /@("[^"]*"|[^(]*)/)
    place = substr($0, RSTART + 1, RLENGTH - 1)
    gsub(/"/, "", place)
    split("", slots)
}

{
    line = $0
    gsub(/"[^"]*"/, "", line)
    why = fault(line)
    if (why != "") {
        sub(/^ */, "")
        printf "%s:%d: in %s: %s: %s\n", FILENAME, FNR, place, why, $0
        refused = 1
    }
}

/^}/ {
    place = "the module"
}

END {
    exit refused
}
