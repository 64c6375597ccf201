# Adds up the changes that `recorder trace` tells, and prints the memories that they make as `recorder watch` does.

# The words behind "block 5", "cells 4 to 6": first and last are the numbers, and what follows is left in the line.
function take_range(    is_many) {
    is_many = $1 ~ /s$/
    first = $2
    last = is_many ? $4 : $2
    sub("^ *[a-z]+ [0-9]+ " (is_many ? "to [0-9]+ " : ""), "")
}

function fail(words) {
    print "replay: " words
    exit 1
}

function make(memory, fresh,    name, at) {
    name = first
    if ((memory, name) in state)
        fail("block " name " is made twice")
    state[memory, name] = $NF ~ /^f/ ? "live and " ($NF == "fixed" ? "fixed" : "freeable") : "live"
    start[memory, name] = $6 + 0
    size[memory, name] = $2
    for (at = $6 + 0; at < $6 + $2; at++)
        held[memory, at] = fresh
}

function end_blocks(memory,    name) {
    for (name = first; name <= last; name++)
        state[memory, name] = "dead"
}

function print_units(memory, unit, name,    at, next_at, end) {
    end = start[memory, name] + size[memory, name]
    for (at = start[memory, name]; at < end; at = next_at) {
        for (next_at = at + 1; next_at < end && held[memory, next_at] == held[memory, at];)
            next_at++
        print "    " unit (next_at == at + 1 ? " " at : "s " at " to " next_at - 1) ": " held[memory, at]
    }
}

function print_memory(memory, title, unit,    name, names, from) {
    print title
    for (name = 1; name <= 4095; name++)
        if (state[memory, name] ~ /^live/) {
            print "  block " name ": " state[memory, name]
            print_units(memory, unit, name)
        }
    for (name = 1; name <= 4095; name++)
        if (state[memory, name] == "dead") {
            for (from = name; state[memory, name + 1] == "dead";)
                name++
            names = names (names == "" ? "" : ", ") from (from == name ? "" : " to " name)
        }
    print "  dead names: " (names == "" ? "none" : names)
}

/^watched run/ {
    print_memory("execution", "execution memory", "cell")
    print_memory("observation", "observation memory", "mark")
    exit
}
/^    block/ {
    take_range()
    if (/^made:/)
        make("execution", "undefined")
    else if (/^recorded:/)
        make("observation", "not initialised")
    else
        end_blocks(/ended$/ ? "execution" : "observation")
}
/^    cell/ {
    take_range()
    sub(/^\([^)]*\): /, "")
    split($0, sides, " -> ")
    for (at = first; at <= last; at++) {
        if (held["execution", at] != sides[1])
            fail("cell " at " holds " held["execution", at] ", not " sides[1])
        held["execution", at] = sides[2]
    }
}
/^    mark/ {
    take_range()
    for (at = first; at <= last; at++)
        held["observation", at] = "initialised"
}
