#!/bin/sh
# Makes the records of the slot cases beside this file, field by field. Numbers are little-endian.
set -eu
cd "$(dirname "$0")"

load=0 store=1
memory=0

# A number in one, two or four bytes.
one() { printf "\\$(printf %03o "$1")"; }
two() { one $(($1 % 256)); one $(($1 / 256)); }
four() { two $(($1 % 65536)); two $(($1 / 65536)); }

# Entries: an event (processor, kind, index, place, value), a locked instruction (processor, index), an initial value.
event() { one "$1"; one "$2"; two "$3"; four "$4"; four "$5"; }
lock() { one "$1"; one 0; two "$2"; }
initial() { one "$1"; one "$2"; two 0; four "$3"; four "$4"; }

# A count, then so many events or entry numbers; a count, then so many pairs.
numbers() { two $#; for number; do one "$number"; done; }
pairs() { two $(($# / 2)); for number; do one "$number"; done; }

# Sections 0 to 3 of S1.
s1_events() {
    one 1
    one 2
    two 4
    event 0 $store 0 100 1
    event 0 $load 1 200 0
    event 1 $store 0 200 1
    event 1 $load 1 100 0
    pairs
}

# Section 5 of S1: both addresses hold 0.
s1_initial() {
    two 2
    initial 0 $memory 100 0
    initial 0 $memory 200 0
}

# S1 up to section 5; S2 too, with both stores locked.
s1() { s1_events; two 0; s1_initial; }
s2() { s1_events; two 2; lock 0 0; lock 1 0; s1_initial; }

# One processor stores 64 or more times, the first $2 instructions locked.
stores() {
    one 1
    one 1
    two "$1"
    for i in $(seq 0 $(($1 - 1))); do event 0 $store "$i" $((4 * i)) 1; done
    pairs
    two "$2"
    for i in $(seq 0 $(($2 - 1))); do lock 0 "$i"; done
    two 0
    numbers $(seq 0 $(($1 - 1)))
    numbers $(seq 0 $(($2 - 1)))
    pairs
    two 1
    numbers $(seq 0 $(($1 - 1)))
}

# Sections 6 to 9: store order, locked order, reads-from, the views.
{ s1; numbers 0 2; numbers; pairs; two 2; numbers 0 1 2; numbers 2 3 0; } >s1.bin
{ s1; numbers 0 2; numbers; pairs; two 2; numbers 1 0 2; numbers 2 3 0; } >s1-load-first.bin
{ s1; numbers 0 2; numbers; pairs; two 2; numbers 0 1; numbers 2 3 0; } >s1-view-short.bin
{ s1; numbers 0; numbers; pairs; two 2; numbers 0 1 2; numbers 2 3 0; } >s1-store-missing.bin
{ s1; numbers 0 2; numbers; pairs 0 3; two 2; numbers 0 1 2; numbers 2 3 0; } >s1-source.bin
{ s2; numbers 0 2; numbers 0 1; pairs; two 2; numbers 0 1 2; numbers 2 3 0; } >s2.bin
{ s2; numbers 0 2; numbers 0 1; pairs; two 2; numbers 0 1 2; numbers 3 0 2; } >s2-turned.bin
{ s2; numbers 0 2; numbers 0 1; pairs; two 2; numbers 0 1 2; numbers 0 2 3; } >s2-late.bin

# A write between a read and its source.
{
    one 1
    one 1
    two 3
    event 0 $store 0 100 1
    event 0 $store 1 100 1
    event 0 $load 2 100 1
    pairs
    two 0
    two 0
    numbers 0 1; numbers; pairs 0 2; two 1; numbers 0 1 2
} >overwritten.bin

# A locked instruction of two stores, and a store of another processor between them.
{
    one 1
    one 2
    two 3
    event 0 $store 0 100 1
    event 0 $store 0 104 1
    event 1 $store 0 108 1
    pairs
    two 1
    lock 0 0
    two 0
    numbers 0 1 2; numbers 0; pairs; two 2; numbers 0 1 2; numbers 0 2 1
} >torn.bin

# The least record, no record, and the limits of sections 2 and 4.
{ one 1; one 0; for section in 2 3 4 5 6 7 8 9; do two 0; done; } >empty.bin
: >nothing.bin
stores 64 0 >events-64.bin
stores 65 0 >events-65.bin
stores 64 16 >locked-16.bin
stores 64 17 >locked-17.bin
