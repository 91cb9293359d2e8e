#!/bin/sh
# Prints an event file that fills table 0: 4,096 flows of rising priority, and one more, which is refused with 5/1 (table full).
#   examples/full-table.sh > /tmp/full.events && ./ofswitch replay /tmp/full.events
awk 'BEGIN {
    print "port add 1 0200000000a1 p1 up"
    print "connect"
    print "c 0400000800000001"
    for (i = 0; i <= 4096; i++)
        printf "c 040e0040%08x%032d000000000000%04xffffffffffffffffffffffff000000000001000c800000040000000100000000\n", i + 2, 0, i
}'
