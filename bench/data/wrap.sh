#!/bin/sh
# A conversation in which reader 1's handover number wraps: 65,535 is followed by 1. It has 2.6 MB, so
# it is made and not kept. Reports with delay 0 and their acknowledgements are the shortest way: 40 bytes
# a step. Its last lines out are those of wrap.tail:
#   sh bench/data/wrap.sh | target/bench/plain-console | tail -n 12 | cmp - bench/data/wrap.tail
awk 'BEGIN {
    print "arrive 1 E0040100002E16AD 11"
    print "command 3 19 10 11 36 register 0006 AA0D 0001 0000 0000 0001"
    for (number = 1; number < 65535; number++) {
        print "acknowledge 1", number
        print "check 1 1 1 0 0 0 0"
    }
    print "check 1 1 1 0 0 0 0"
    print "check 1 1 1 0 0 0 0"
    print "collect 1 register"        # 65535
    print "acknowledge 1 0"           # 15
    print "acknowledge 1 65536"       # no call
    print "acknowledge 1 65535"
    print "collect 1 register"        # 1
    print "acknowledge 1 65535"       # 15: it was used
    print "acknowledge 1 0"           # 15: there is no 0
    print "acknowledge 1 1"
    print "collect 1 register"        # 2
    print "acknowledge 1 2"
}'
