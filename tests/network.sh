#!/bin/bash
# Traces through real hosts in network namespaces: client - near - middle - far - source. Needs root and Linux.
# Makes namespaces of its own, uses addresses inside them alone, and at its end stops what it started and removes what it made.
set -euo pipefail
cd "$(dirname "$0")/.."

fail() {
    echo "network: $1" >&2
    exit 1
}

command -v ip > /dev/null || fail "ip is missing: Debian's package iproute2 has it"
[ "$(id -u)" = 0 ] || fail "only root makes network namespaces"

tag=bough$$
place=$(mktemp -d)
made=()
declare -A hosts=()

clean_up() {
    local pid space
    for pid in "${hosts[@]}"; do kill "$pid" 2> /dev/null || true; done
    wait
    for space in "${made[@]}"; do ip netns del "$space" 2> /dev/null || true; done
    rm -rf "$place"
}
trap clean_up EXIT

make -s examples || exit 1 # make has said why
bin=$PWD/target/examples
run=$PWD/run # an x86-64 program, on Arm too
compile=$(make -s compile-line)
# shellcheck disable=SC2086
$compile -Werror -Iinclude -o "$place/replier" tests/replier.c
for text in examples/sheets/*.txt; do
    sheet=$(basename "$text" .txt)
    "$run" "$bin/sheet" < "$text" > "$place/$sheet"
done

# ---- the network ------------------------------------------------------------------------------------

for name in client near middle far source; do
    ip netns add "$tag-$name" 2> "$place/why" || fail "no network namespaces here: $(cat "$place/why")"
    made+=("$tag-$name")
    ip -n "$tag-$name" link set lo up
done

in_space() {
    local name=$1
    shift
    ip netns exec "$tag-$name" "$@"
}

# joins NAME1 INTERFACE1 ADDRESS1 NAME2 INTERFACE2 ADDRESS2: a cable between two of them
joins() {
    ip -n "$tag-$1" link add "$2" type veth peer name "$5" netns "$tag-$4" || fail "no cables between namespaces here"
    ip -n "$tag-$1" addr add "$3" dev "$2"
    ip -n "$tag-$4" addr add "$6" dev "$5"
    ip -n "$tag-$1" link set "$2" up
    ip -n "$tag-$4" link set "$5" up
}

joins client up0 192.0.2.50/24 near down0 192.0.2.1/24
joins near up0 198.51.100.1/24 middle down0 198.51.100.2/24
joins middle up0 203.0.113.1/24 far down0 203.0.113.2/24
joins far up0 10.9.0.1/24 source down0 10.9.0.9/24
ip -n "$tag-client" route add default via 192.0.2.1
ip -n "$tag-near" route add 203.0.113.0/24 via 198.51.100.2
ip -n "$tag-middle" route add 192.0.2.0/24 via 198.51.100.1
ip -n "$tag-far" route add default via 203.0.113.1
for name in near middle; do
    in_space "$name" sh -c 'echo 1 > /proc/sys/net/ipv4/ip_forward'
done

# ---- hosts and traces -------------------------------------------------------------------------------

# listen NAME PROGRAM [ARGUMENTS]: a program of this name's, once it listens
listen() {
    local name=$1
    shift
    : > "$place/$name.out"
    ip netns exec "$tag-$name" "$run" "$@" > "$place/$name.out" 2> "$place/$name.err" &
    hosts[$name]=$!
    for _ in $(seq 100); do
        grep -q listening "$place/$name.out" && return
        sleep 0.05
    done
    fail "$name does not listen: $(cat "$place/$name.err")"
}

# start NAME SHEET [OPTIONS]: a host
start() {
    local name=$1 sheet=$2
    shift 2
    listen "$name" "$bin/host" "$@" "$place/$sheet"
}

# stop NAME: ends a host, which prints its counts
stop() {
    kill -INT "${hosts[$1]}"
    wait "${hosts[$1]}" || fail "the host $1 ended with status $?"
    unset "hosts[$1]"
}

# ask OPTIONS: all that the client prints, and its status as the last line
ask() {
    local status=0
    in_space client timeout 30 "$run" "$bin/trace" "$@" > "$place/asked" 2>&1 || status=$?
    plain < "$place/asked"
    echo "status $status"
}
# plain: T in place of the time that a trace took, and P of the client's port
plain() {
    sed -E -e 's/ Reply after [0-9]+\.[0-9]{3} ms/ Reply after T ms/' -e 's/ port [0-9]+$/ port P/'
}

# trace OPTIONS: of what the client prints, the first line of each block, and the status
trace() {
    ask -g 232.1.1.1 -s 10.9.0.9 "$@" | path
}
path() {
    grep -E '^[0-9]+ out|no reply|^status'
}

# same WHAT EXPECTED GOT
same() {
    if [ "$2" != "$3" ]; then
        printf 'network: %s: expected\n%s\ngot\n%s\n' "$1" "$2" "$3" >&2
        exit 1
    fi
    echo "network: $1: as expected"
}

counts() {
    sed -n '/^received/,$p' "$place/$1.out"
}

sent_datagrams() {
    # shellcheck disable=SC2016
    in_space "$1" awk '/^Udp:/ { if (n++) print $5 }' /proc/net/snmp
}

# fragments: how many the kernel has made in each namespace, of its own datagrams and of those that it forwards
fragments() {
    for name in client near middle far source; do
        # shellcheck disable=SC2016
        in_space "$name" awk -v name="$name" '/^Ip:/ && n++ { print name, $at }
            /^Ip:/ { for (i = 1; i <= NF; i++) if ($i == "FragCreates") at = i }' /proc/net/snmp
    done | paste -s -d ' '
}

chain='1 out 192.0.2.1 in 198.51.100.1 up 198.51.100.2 code 0 NO_ERROR
2 out 198.51.100.2 in 203.0.113.1 up 203.0.113.2 code 0 NO_ERROR
3 out 203.0.113.2 in 10.9.0.1 up 0.0.0.0 code 0 NO_ERROR
status 0'

start near near
start middle middle
start far far
same "three routers in a chain" "$chain" "$(trace 192.0.2.1)"
same "the last hop found through 224.0.0.2" "$chain" "$(trace -c 192.0.2.50 224.0.0.2)"
same "two hops asked for" "1 out 192.0.2.1 in 198.51.100.1 up 198.51.100.2 code 0 NO_ERROR
2 out 198.51.100.2 in 203.0.113.1 up 203.0.113.2 code 0 NO_ERROR
status 3" "$(trace -h 2 192.0.2.1)"
same "a router that is not the client's last hop" "1 out 198.51.100.2 in 203.0.113.1 up 203.0.113.2 code 6 WRONG_LAST_HOP
2 out 203.0.113.2 in 10.9.0.1 up 0.0.0.0 code 0 NO_ERROR
status 0" "$(trace 198.51.100.2)"
same "a group without a route" "1 out 192.0.2.1 in 0.0.0.0 up 0.0.0.0 code 6 WRONG_LAST_HOP
status 3" "$(ask -g 232.9.9.9 192.0.2.1 | path)"

cp "$place/far-prohibited" "$place/far"
kill -HUP "${hosts[far]}"
sleep 0.3
same "tracing prohibited at the far router, by a sheet read anew" "1 out 192.0.2.1 in 198.51.100.1 up 198.51.100.2 code 0 NO_ERROR
2 out 198.51.100.2 in 203.0.113.1 up 203.0.113.2 code 0 NO_ERROR
3 out 203.0.113.2 in 0.0.0.0 up 0.0.0.0 code 131 ADMIN_PROHIB
status 3" "$(trace 192.0.2.1)"
stop far
same "the far router's counts" "received 4 sent on 0 replies 4 not sent 0" "$(counts far)"
"$run" "$bin/sheet" < examples/sheets/far.txt > "$place/far"
start far far

# ---- a stopped router -------------------------------------------------------------------------------

stop middle
same "a stopped router" "trace 1: no reply in 2 s
status 1" "$(trace -t 2 192.0.2.1)"
same "one hop, before the stopped router" "1 out 192.0.2.1 in 198.51.100.1 up 198.51.100.2 code 0 NO_ERROR
status 3" "$(trace -h 1 192.0.2.1)"
start middle middle
same "the router started again" "$chain" "$(trace 192.0.2.1)"

# ---- an upstream that is not known, and two routers that name each other -----------------------------

stop near
start near near-unknown
same "a Request to 224.0.0.2" "1 out 192.0.2.1 in 198.51.100.1 up 224.0.0.2 code 0 NO_ERROR
2 out 198.51.100.2 in 203.0.113.1 up 203.0.113.2 code 0 NO_ERROR
3 out 203.0.113.2 in 10.9.0.1 up 0.0.0.0 code 0 NO_ERROR
status 0" "$(trace 192.0.2.1)"
stop near
stop middle
start near near
start middle middle-looping
# looping BLOCKS [CODE]: the trace through the two of them, with this code in the last block
looping() {
    local k code
    echo "1 out 192.0.2.1 in 198.51.100.1 up 198.51.100.2 code 0 NO_ERROR"
    for k in $(seq 2 "$1"); do
        code="9 RPF_IF"
        [ "$k" = "$1" ] && code=${2:-$code}
        if [ $((k % 2)) = 0 ]; then
            echo "$k out 198.51.100.2 in 198.51.100.2 up 198.51.100.1 code $code"
        else
            echo "$k out 198.51.100.1 in 198.51.100.1 up 198.51.100.2 code $code"
        fi
    done
    echo "status 3"
}
same "two routers that name each other, 6 hops" "$(looping 6)" "$(trace -h 6 192.0.2.1)"
same "two routers that name each other, 255 hops: until the packet is full" "$(looping 27 "129 NO_SPACE")" "$(trace -h 255 192.0.2.1)"
stop near
stop middle
same "the near router's counts" "received 17 sent on 17 replies 0 not sent 0" "$(counts near)"
same "the middle router's counts" "received 17 sent on 15 replies 2 not sent 0" "$(counts middle)"

# ---- a link of MTU 1000 between the two ---------------------------------------------------------------

# mtu NAME1 INTERFACE1 NAME2 INTERFACE2 MTU: that of both ends of a cable
mtu() {
    ip -n "$tag-$1" link set "$2" mtu "$5"
    ip -n "$tag-$3" link set "$4" mtu "$5"
}
# measured: of what the client printed last, the length and the number of blocks
measured() {
    plain < "$place/asked" | sed -n 's/^trace 1: Reply after T ms: //p'
}
whole="client 0 near 0 middle 0 far 0 source 0"
mtu near up0 middle down0 1000
start near near-tunnel
start middle middle-tunnel
same "a loop over a link of MTU 1000, 255 hops: until the link is full" "$(looping 18 "129 NO_SPACE")
956 bytes, blocks 18" "$(trace -h 255 192.0.2.1; measured)"
same "no fragment was made of the Requests" "$whole" "$(fragments)"
mtu client up0 near down0 600
same "a full Reply, over a smaller link home" "$(looping 18 "129 NO_SPACE")
956 bytes, blocks 18" "$(trace -h 255 192.0.2.1; measured)"
same "a far router's Reply, over a smaller link home" "$(looping 18)
956 bytes, blocks 18" "$(trace -h 18 192.0.2.1; measured)"
same "two fragments were made of either Reply, on the smaller link" "client 0 near 4 middle 0 far 0 source 0" "$(fragments)"
whole="client 0 near 4 middle 0 far 0 source 0"
mtu client up0 near down0 1500
stop near
stop middle
same "the near router's counts, MTU 1000" "received 29 sent on 27 replies 2 not sent 0" "$(cat "$place/near.err"; counts near)"
same "the middle router's counts, MTU 1000" "received 27 sent on 26 replies 1 not sent 0" "$(cat "$place/middle.err"; counts middle)"

start near near
start middle middle-looping
too_large="host: the MTU of 198.51.100.1 (interface 1 of the sheet) is 1500 in the sheet and 1000 in the kernel: what is longer is not sent on"
same "a sheet's MTU that is larger than the link's" "$too_large" "$(cat "$place/near.err")"
same "a Request that is longer than the link" "trace 1: no reply in 1 s
status 1" "$(trace -h 255 -t 1 192.0.2.1)"
same "it is not sent, and the host says so" "$too_large
host: not sent to 198.51.100.2: a Request of 1008 bytes is longer than the link takes: lower the MTU of interface 1 in the sheet" \
    "$(cat "$place/near.err")"
same "the longest Reply in place of that Request" "$(looping 19)
1008 bytes, blocks 19" "$(trace -h 19 192.0.2.1; measured)"
cp "$place/near-tunnel" "$place/near"
kill -HUP "${hosts[near]}"
sleep 0.3
same "the MTU set right, by a sheet read anew" "$(looping 18 "129 NO_SPACE")
956 bytes, blocks 18" "$(trace -h 255 192.0.2.1; measured)"
same "no fragment was made of a Request" "$whole" "$(fragments)"
stop near
stop middle
same "the near router's counts, one Request not sent" "received 30 sent on 27 replies 2 not sent 1" "$(counts near)"
same "the middle router's counts" "received 27 sent on 27 replies 0 not sent 0" "$(counts middle)"
mtu near up0 middle down0 1500
"$run" "$bin/sheet" < examples/sheets/near.txt > "$place/near"

# ---- the sheet maker ----------------------------------------------------------------------------------

# sheet_of TEXT: what the sheet maker says of it, or the MTU and the zeros of its first interface, and its status
sheet_of() {
    local status=0
    "$run" "$bin/sheet" <<< "$1" > "$place/sheet" 2> "$place/sheet.err" || status=$?
    cat "$place/sheet.err"
    [ "$status" != 0 ] || od -An -tx1 -j28 -N4 "$place/sheet"
    echo "status $status"
}
interface="interface 192.0.2.1/24 multicast"
same "an MTU that is not named" " 05 dc 00 00
status 0" "$(sheet_of "$interface")"
same "the least MTU" " 02 40 00 00
status 0" "$(sheet_of "$interface mtu 576")"
same "the largest MTU" " ff ff 00 00
status 0" "$(sheet_of "$interface mtu 65535 ttl 1")"
for bad in 575 65536 0 -1 1e3 0x600 99999999999999999999 ttl ''; do
    same "an MTU that cannot be: '$bad'" "sheet: line 2 has an MTU that is not a number from 576 to 65535
status 1" "$(sheet_of "$interface
$interface mtu $bad")"
done
same "another word" "sheet: line 1 is not understood
status 1" "$(sheet_of "$interface mtus 1500")"
same "a line of 1022 bytes" " 05 dc 00 00
status 0" "$(sheet_of "$interface # $(printf '%0987d' 0)")"
same "a longer line" "sheet: line 1 is too long
status 1" "$(sheet_of "$interface # $(printf '%0988d' 0)")"
same "an input that cannot be read" "sheet: standard input: Is a directory
status 1" "$("$run" "$bin/sheet" 2>&1 < "$place"; echo "status $?")"
# interfaces COUNT: so many lines
interfaces() {
    for k in $(seq "$1"); do echo "interface 10.0.$k.1/24"; done
}
same "18 interfaces in a block, and 64 in four" "512 1024 2048" \
    "$(for n in 18 19 64; do interfaces $n | "$run" "$bin/sheet" | wc -c; done | paste -s -d ' ')"
same "the yard that README.md walks is its sheets" "$(tail -c 2048 examples/two-routers.yard | od -An -tx1 -v)" "$({
    "$run" "$bin/sheet" << END
interface 192.0.2.1/24 multicast
interface 198.51.100.1/24 multicast
route 203.0.113.0/24 232.1.1.1 incoming 1 upstream 198.51.100.2 forward 0
END
    "$run" "$bin/sheet" << END
interface 198.51.100.2/24 multicast
interface 203.0.113.1/24 multicast
route 203.0.113.0/24 232.1.1.1 incoming 1 forward 0
END
} | od -An -tx1 -v)"

# ---- all that a Reply carries, and the loss between two -----------------------------------------------

# known TRACE ID NEAR_IN MIDDLE_OUT MIDDLE_IN FAR_OUT: what the client prints of a trace through the three, at these counts
known() {
    cat << END
trace $1: Reply after T ms: 176 bytes, blocks 3
  type 3, hops 32, group 232.1.1.1, source 10.9.0.9, client 192.0.2.50, id $2, port P
1 out 192.0.2.1 in 198.51.100.1 up 198.51.100.2 code 0 NO_ERROR
  arrival A s
  packets: input $3, output 2000, total 500
  protocol 13 ospf, multicast 8 pimSparseMode, TTL 1, S 1, mask 24
2 out 198.51.100.2 in 203.0.113.1 up 203.0.113.2 code 0 NO_ERROR
  arrival A s, D ms from 1
  packets: input $5, output $4, total 500
  protocol 13 ospf, multicast 8 pimSparseMode, TTL 1, S 1, mask 24
3 out 203.0.113.2 in 10.9.0.1 up 0.0.0.0 code 0 NO_ERROR
  arrival A s, D ms from 2
  packets: input 5000, output $6, total 500
  protocol 2 local, multicast 8 pimSparseMode, TTL 1, S 1, mask 24
END
}
# timeless: A in place of an arrival time, and D of a time between two that is less than 10 s
timeless() {
    sed -E -e 's/ arrival [0-9]{1,5}\.[0-9]{6} s/ arrival A s/' -e 's/ \+[0-9]{1,4}\.[0-9]{3} ms from/ D ms from/'
}
# later NAME EDIT: this host's sheet, edited so, for later
later() {
    sed "$2" "examples/sheets/$1.txt" | "$run" "$bin/sheet" > "$place/$1-later"
}
start near near
start middle middle
same "all of a Reply" "$(known 1 500 3000 3000 4000 4000)
status 0" "$(ask -g 232.1.1.1 -s 10.9.0.9 -i 500 192.0.2.1 | timeless)"

later near 's/in 3000/in 3010/'
later middle 's/out 3000/out 3012/; s/in 4000/in 4020/'
later far 's/out 4000/out 4020/'
rm "$place/asked"
ask -g 232.1.1.1 -s 10.9.0.9 -i 65534 -n 3 -w 3 192.0.2.1 > "$place/three" &
asking=$!
for _ in $(seq 100); do
    grep -q '^3 out' "$place/asked" 2> /dev/null && break
    sleep 0.05
done
for name in near middle far; do # read anew while the client pauses
    mv "$place/$name-later" "$place/$name"
    kill -HUP "${hosts[$name]}"
done
wait "$asking"
same "three traces: counts that rise, then stay" "$(known 1 65534 3000 3000 4000 4000)
$(known 2 65535 3010 3012 4020 4020)
loss from trace 1 to trace 2:
  2 to 1, 198.51.100.2 to 198.51.100.1: 2/12
  3 to 2, 203.0.113.2 to 203.0.113.1: 0/20
$(known 3 0 3010 3012 4020 4020)
loss from trace 2 to trace 3:
  2 to 1, 198.51.100.2 to 198.51.100.1: 0/0
  3 to 2, 203.0.113.2 to 203.0.113.1: 0/0
status 0" "$(timeless < "$place/three")"
# second: the second trace, and the loss from the first to it, whatever its id
second() {
    sed -n '/^trace 2/,/^  3 to 2/p' "$1" | sed -E 's/ id [0-9]+,/ id I,/' | plain | timeless
}
same "what README.md shows" "$(second "$place/three")" "$(second README.md)"
same "nowhere to print" "trace: nothing can be printed: No space left on device
status 2" "$(in_space client "$run" "$bin/trace" -g 232.1.1.1 -s 10.9.0.9 192.0.2.1 2>&1 > /dev/full; echo "status $?")"
stop near
stop middle
for name in near middle far; do
    "$run" "$bin/sheet" < "examples/sheets/$name.txt" > "$place/$name"
done

# ---- Replies made beforehand -------------------------------------------------------------------------

address() {
    # shellcheck disable=SC2086
    printf '%02x' ${1//./ }
}
# standard ARRIVAL IN OUT UP INPUT OUTPUT TOTAL PROTOCOL MULTICAST TTL MASK CODE: a block in hex digits; a count of -1 is all ones
standard() {
    printf '04003400%08x%s%s%s%016x%016x%016x%04x%04x%02x00%02x%02x' "$1" "$(address "$2")" "$(address "$3")" "$(address "$4")" "${@:5}"
}
# keep NAME DIGITS: the bytes of these hex digits in a file
keep() {
    # shellcheck disable=SC2001
    printf '%b' "$(sed 's/../\\x&/g' <<< "$2")" > "$place/$1"
}
# made FILES.. -- OPTIONS: what the client prints of the Replies with these files' bytes, and its status
made() {
    local files=()
    while [ "$1" != -- ]; do
        if [ "$1" = , ]; then files+=(","); else files+=("$place/$1"); fi
        shift
    done
    listen near "$place/replier" "${files[@]}"
    ask "${@:2}" 192.0.2.1
    wait "${hosts[near]}" || fail "the replier ended with status $?"
}

augmented=0500080000020000
keep fields "$(standard 0xffff8000 10.1.0.1 192.0.2.1 10.1.0.2 -1 0 -2 9 12 255 255 11)$augmented$(
    standard 0x00010000 10.2.0.1 10.1.0.2 224.0.0.2 1 2 3 18 13 0 32 127)$(
    standard 0x80010000 10.3.0.1 10.2.0.2 10.3.0.2 4 -1 5 17 0 1 128 0)$(
    standard 0x8000ffff 0.0.0.0 10.3.0.2 0.0.0.0 6 7 -1 65535 65535 254 0 131)"
same "every field, times that wrap, and an Augmented block" "trace 1: Reply after T ms: 236 bytes, blocks 4, and 8 bytes of Augmented blocks
  type 3, hops 9, group none, source 10.9.0.9, client 192.0.2.50, id 7, port P
1 out 192.0.2.1 in 10.1.0.1 up 10.1.0.2 code 11 INFO_HIDDEN
  arrival 65535.500000 s
  packets: input not counted, output 0, total 18446744073709551614
  protocol 9 isIs, multicast 12 msdp, TTL 255, S 1, mask 127 group state
2 out 10.1.0.2 in 10.2.0.1 up 224.0.0.2 code 127 unknown
  arrival 1.000000 s, +1500.000 ms from 1
  packets: input 1, output 2, total 3
  protocol 18 unknown, multicast 13 unknown, TTL 0, S 0, mask 32
3 out 10.2.0.2 in 10.3.0.1 up 10.3.0.2 code 0 NO_ERROR
  arrival 32769.000000 s, -32768000.000 ms from 2
  packets: input 4, output not counted, total 5
  protocol 17 dvmrp, multicast 0 not known, TTL 1, S 1, mask 0
4 out 10.3.0.2 in 0.0.0.0 up 0.0.0.0 code 131 ADMIN_PROHIB
  arrival 32768.999985 s, -0.015 ms from 3
  packets: input 6, output 7, total not counted
  protocol 65535 unknown, multicast 65535 unknown, TTL 254, S 0, mask 0
status 3" "$(made fields -- -s 10.9.0.9 -h 9 -i 7)"

# as many blocks as a message holds, and an Augmented one that fills it; four bytes more are refused
codes=(0 1 2 3 4 5 6 7 8 9 10 11 12 13 128 129 131)
full=
for k in $(seq 0 26); do
    full+=$(standard 0 10.0.0.1 10.0.0.2 10.0.0.3 0 0 0 "$k" "$k" 1 24 "${codes[k % 17]}")
done
keep full "${full}05003000$(printf '%088x' 0)"
keep over "${full}05003400$(printf '%096x' 0)"
keep bad "${full}05000600$(printf '%04x' 0)"
made over bad full -- -g 232.1.1.1 > "$place/said"
same "what is refused is passed over; a full Reply" "trace: what looked like the Reply was passed over, 2 times; the last was refused by 13: its blocks are malformed
trace 1: Reply after T ms: 1472 bytes, blocks 27, and 48 bytes of Augmented blocks
status 3" "$(grep -E '^trace|^status' "$place/said")"
same "codes by name" "0 NO_ERROR 1 WRONG_IF 2 PRUNE_SENT 3 PRUNE_RCVD 4 SCOPED 5 NO_ROUTE 6 WRONG_LAST_HOP 7 NOT_FORWARDING 8 REACHED_RP \
9 RPF_IF 10 NO_MULTICAST 11 INFO_HIDDEN 12 REACHED_GW 13 UNKNOWN_QUERY 128 FATAL_ERROR 129 NO_SPACE 131 ADMIN_PROHIB" \
    "$(sed -n 's/^[0-9]* out .* code //p' "$place/said" | head -n 17 | paste -s -d ' ')"
same "protocols by name" "0 not known, 1 other, 2 local, 3 netmgmt, 4 icmp, 5 egp, 6 ggp, 7 hello, 8 rip, 9 isIs, 10 esIs, 11 ciscoIgrp, \
12 bbnSpfIgp, 13 ospf, 14 bgp, 15 idpr, 16 ciscoEigrp, 17 dvmrp, 18 unknown," \
    "$(sed -n 's/^  protocol \(.*,\) multicast .*/\1/p' "$place/said" | head -n 19 | paste -s -d ' ')"
same "multicast routing protocols by name" "0 not known, 1 other, 2 local, 3 netmgmt, 4 dvmrp, 5 mospf, 6 pimSparseDense, 7 cbt, \
8 pimSparseMode, 9 pimDenseMode, 10 igmpOnly, 11 bgmp, 12 msdp, 13 unknown," \
    "$(sed -n 's/.* multicast \(.*,\) TTL .*/\1/p' "$place/said" | head -n 14 | paste -s -d ' ')"

# counting IN OUT..: blocks with these counts, each router's upstream being the next
counting() {
    local k=1
    while [ $# -gt 0 ]; do
        standard 0 "10.$k.0.1" "10.$((k - 1)).0.2" "10.$k.0.2" "$1" "$2" 0 0 0 1 24 0
        shift 2
        k=$((k + 1))
    done
}
keep before "$(counting 100 0 200 1000 7 -1 1 9 0 3)"
keep after "$(counting 107 0 201 1010 8 50 3 8 0 4)"
keep elsewhere "$(counting 107 0 201 1010 8 50 3 8)"
same "a link of each kind, and another path" "loss from trace 1 to trace 2:
  2 to 1, 10.1.0.2 to 10.1.0.1: 3/10
  3 to 2, 10.2.0.2 to 10.2.0.1: not counted
  4 to 3, 10.3.0.2 to 10.3.0.1: fallen
  5 to 4, 10.4.0.2 to 10.4.0.1: surplus
loss from trace 2 to trace 3: not known: the two Replies are not over one path
status 3" "$(made before , after , elsewhere -- -g 232.1.1.1 -n 3 -w 0 | grep -E '^loss|^  [0-9]|^status')"
keep one "$(standard 0 10.1.0.1 192.0.2.1 0.0.0.0 0 0 0 0 0 1 24 0)"
keep other "$(standard 0 10.1.0.1 192.0.2.2 0.0.0.0 0 0 0 0 0 1 24 0)"
same "a trace without a Reply among others" "loss from trace 1 to trace 3: there is no link
status 1" "$(made one , , one -- -g 232.1.1.1 -n 3 -w 0 -t 1 | grep -E '^loss|^status')"
same "another path, and nothing else" "loss from trace 1 to trace 2: not known: the two Replies are not over one path
status 4" "$(made one , other -- -g 232.1.1.1 -n 2 -w 0 | grep -E '^loss|^status')"
unset "hosts[near]"

# not_taken ARGUMENTS: what the client says of them, without its usage
not_taken() {
    ask "$@" | grep -v ^usage
}
same "no count" "trace: -n cannot be '0'
status 2" "$(not_taken -g 232.1.1.1 -n 0 192.0.2.1)"
same "a group that is none" "trace: -g cannot be '10.9.0.9'
status 2" "$(not_taken -g 10.9.0.9 192.0.2.1)"
same "neither group nor source" "trace: a GROUP, a SOURCE or both are needed
status 2" "$(not_taken 192.0.2.1)"
same "no router" "trace: one ROUTER is needed, as an address
status 2" "$(not_taken -g 232.1.1.1)"
same "a client that is not this machine" "trace: there is no socket for the Reply: Cannot assign requested address
status 2" "$(not_taken -g 232.1.1.1 -c 10.77.0.1 192.0.2.1)"

# ---- garbage first ----------------------------------------------------------------------------------

start near near
start middle middle
before=$(sent_datagrams near)
# datagram: standard input as one datagram to the near router (cat writes it whole)
datagram() {
    cat > "$place/datagram"
    # shellcheck disable=SC2016
    in_space client bash -c 'cat "$0" > /dev/udp/192.0.2.1/33435' "$place/datagram"
}
bytes() {
    printf '%b' "$1" | datagram
}
many() {
    head -c "$1" /dev/zero | datagram
}
header='\0\024\012\0350\01\01\01\012\011\0\011\0300\0\02\062\0\07\0234\0100'
block='\04\0\064\0\0\0\0\0\0\0\0\0\0\0\0\0\0\0\0\0\0\0\0\0\0\0\0\0\0\0\0\0\0\0\0\0\0\0\0\0\0\0\0\0\0\0\0\0\0\0\0\0'
bytes 'x'
many 19
many 20
many 1472
many 1473
many 8000
bytes "\\03$header"
bytes "\\01\\0\\024\\0\\0350\\01\\01\\01\\012\\011\\0\\011\\0300\\0\\02\\062\\0\\07\\0234\\0100"
bytes "\\01${header}x"
bytes "\\02$header"
bytes "\\02$header$block"
sleep 0.3
same "garbage is not answered" "$before" "$(sent_datagrams near)"
same "the next trace" "$chain" "$(trace -i 77 192.0.2.1)"
same "the same Query id again, from another port" "trace 1: no reply in 1 s
status 1" "$(trace -i 77 -t 1 192.0.2.1)"
stop near
same "the near router's counts after garbage" "received 13 sent on 1 replies 0 not sent 0
dropped 5 SIZE 4
dropped 6 TYPE 3
dropped 8 HOPS 1
dropped 13 BLOCKS 2
dropped 15 NEAR 1
dropped 17 SEEN 1" "$(counts near)"

# ---- what a host says that cannot start; an end after so many packets ---------------------------------

refused() {
    local status=0
    in_space near timeout 10 "$run" "$bin/host" "$@" 2>&1 || status=$?
    echo "status $status"
}
head -c 1000 "$place/near" > "$place/short"
same "a sheet cut short" "host: $place/short: the sheet is refused: its 1000 bytes break a rule of a sheet (drop number 3)
status 1" "$(refused "$place/short")"
same "another router's sheet" "host: no interface of this machine has the address 203.0.113.2 (interface 0 of the sheet)
status 1" "$(refused "$place/far")"
start near near -n 2
same "a port that is taken" "host: port 33435: another program has this port
status 1" "$(refused "$place/near")"
many 3
same "the last trace" "$chain" "$(trace 192.0.2.1)"
wait "${hosts[near]}" || fail "a host that counts packets ended with status $?"
unset "hosts[near]"
same "a host that ends after two packets" "received 2 sent on 1 replies 0 not sent 0
dropped 5 SIZE 1" "$(counts near)"

# ---- times beforehand in place of the machine's -------------------------------------------------------

# shellcheck disable=SC2086
$compile -Werror -Wl,--wrap=clock_gettime -Iinclude -o "$place/timed" examples/host.c tests/times.c target/staticlib/libservicebough.a
# timed TIMES [OPTIONS]: the near router, whose time is so
timed() {
    local times=$1
    shift
    TIMES=$times listen near "$place/timed" "$@" "$place/near"
}
# arrivals: of what the client printed last, the near router's arrival times
arrivals() {
    sed -n '/^1 out/{n;s/^  arrival //p;}' "$place/asked"
}
# ended STATUS: the near router has ended with this status
ended() {
    local status=0
    wait "${hosts[near]}" || status=$?
    unset "hosts[near]"
    [ "$status" = "$1" ] || fail "a host ended with status $status: $(cat "$place/near.err")"
}
timed '1000000000.000000000 1000000010.000000000 1000000000.000000000 1000000000.000000000 1000000001.000000000' -n 4
trace -h 1 -n 4 -w 0 192.0.2.1 > "$place/said"
ended 0
same "a time that goes back, stands, and goes on" "18570.000000 s
18570.000015 s
18570.000031 s
18570.500031 s
status 3" "$(arrivals; tail -n 1 "$place/said")"

timed '1000000000.000000000 1000000100.000000000 1000000000.000000000' -n 2
bytes 'x'
trace -h 1 192.0.2.1 > "$place/said"
ended 0
same "a datagram that is dropped moves no clock" "18560.000015 s
received 2 sent on 0 replies 1 not sent 0
dropped 5 SIZE 1" "$(arrivals; counts near)"

timed '1000000000.000000000 4000000000.000000000 1000000000.000000000' -n 2
trace -h 1 -n 2 -w 0 -t 1 192.0.2.1 > "$place/said"
ended 0
same "a time out of range, then the right one" "trace 1: no reply in 1 s
1 out 192.0.2.1 in 198.51.100.1 up 198.51.100.2 code 0 NO_ERROR
status 1
18560.000015 s
host: the machine's time is out of range: nothing is answered until it is set right
received 2 sent on 0 replies 1 not sent 0
without a time 1" "$(cat "$place/said"; arrivals; cat "$place/near.err"; counts near)"

timed '2085978495.000000000 2085978495.999999999'
trace -h 1 192.0.2.1 > "$place/said"
ended 1
same "the last time there is" "1 out 192.0.2.1 in 198.51.100.1 up 198.51.100.2 code 0 NO_ERROR
status 3
65535.999985 s
host: the clock has issued the last time there is: set the machine's time right, and start the host again
received 1 sent on 0 replies 1 not sent 0" "$(cat "$place/said"; arrivals; cat "$place/near.err"; counts near)"
echo "network: ok"
