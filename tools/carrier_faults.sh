#!/bin/bash
# carrier_faults.sh [CARRIER]: what the carrier does with a program that is dead, hangs or says what
# it should not, in about 25 seconds and without any privilege. Stand-ins for the program grant a
# lease by themselves, and then fail, each in its way: the carrier must end with status 1 in time,
# say why, and take the address off. Three do not fail: one says what it dropped, one has a lease
# without a mask, and one is to hear a packet as long as one may be. It needs unshare (util-linux),
# ip, and a kernel that lets users make namespaces.
set -uo pipefail
PATH=$PATH:/usr/sbin:/sbin

if [ "${1-}" != --inside ]; then
    tools=$(cd "$(dirname "$0")" && pwd)
    work=$(mktemp -d)
    trap 'rm -rf "$work"' EXIT
    if [ $# -ge 1 ]; then
        cp "$1" "$work/carrier"
    else
        rustc --edition 2021 -O -o "$work/carrier" "$tools/../carrier/src/main.rs" || exit
    fi
    # all that is started there ends with it
    unshare -Urnmp --mount-proc --fork --kill-child "$tools/carrier_faults.sh" --inside "$work"
    exit
fi

work=$2 failed=0
mount -t sysfs sysfs /sys
# The carrier's namespace is this one; what it hears comes from that of a process that sleeps.
unshare -n sleep 120 &
other=$!
own=$(readlink /proc/self/ns/net)
until [ "$(readlink "/proc/$other/ns/net")" != "$own" ]; do sleep 0.1; done
ip link add cli0 mtu 1486 type veth peer name srv0 mtu 1486 netns "$other"
nsenter --net="/proc/$other/ns/net" ip addr add 192.0.2.1/24 dev srv0
nsenter --net="/proc/$other/ns/net" ip link set srv0 up
ip link set cli0 up

# stand_in NAME [MASK ROUTER]: a program that reads up to the first event and answers it with a
# lease that has this subnet mask, else 255.255.255.0, and this router, else none; what it does then
# is read from standard input.
stand_in() {
    local lease="192.0.2.50 0.0.0.0 192.0.2.1 60 105 120 ${2-255.255.255.0} none none none"
    lease+=" ${3-none} none none none none"
    {
        echo '#!/bin/bash'
        echo 'echo $$ >"$0.pid"'
        echo 'until read -r line && [ "${line%% *}" = at ]; do :; done'
        printf 'echo "1 state done %s"\n' "$lease"
        cat
    } >"$work/$1"
    chmod +x "$work/$1"
}

stand_in never_answers <<'FAULT'
echo "next 0 deaf 1024"
exec cat >/dev/null
FAULT
stand_in never_reads <<'FAULT'
exec yes "next 0 deaf 0"
FAULT
stand_in ends <<'FAULT'
echo "next never deaf 1024"
sleep 1
exit 3
FAULT
stand_in never_stops <<'FAULT'
echo "next 0 deaf 1024"
exec yes "2 refused frame 00"
FAULT
stand_in says_nonsense <<'FAULT'
echo "next 0 deaf 1024"
read -r line
sleep 1
echo "2 dances"
sleep 60
FAULT
stand_in says_what_it_dropped <<'FAULT'
echo "dropped 7 wrong_id"
echo "next never listening 1024"
until read -r line && [ "$line" = end ]; do echo "next never deaf 1024"; done
echo ok
FAULT
stand_in has_no_mask 0.0.0.0 192.0.2.1 <<'FAULT'
echo "next never deaf 1024"
until read -r line && [ "$line" = end ]; do echo "next never deaf 1024"; done
echo ok
FAULT
stand_in hears <<'FAULT'
echo "next never listening 1024"
until read -r line && [ "$line" = end ]; do
    echo "$line" >>"$0.heard"
    echo "next never listening 1024"
done
echo ok
FAULT

# The addresses and routes of the interface, on one line.
interface_has() { echo $(ip -4 addr show dev cli0; ip -4 route show dev cli0); }

# try NAME STATUS SECONDS PATTERN [SET]: runs the carrier over a stand-in. It must end with this
# status, within so many seconds, with a line of the pattern in its log; the interface must have got
# what the pattern SET says, else the address with 24 bits, and have no address or router after it.
try() {
    local begun=$SECONDS status=0 address=no set=${5-'inet 192\.0\.2\.50/24 '}
    timeout --foreground 30 "$work/carrier" --foreground --program "$work/$1" \
        --transcript "$work/transcript" cli0 2>"$work/log" &
    local carrier=$!
    for _ in 1 2 3 4 5; do
        sleep 0.1
        grep -q "$set" <<<"$(interface_has)" && address=yes
    done
    [ "$2" = 0 ] && sleep 1 && kill "$carrier"
    wait "$carrier" || status=$?
    local took=$((SECONDS - begun)) said wrong=
    said=$(grep -E -m 1 "$4" "$work/log") || wrong+=" [log]"
    [ "$address" = yes ] || wrong+=" [address on]"
    [ "$status" = "$2" ] || wrong+=" [status $status]"
    [ "$took" -le "$3" ] || wrong+=" [$took seconds]"
    grep -q -e inet -e via <<<"$(interface_has)" && wrong+=" [address off]"
    kill -0 "$(cat "$work/$1.pid")" 2>/dev/null && wrong+=" [the program goes on]"
    echo "$1: status $status after $took s: $said${wrong:+; WRONG:$wrong}"
    [ -z "$wrong" ] || { failed=1; cut -c1-160 "$work/log"; }
}

try never_answers 1 7 'does not answer within 5s; the last lines were'
grep -q '^at ' "$work/log" || failed=1
try never_reads 1 8 'does not answer within 5s; the last lines were'
try never_stops 1 8 'does not answer within 5s; the last lines were'
try ends 1 3 'the program ended with exit status: 3; the last lines were'
try says_nonsense 1 4 'no line of an answer: 2 dances; the last lines were'
try says_what_it_dropped 0 5 'cli0: dropped 7 wrong_id'
grep -q '^dropped' "$work/transcript" && { echo "in the transcript, which is a script"; failed=1; }
# The default hook gets a mask of 32, and reaches the router on the link.
try has_no_mask 0 5 'cli0: done 192\.0\.2\.50/32' \
    'inet 192\.0\.2\.50/32 .*default via 192\.0\.2\.1 .*onlink'

# A packet of 1,500 bytes, with headers of 42: both sockets have it, each as an event.
(sleep 0.3 && nsenter --net="/proc/$other/ns/net" bash -c \
    'dd if=/dev/zero bs=1458 count=1 status=none >/dev/udp/192.0.2.50/68') &
try hears 0 8 'cli0: done'
for length in "frame 1500" "payload 1458"; do
    heard=$(sed -n "s/^at [0-9]* ok ${length% *} //p" "$work/hears.heard" | wc -c)
    [ $((heard / 2)) = "${length#* }" ] || { echo "not heard: $length"; failed=1; }
done
[ "$failed" = 0 ] && echo "carrier_faults: ok"
exit "$failed"
