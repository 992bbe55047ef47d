#!/bin/bash
# smoke.sh PROGRAM [CARRIER]: a lease of dnsmasq and two renewals in about fifteen seconds, without
# any privilege: everything happens in a user namespace of its own. PROGRAM is dhcp_main; without
# CARRIER it is built. Then `PROGRAM run` replays the transcript, and must write what the carrier
# was answered. It needs unshare (util-linux), ip, dnsmasq, and a kernel that lets users make
# namespaces.
set -euo pipefail
PATH=$PATH:/usr/sbin:/sbin

if [ $# = 0 ]; then
    echo "usage: tools/smoke.sh PROGRAM [CARRIER]" >&2
    exit 2
fi
if [ "$1" != --inside ]; then
    tools=$(cd "$(dirname "$0")" && pwd)
    program=$(realpath "$1")
    work=$(mktemp -d)
    trap 'rm -rf "$work"' EXIT
    if [ $# -ge 2 ]; then
        cp "$2" "$work/carrier"
    else
        rustc --edition 2021 -O -o "$work/carrier" "$tools/../carrier/src/main.rs"
    fi
    # all that is started there ends with it
    unshare -Urnmp --mount-proc --fork --kill-child \
        "$tools/smoke.sh" --inside "$program" "$work"
    exit
fi

program=$2 work=$3
mount -t sysfs sysfs /sys
# The client's namespace is this one; the server's is that of a process that sleeps.
unshare -n sleep 60 &
server=$!
own=$(readlink /proc/self/ns/net)
until [ "$(readlink "/proc/$server/ns/net")" != "$own" ]; do sleep 0.1; done
ip link set lo up
ip link add cli0 type veth peer name srv0 netns "$server"
in_server() { nsenter --net="/proc/$server/ns/net" "$@"; }
in_server ip addr add 192.0.2.1/24 dev srv0
in_server ip link set srv0 up
ip link set cli0 up
in_server dnsmasq --keep-in-foreground --conf-file=/dev/null --port=0 --interface=srv0 \
    --bind-interfaces --no-ping --no-hosts --no-resolv --dhcp-authoritative --user= --group= \
    --dhcp-leasefile="$work/leases" --log-facility="$work/dnsmasq" --pid-file= \
    --dhcp-range=192.0.2.50,192.0.2.99,255.255.255.0,2m \
    --dhcp-option=option:T1,4s --dhcp-option=option:T2,60s &
sleep 1

# What the program answers is kept too.
cat >"$work/program" <<END
#!/bin/bash
set -o pipefail
"$program" "\$@" | tee "$work/answers"
END
chmod +x "$work/program"
"$work/carrier" --foreground --program "$work/program" --transcript "$work/transcript" cli0 \
    2>"$work/log" &
carrier=$!
sleep 10
ip -4 addr show dev cli0 >"$work/address"
kill "$carrier"
status=0
wait "$carrier" || status=$?
cat "$work/log"

leases=$(grep -c 'done 192\.0\.2\.' "$work/log")
"$program" run <"$work/transcript" >"$work/replayed"
grep -v -e '^next ' -e '^dropped ' "$work/answers" | cmp - "$work/replayed" && same=yes || same=no
echo "leases $leases, on the interface: $(grep -c 'inet 192\.0\.2\.' "$work/address")," \
    "exit status $status, transcript of $(wc -l <"$work/transcript") lines, replayed alike: $same"
[ "$leases" -ge 3 ] && grep -q 'inet 192\.0\.2\.' "$work/address" && [ "$status" = 0 ] &&
    [ "$same" = yes ] && ! ip -4 addr show dev cli0 | grep -q inet && echo "smoke: ok"
