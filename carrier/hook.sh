# The hook of the carrier where --hook names none: sets an interface by `ip` as a lease says. It
# gets `bound`, `renew` or `deconfig`, and the lease in variables named as for udhcpc's scripts.

address=${ip:-$ipv6}
family=$([ -n "$ip" ] && echo -4 || echo -6)

# The address with its lifetimes, which the kernel counts down.
set_address() {
    lasts=$lease preferred=${preferred:-$lease}
    [ "$lasts" = 4294967295 ] && lasts=forever
    [ "$preferred" = 4294967295 ] && preferred=forever
    ip "$family" addr replace "$address/$mask" dev "$interface" \
        valid_lft "$lasts" preferred_lft "$preferred"
}

# The routes of option 121 take the place of the routers (RFC 3442). With a mask of 32 bits a router
# is reached on the link, although no prefix covers it. Routes that an earlier lease gave, and this
# one doesn't have, are taken off.
set_routes() {
    wanted=
    set -- ${staticroutes:-${router:+0.0.0.0/0 ${router%% *}}}
    while [ $# -ge 2 ]; do
        via="via $2"
        [ "$mask" = 32 ] && via="$via onlink"
        [ "$2" = 0.0.0.0 ] && via=
        ip -4 route replace "$1" $via dev "$interface" proto dhcp metric "$metric"
        wanted="$wanted $1"
        shift 2
    done
    ip -4 route show dev "$interface" proto dhcp | while read -r destination rest; do
        case "$destination" in
            default) destination=0.0.0.0/0 ;;
            */*) ;;
            *) destination=$destination/32 ;;
        esac
        case "$wanted " in
            *" $destination "*) ;;
            *) ip -4 route del "$destination" dev "$interface" proto dhcp ;;
        esac
    done
}

# The name servers of a lease of IPv4; none of a lease that has none.
set_name_servers() {
    [ -n "$RESOLV_CONF" ] || return 0
    {
        [ -z "$domain" ] || echo "search $domain"
        for server in $dns; do echo "nameserver $server"; done
    } >"$RESOLV_CONF"
}

# A prefix is for other interfaces.
[ "$association" = pd ] && exit 0
metric=$((200 + $(cat "/sys/class/net/$interface/ifindex")))
case $1 in
    bound | renew)
        set_address || exit 1
        [ "$family" = -4 ] || exit 0
        [ "${mtu:-0}" -lt 576 ] || ip link set "$interface" mtu "$mtu"
        set_routes
        set_name_servers
        ;;
    deconfig)
        if [ "$family" = -4 ]; then
            ip -4 route flush dev "$interface" proto dhcp
            dns= domain= set_name_servers
        fi
        ip "$family" addr del "$address/$mask" dev "$interface" 2>/dev/null
        ;;
esac
exit 0
