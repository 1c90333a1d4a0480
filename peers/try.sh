#!/usr/bin/env bash
# Logs in to the built program with stock peers: FreeRADIUS, wpa_supplicant and radclient.
#
#   try.sh [PROGRAM]      else crates/switch_run/out/switch_run
#
# It makes virtual interfaces in a network namespace of its own, so nothing of this host is touched,
# and starts FreeRADIUS, bridge.py with `serve`, and wpa_supplicant. bob logs in with EAP-MD5, PEAP
# and TLS, a data frame of his goes out tagged with his VLAN, radclient puts him into another VLAN
# and ends his session, and `replay` of the log has to write what the log shows. Some half a minute.
# Status 0 where all was seen, 1 where something was not, 77 where something is missing, which it
# says. With KEEP=1 the folder with all logs stays.
here=$(cd "$(dirname "$0")" && pwd)
program=$(realpath -m "${1:-$here/../crates/switch_run/out/switch_run}")

missing() { echo "try.sh: skipped, $*"; exit 77; }
[ "$1" = --help ] && { sed -n '2,/^here=/s/^# \{0,1\}//p' "$0" | sed '$d'; exit 0; }
for need in "freeradius freeradius" "radclient freeradius-utils" "wpa_supplicant wpasupplicant" \
    "ip iproute2" "openssl openssl" "unshare util-linux"; do
    set -- $need
    PATH=$PATH:/usr/sbin:/sbin command -v "$1" > /dev/null || missing "no $1 (Debian's package $2)"
done
PATH=$PATH:/usr/sbin:/sbin
[ -x "$program" ] || missing "no $program: build it, or name it"
if [ -z "$TRY_INSIDE" ]; then
    how="unshare -n"
    [ "$(id -u)" = 0 ] || how="unshare -rn"
    $how true 2> /dev/null || missing "no right to make a network namespace ($how)"
    TRY_INSIDE=1 exec $how "$here/try.sh" "$program"
fi

work=$(mktemp -d)
own=()
finish() {
    for one in "${own[@]}"; do kill "$one" 2> /dev/null; done
    wait 2> /dev/null
    if [ -n "$KEEP" ]; then echo "all logs are in $work"; else rm -rf "$work"; fi
}
trap finish EXIT
cd "$work" || exit 1
failed=0

# within SECONDS WHAT COMMAND..: says whether the command comes true in that time.
within() {
    local until=$((SECONDS + $1)) what=$2
    shift 2
    while ! "$@" > /dev/null 2>&1; do
        if [ $SECONDS -ge $until ]; then
            echo "NOT SEEN: $what"
            failed=1
            return 1
        fi
        sleep 0.2
    done
    echo "seen: $what"
}
sessions() { python3 "$here/../tools/story.py" --sessions log.1; }
shows() { sessions | grep -Eq "$1"; }

ip link set lo up
for pair in "h1 s1 02:00:00:00:00:aa" "h2 s2 02:00:00:00:00:bb" "u1 u0 02:00:00:00:00:cc"; do
    set -- $pair
    ip link add "$1" address "$3" type veth peer name "$2" 2> /dev/null ||
        missing "no virtual interfaces (ip link add type veth)"
    ip link set "$1" up
    ip link set "$2" up
done

certificates() {
    local subject="/O=try/CN="
    openssl req -x509 -newkey rsa:2048 -nodes -days 2 -subj "${subject}ca" \
        -keyout ca.key -out ca.pem
    for name in server bob; do
        openssl req -newkey rsa:2048 -nodes -subj "$subject$name" -keyout $name.key -out $name.csr
        openssl x509 -req -in $name.csr -CA ca.pem -CAkey ca.key -CAcreateserial -days 2 \
            -out $name.pem
    done
} > openssl.log 2>&1
certificates || missing "openssl makes no certificates: $(tail -1 openssl.log)"

mkdir raddb
cp "$here"/{clients.conf,users,eap} raddb/
sed "s#^raddbdir = .*#raddbdir = $work/raddb#" "$here/radiusd.conf" > raddb/radiusd.conf
cp ca.pem server.key server.pem raddb/
touch raddb/dictionary
freeradius -f -l stdout -xx -d "$work/raddb" > radius.log 2>&1 &
own+=($!)
within 30 "FreeRADIUS is ready" grep -q "Ready to process" radius.log ||
    { tail -3 radius.log; exit 1; }

python3 "$here/bridge.py" --program "$program" --settings "$here/settings" --log log \
    --port 1=s1 --port 2=s2 --uplink u0 > bridge.log 2>&1 &
bridge=$!
own+=($bridge)
within 20 "serve has its ports" grep -q "^# c 2 " log.1 || { cat bridge.log; exit 1; }

# login METHOD LINES: wpa_supplicant with more lines in its network.
login() {
    { sed "/^}/d; s/eap=MD5/eap=$1/" "$here/wired.conf"; printf '%b}\n' "$2"; } > "$1.conf"
    wpa_supplicant -D wired -i h1 -c "$1.conf" -f "$1.log" > /dev/null 2>&1 &
    local supplicant=$!
    own+=($supplicant)
    within 40 "bob logs in with $1" grep -q CTRL-EVENT-EAP-SUCCESS "$1.log" &&
        within 5 "$1: he is let in to VLAN 42" shows "bob +$1[^ ]* +authorised +42"
    if [ "$1" != TLS ]; then
        kill $supplicant
        wait $supplicant 2> /dev/null
    fi
}
login MD5 ""
login PEAP "\tca_cert=\"$work/ca.pem\"\n\tphase2=\"auth=MSCHAPV2\"\n"
bob="\tclient_cert=\"$work/bob.pem\"\n\tprivate_key=\"$work/bob.key\"\n"
login TLS "\tca_cert=\"$work/ca.pem\"\n$bob"

cat > frame.py <<'PYTHON'
"""A data frame of the host goes in on h1; what is the VLAN that it has on the uplink?"""
import sys
import time
sys.path.insert(0, sys.argv[1])
import bridge
host, up = bridge.packet_socket("h1"), bridge.packet_socket("u1")
until = time.monotonic() + 3
host.send(bytes.fromhex("ffffffffffff0200000000aa88b5").ljust(60, b"."))
while time.monotonic() < until:
    octets = bridge.taken(up)
    if octets and octets[6:12].hex() == "0200000000aa" and octets[12:14] == bridge.TAG:
        print("VLAN", int.from_bytes(octets[14:16], "big"))
        break
    time.sleep(0.01)
PYTHON
passes() { [ "$(python3 frame.py "$here")" = "VLAN $1" ]; }
within 5 "a data frame of bob goes out tagged with VLAN 42" passes 42

# asks KIND ATTRIBUTES: a dynamic request; stock senders need the line for attribute 80.
asks() {
    printf '%s, Message-Authenticator = 0x00\n' "$2" |
        radclient -x -r 1 -t 3 127.0.0.1:3799 "$1" testing123 >> radclient.log 2>&1
    grep -q "Received $3" radclient.log
}
station='Calling-Station-Id = "02-00-00-00-00-aa"'
tunnel='Tunnel-Type = VLAN, Tunnel-Medium-Type = IEEE-802, Tunnel-Private-Group-Id = "43"'
within 5 "radclient puts him into VLAN 43: CoA-ACK" asks coa "$station, $tunnel" CoA-ACK
within 5 "the table of sessions has it" shows "bob +TLS +authorised.* 43 "
within 5 "a data frame of bob goes out tagged with VLAN 43" passes 43
within 5 "radclient ends his session: Disconnect-ACK" asks disconnect "$station" Disconnect-ACK
sleep 0.5
if passes 43; then echo "NOT SEEN: after that no frame of bob passes"; failed=1
else echo "seen: after that no frame of bob passes"; fi
sessions

kill $bridge
wait $bridge
if ! grep -q "status 0" bridge.log; then
    echo "NOT SEEN: serve ends with status 0"
    cat bridge.log
    failed=1
fi
if ! "$program" replay < log.1 > again 2> replay.err; then
    echo "NOT SEEN: replay ends with status 0"
    failed=1
fi
if grep '^# ' log.1 | cut -c 3- | cmp -s - again; then echo "seen: replay of the log is the same"
else echo "NOT SEEN: replay of the log is the same"; failed=1; fi
[ $failed = 0 ] && echo "all was seen"
exit $failed
