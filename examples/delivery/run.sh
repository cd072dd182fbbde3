#!/usr/bin/env bash
# Starts shadowd, the delivery application and the control room on an example, and prints two addresses and three codes.
#
#     examples/delivery/run.sh [knowledge|aggression]          Ctrl-C ends all three
#
# What ends of the three is started again after five seconds, with a line on standard error.
#
# FOLDER   where journal, codes and secrets are; a second run in it goes on. Default: a new folder of temporary files
# SHADOWD  the program; default crates/shadowd/out/shadowd
# PYTHON   an interpreter with Flask, Flask-WTF and Waitress; default /usr/bin/python3
# PORT     the application's port on the loopback address; the control room has the next one, shadowd the one after. Default 8080.
#          A second run in a folder has the ports of its settings
set -e
here=$(cd "$(dirname "$0")" && pwd)
python=${PYTHON:-/usr/bin/python3}
refuse() { echo "$1" >&2; exit "$2"; }

umask 077
folder=${FOLDER:-$(mktemp -d)}
mkdir -p "$folder"
folder=$(cd "$folder" && pwd)
setting() { sed -n "s|^$1 = \"\(.*\)\".*|\1|p" "$folder/settings.toml"; }
example=${1:-knowledge} port=${PORT:-8080}
if [ -f "$folder/settings.toml" ]; then
    texts=$(setting texts) listen=$(setting listen)
    example=${texts##*/} port=${listen##*:}
fi
program=$(readlink -f "${SHADOWD:-$here/../../crates/shadowd/out/shadowd}")
[ -d "$here/texts/$example" ] || refuse "usage: run.sh [knowledge|aggression]" 2
[ -x "$program" ] || refuse "$program is not built: see the README of the repository" 1
[[ $port =~ ^[1-9][0-9]{0,4}$ ]] && [ "$port" -le 65533 ] || refuse "PORT is a number from 1 to 65533" 2
"$python" -c 'import flask, flask_wtf, waitress' ||
    refuse "needs: apt-get install python3-flask python3-flaskext.wtf python3-waitress" 1
"$python" - "$port" <<'PORTS' || exit 1
import os, socket, sys
for port in range(int(sys.argv[1]), int(sys.argv[1]) + 3):
    try:
        socket.create_server(("127.0.0.1", port)).close()
    except OSError as error:
        sys.exit(f"port {port} of the three from {sys.argv[1]} on can't be had: {os.strerror(error.errno)}. Nothing was started. "
                 "Give another port by PORT=N, or end what listens there")
PORTS

random() { "$python" -c 'import secrets; print(secrets.token_hex(32))'; }
if [ ! -f "$folder/settings.toml" ]; then
    random > "$folder/secret"
    random | cut -c 1-16 > "$folder/staff_password"
    "$python" "$here/staff.py" "$folder/staff.toml" staff act < "$folder/staff_password"
    random > "$folder/token"
    { cat "$here/../$example/$example.plan.txt"; echo "rate 2 3"; echo "key $(random)"; } > "$folder/plan.txt"
    "$python" - "$here/../$example/$example.map.json" "$folder" <<'MAP'  # a map has the digest of its plan
import hashlib, json, sys
found = json.load(open(sys.argv[1], encoding="utf-8"))
found["sha256"]["plan"] = hashlib.sha256(open(sys.argv[2] + "/plan.txt", "rb").read()).hexdigest()
json.dump(found, open(sys.argv[2] + "/map.json", "w", encoding="utf-8"))
MAP
    cat > "$folder/settings.toml" <<SETTINGS
title = "Example: $example"
listen = "127.0.0.1:$port"
control_listen = "127.0.0.1:$((port + 1))"
server = "127.0.0.1:$((port + 2))"
program = "$program"
bank = "$here/../$example/$example.bank.csv"
plan = "plan.txt"
map = "map.json"
texts = "$here/texts/$example"
journal = "journal"
store = "delivery.sqlite"
secret = "secret"
staff = "staff.toml"
token = "token"
secure_cookies = false  # there is no TLS here, and only this machine reaches the addresses
show_score = false
SETTINGS
fi

# Keeps a program up: after its end it starts again in five seconds, unless a new start would meet the same fault.
keep() {
    local name=$1 for_good=$2 status
    shift 2
    trap 'kill $child 2>/dev/null; exit 0' TERM
    while true; do
        "$@" &
        child=$!
        echo $child > "$folder/$name.pid"
        status=0
        wait $child || status=$?
        case $for_good in *" $status "*)
            echo "run.sh: $name ended with status $status. A new start would meet the same fault, so there is none." >&2
            exit "$status" ;;
        esac
        echo "run.sh: $name ended with status $status. It starts again in five seconds." >&2
        sleep 5 &
        child=$!
        wait $child
    done
}

export SHADOWD_JOURNAL=$folder/journal SHADOWD_LISTEN=127.0.0.1:$((port + 2)) SHADOWD_WORKERS=16
if [ -f "$folder/token" ]; then SHADOWD_TOKEN=$(cat "$folder/token") && export SHADOWD_TOKEN; fi
keep shadowd " 2 3 4 6 11 12 " "$program" serve "$here/../$example/$example.bank.csv" "$folder/plan.txt" &
children=$!
trap 'kill $children 2>/dev/null; wait' EXIT
trap 'exit 0' INT TERM
keep delivery " 1 2 " "$python" "$here/delivery.py" "$folder/settings.toml" &
children="$children $!"
keep control_room " 1 2 " "$python" "$here/control_room.py" "$folder/settings.toml" &
children="$children $!"
alive() { for child in $children; do kill -0 "$child" 2>/dev/null || exit 1; done; }
until (exec 3<>"/dev/tcp/127.0.0.1/$port" 4<>"/dev/tcp/127.0.0.1/$((port + 1))" 5<>"/dev/tcp/127.0.0.1/$((port + 2))") 2>/dev/null; do
    alive
    sleep 0.2
done
alive

echo
echo "The test:          http://127.0.0.1:$port/"
"$python" "$here/booking_desk.py" "$folder/settings.toml" 1001 1002 1003 | sed 's/^\([0-9]*\) /    booking \1     code /'
echo "The control room:  http://127.0.0.1:$((port + 1))/   user staff, password $(cat "$folder/staff_password")"
echo "Journal and codes: $folder"
wait
