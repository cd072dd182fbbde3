#!/usr/bin/env bash
# Writes settings of the adapter for an example, with a new key and a new token: make_settings.sh FOLDER [knowledge|aggression]
# A folder that has settings is left as it is. shadowd is asked at SHADOWD_LISTEN, which is 127.0.0.1:4710 if it is not set.
set -e
here=$(cd "$(dirname "$0")" && pwd)
folder=${1:?usage: make_settings.sh FOLDER [knowledge|aggression]} example=${2:-knowledge}
[ -d "$here/../delivery/texts/$example" ] || { echo "usage: make_settings.sh FOLDER [knowledge|aggression]" >&2; exit 2; }
[ ! -e "$folder/settings.toml" ] || { echo "$folder has settings" >&2; exit 1; }
umask 077
mkdir -p "$folder"
for name in key token; do od -An -N32 -tx1 /dev/urandom | tr -d ' \n' > "$folder/$name"; done
cat > "$folder/settings.toml" <<SETTINGS
listen = "127.0.0.1:8090"
store = "adapter.sqlite"
key = "key"
token = "token"

[examinations.$example]
server = "${SHADOWD_LISTEN:-127.0.0.1:4710}"
bank = "$here/../$example/$example.bank.csv"
plan = "$here/../$example/$example.plan.txt"
map = "$here/../$example/$example.map.json"
texts = "$here/../delivery/texts/$example"
SETTINGS
echo "$folder/settings.toml"
