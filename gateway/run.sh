#!/usr/bin/env bash
# Serves a file and the gateway beside it until it is stopped, as an ordinary user:
# bash gateway/run.sh PROGRAM FILE [SETTINGS]. The file is made if it is missing.
set -eu
program=$(realpath "$1")
file=$(realpath "$2")
gateway=$(dirname "$(realpath "$0")")
settings=$(realpath "${3:-$gateway/gateway.toml}")
cd "$(dirname "$gateway")"

# The gateway's own reading of its settings: the server's port, and the address for clients.
read -r port address < <(/usr/bin/python3 -c '
import sys, urllib.parse
from pathlib import Path
from gateway.settings import read_settings

settings = read_settings(Path(sys.argv[1]))
print(urllib.parse.urlsplit(settings.server.address).port or 80, settings.address)
' "$settings")

[ -e "$file" ] || "$program" create "$file"
"$program" serve "$file" --port "$port" --clients 64 &
server=$!
trap 'kill "$server" 2> /dev/null || true' EXIT
echo "The gateway: $address/ Stop it with Control-C."
/usr/bin/python3 -m gateway "$settings"
