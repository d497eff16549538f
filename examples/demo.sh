#!/usr/bin/env bash
# Shows the program over a file, from a sample town to a kill: bash examples/demo.sh PROGRAM
set -eu
program=$(realpath "$1")
examples=$(dirname "$(realpath "$0")")
port=${PORT:-8099}
folder=$(mktemp -d)
server=
trap '[ -z "$server" ] || kill -KILL "$server" 2> /dev/null; rm -rf "$folder"' EXIT
cd "$folder"

say() { printf '\n# %s\n' "$*"; }

streetmap() {
    echo "\$ streetmap $*"
    "$program" "$@"
}

# Serves the file until it is stopped.
serve() {
    echo "\$ streetmap serve town.streetmap --port $port &"
    : > printed
    "$program" serve town.streetmap --port "$port" >> printed &
    server=$!
    until grep -q listening printed; do sleep 0.1; done
    cat printed
}

stop() {
    echo "\$ kill -KILL \$server"
    kill -KILL "$server"
    wait "$server" 2> /dev/null || true
    server=
}

# Sends a request by curl, or by Python if that is missing: a path, and a batch if one is given.
ask() {
    echo "\$ curl ${2:+-d "'$2'" }'localhost:$port$1'"
    if command -v curl > /dev/null; then
        curl -s ${2:+-d "$2"} "localhost:$port$1"
    else
        python3 - "http://localhost:$port$1" "${2:-}" << 'END'
import sys
import urllib.error
import urllib.request

address, batch = sys.argv[1:]
try:
    answer = urllib.request.urlopen(address, batch.encode() or None)
except urllib.error.HTTPError as refusal:
    answer = refusal
print(answer.read().decode(), end="")
END
    fi
    echo
}

say "An empty file is made, and one batch opens a collection in it."
streetmap create town.streetmap
serve
open='{"op":"open","collection":"lamps","title":"Lamps","time":"set"}'
ask /batches '{"key":"open","edits":['"$open"']}'
stop

say "A sample town is imported as one batch. Sent twice, it acts once and is answered the same."
streetmap import town.streetmap "$examples/town.json" --key town --collection lamps
streetmap import town.streetmap "$examples/town.json" --key town --collection lamps

say "A page of two: the lamps of a box that were set since 2024. Its link 'next' has the rest."
serve
ask '/collections/lamps/items?bbox=0,0,100000,20000&datetime=2024-01-01T00:00:00Z/..&limit=2'

say "A crew moves one lamp and takes one away, by one batch: all or nothing, safe to send again."
moved='{"type":"Feature","id":"L02","geometry":{"type":"Point","coordinates":[24500,16000]},'
moved+='"properties":{"kind":"lamp","set":"2024-05-01"}}'
replace='{"op":"replace","collection":"lamps","feature":'"$moved"'}'
delete='{"op":"delete","collection":"lamps","id":"L03"}'
batch='{"key":"crew-7","edits":['"$replace,$delete"']}'
ask /batches "$batch"
ask /batches "$batch"

say "The server is stopped hard and started again. All that it acknowledged is there."
stop
serve
ask /collections/lamps/items/L02
ask /collections/lamps/items/L03
stop

say "The collection as a GeoJSON text (its first 200 characters)."
streetmap export town.streetmap --collection lamps | cut -c1-200

say "A quarter with streets, lamps, trees and a park is one batch, in a file of its own; and its map."
streetmap create quarter.streetmap
"$program" serve quarter.streetmap --port "$port" --clients 64 > out &
server=$!
until grep -q listening out; do sleep 0.1; done
echo "\$ curl -d @examples/quarter.json localhost:$port/batches"
ask /batches "$(cat "$examples/quarter.json")" | tail -n 1
stop
if PATH=$PATH:/usr/sbin command -v nginx > /dev/null && [ -t 1 ]; then
    python3 "$examples/../deploy/serve_map.py" "$program" quarter.streetmap --port "$port"
else
    echo "make map FILE=town.streetmap serves a file and its map, by nginx and libjs-leaflet of Debian."
fi
