#!/usr/bin/env bash
# Makes the Debian packages of a built program, and of the gateway: packaging/deb.sh PROGRAM [FOLDER]
#
# They are put into FOLDER, or packaging/out. They are built in a folder of their own, from the
# program as it is: what proves and builds it is not in Debian.
set -eu
if ! { [ $# -ge 1 ] && [ -x "$1" ]; }; then
    echo "no program at ${1:-PROGRAM}: make build leaves one" >&2
    exit 1
fi
program=$(realpath "$1")
top=$(realpath "$(dirname "$0")/..")
mkdir -p "${2:-$top/packaging/out}"
folder=$(realpath "${2:-$top/packaging/out}")
scratch=$(mktemp -d)
trap 'rm -rf "$scratch"' EXIT

tree=$scratch/streetmap
mkdir -p "$tree/packaging"
cd "$top"
for part in README.md CHANGELOG.md LICENSE docs deploy gateway map examples; do
    [ ! -e "$part" ] || cp -R "$part" "$tree"
done
cp -R packaging/install.sh packaging/install_gateway.sh packaging/completion "$tree/packaging"
cp -R packaging/debian "$tree/debian"
cp "$program" "$tree/streetmap"

cd "$tree"
dpkg-buildpackage --build=binary --no-sign
for package in "$scratch"/streetmap_*.deb "$scratch"/streetmap-gateway_*.deb; do
    cp "$package" "$folder"
    echo "The package: $folder/$(basename "$package")"
done
