#!/usr/bin/env bash
# Installs the gateway with its unit and an example of its settings:
#
#     [PREFIX=/usr/local] [DESTDIR=] [UNITS=PREFIX/lib/systemd/system] packaging/install_gateway.sh
#
# DESTDIR is put before each path.
set -eu
prefix=${PREFIX:-/usr/local}
root=${DESTDIR:-}
units=$root${UNITS:-$prefix/lib/systemd/system}
modules=$root$prefix/share/streetmap/gateway
documents=$root$prefix/share/doc/streetmap-gateway
cd "$(dirname "$0")/.."

install -d "$modules/mirror" "$units" "$documents/examples"
install -m 644 -t "$modules" gateway/*.py
install -m 644 -t "$modules/mirror" gateway/mirror/*.py
for part in openapi static templates; do
    install -d "$modules/$part"
    install -m 644 -t "$modules/$part" gateway/"$part"/*
done
install -m 644 -t "$documents" docs/CLIENTS.md
install -m 644 -t "$documents/examples" gateway/gateway.toml
sed -E "s#/usr/share/streetmap#$prefix/share/streetmap#g" deploy/streetmap-gateway@.service \
    > "$units/streetmap-gateway@.service"
chmod 644 "$units/streetmap-gateway@.service"
