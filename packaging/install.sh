#!/usr/bin/env bash
# Installs a built program with its manual pages, completion, documents, map page, units, settings,
# and the scripts of journals and followers:
#
#     [PREFIX=/usr/local] [DESTDIR=] [UNITS=PREFIX/lib/systemd/system] packaging/install.sh PROGRAM
#
# DESTDIR is put before each path. Files in /etc that are there already stay as they are.
set -eu
if ! { [ $# = 1 ] && [ -x "$1" ]; }; then
    echo "no program at ${1:-PROGRAM}: make build leaves one" >&2
    exit 1
fi
program=$(realpath "$1")
prefix=${PREFIX:-/usr/local}
root=${DESTDIR:-}
units=${UNITS:-$prefix/lib/systemd/system}
documents=$prefix/share/doc/streetmap
cd "$(dirname "$0")/.."

# put FOLDER FILE ..: installs files, which programs read, in a folder.
put() {
    install -d "$root$1"
    install -m 644 -t "$root$1" "${@:2}"
}

# put_as PATH FILE: installs a file under a name, with the paths of the prefix in place of /usr.
put_as() {
    install -d "$root$(dirname "$1")"
    sed -E "s#/usr/(bin|share)/streetmap#$prefix/\1/streetmap#g" "$2" > "$root$1"
    chmod 644 "$root$1"
}

# settings PATH FILE: the same, if PATH does not exist.
settings() {
    [ -e "$root$1" ] || put_as "$1" "$2"
}

install -D "$program" "$root$prefix/bin/streetmap"
put "$prefix/share/man/man1" docs/man/streetmap.1
put "$prefix/share/man/man8" docs/man/streetmap-rotate-journal.8
put_as "$prefix/share/bash-completion/completions/streetmap" packaging/completion/streetmap.bash

put "$documents" README.md CHANGELOG.md
put "$documents/docs" docs/*.md docs/openapi.json
put "$documents/examples" examples/*.json
[ ! -e LICENSE ] || put "$documents" LICENSE

if [ -d map ]; then
    find map -type f -printf '%h\n' | sort -u | while read -r folder; do
        mapfile -t files < <(find "$folder" -maxdepth 1 -type f)
        put "$prefix/share/streetmap/$folder" "${files[@]}"
    done
fi

put "$prefix/share/streetmap/deploy" \
    deploy/{follow,journal_changes,journal_files,journal_lines,journal_mirror,journal_table}.py \
    deploy/{journal_digest,journal_lease,journal_tiles,journal_to_postgres,program,restore}.py \
    deploy/{exporter,mirror_check}.py deploy/{alerts.yml,dashboard.json}
put "$prefix/share/streetmap/deploy/postgis" deploy/postgis/*
install -m 755 -t "$root$prefix/share/streetmap/deploy" \
    deploy/{rotate_journal.py,report_failure.sh,audit.sh}
install -d "$root$prefix/sbin"
ln -sf ../share/streetmap/deploy/rotate_journal.py "$root$prefix/sbin/streetmap-rotate-journal"
for unit in streetmap streetmap-{audit,backup,failed,follower,journal}; do
    put_as "$units/$unit@.service" "deploy/$unit@.service"
done
put "$units" deploy/streetmap-{audit,backup}@.timer
put_as "$units/streetmap-exporter.service" deploy/streetmap-exporter.service
settings /etc/streetmap/town.conf deploy/town.conf
settings /etc/default/streetmap deploy/streetmap.default
if [ -e deploy/nginx.conf ] && [ -e deploy/locations.conf ]; then
    settings /etc/nginx/sites-available/streetmap deploy/nginx.conf
    settings /etc/nginx/streetmap/locations.conf deploy/locations.conf
    settings /etc/nginx/streetmap/nginx-followers.conf deploy/nginx-followers.conf
    settings /etc/nginx/streetmap/gateway.conf deploy/gateway.conf
    settings /etc/nginx/streetmap/nginx-cache.conf deploy/nginx-cache.conf
    settings /etc/nginx/streetmap/cache-locations.conf deploy/cache-locations.conf
fi
