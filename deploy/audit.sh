#!/bin/sh
# Audits a town of this machine: audit.sh journal|stop|file|start NAME [STATE], which
# streetmap-audit@NAME runs with the settings of NAME.conf. STATE (/run) keeps what was stopped.
#
#   journal  compares the files of JOURNAL with the table of DATABASE, or with SOURCE, which may be
#            the changes of a server (journal_digest.py)
#   stop     with AUDIT=stop: stops streetmap@NAME, if it runs
#   file     with AUDIT=stop: replays all batches of the file, and compares all of it with that
#            (`streetmap check --replay`); with AUDIT=copy: the same of a copy that is restored from
#            the journal for it
#   start    starts streetmap@NAME again, if `stop` has stopped it
#
# Its exit status is not 0 if something differs; the fault is on standard error.
set -eu
step=$1 name=$2
deploy=$(dirname "$0")
file=${STATE_DIRECTORY:-/var/lib/streetmap}/$name
stopped=${3:-/run}/streetmap-audit-$name.stopped
unit=streetmap@$name

digest() {
    /usr/bin/python3 -B "$deploy/journal_digest.py" "$JOURNAL" "$@"
}

# The copy is made again each time, and is gone after it.
check_copy() {
    copy=$file.audit
    rm -f "$copy" "$copy-wal" "$copy-journal"
    /usr/bin/python3 -B "$deploy/restore.py" "$JOURNAL" "$copy"
    streetmap check "$copy" --replay
    rm -f "$copy" "$copy-wal"
}

case $step in
journal)
    [ -n "${JOURNAL:-}" ] || exit 0
    case ${DATABASE:-${SOURCE:-}} in
    postgres*) digest --table "${DATABASE:-$SOURCE}" --town="${TOWN:-}" ;;
    /*) digest --other "$SOURCE" ;;
    http*) digest --other "$SOURCE" --login="${SOURCE_LOGIN:-}" --ca="${SOURCE_CA:-}" ;;
    esac
    ;;
stop)
    if [ "${AUDIT:-}" = stop ] && systemctl is-active --quiet "$unit"; then
        touch "$stopped"
        systemctl stop "$unit"
    fi
    ;;
file)
    case ${AUDIT:-} in
    stop) streetmap check "$file" --replay ;;
    copy) check_copy ;;
    esac
    ;;
start)
    [ ! -e "$stopped" ] || systemctl start "$unit"
    rm -f "$stopped"
    ;;
esac
