#!/bin/sh
# Reports that a unit has failed: report_failure.sh UNIT, which streetmap-failed@UNIT runs.
#
# It logs a line of the priority `crit`. If MAILTO is set (/etc/default/streetmap), it mails that
# line and the last lines of the unit's log, of each unit at most once an hour.
set -eu
PATH=$PATH:/usr/sbin
unit=$1
mailed=${RUNTIME_DIRECTORY:-/run/streetmap-failed}/$unit
how=$(systemctl show --property=Result,ExecMainStatus,NRestarts "$unit" | tr '\n' ' ')
line="$unit has failed on $(uname -n): ${how% }"

logger --priority daemon.crit --tag streetmap-failed -- "$line"
if [ -z "${MAILTO:-}" ] || [ -n "$(find "$mailed" -mmin -60 2> /dev/null)" ]; then
    exit 0
fi
{
    printf 'To: %s\nSubject: %s has failed on %s\n\n%s\n\n' \
        "$MAILTO" "$unit" "$(uname -n)" "$line"
    journalctl --no-pager --lines=30 --unit="$unit"
} | sendmail -t
touch "$mailed"
