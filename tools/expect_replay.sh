#!/usr/bin/env bash
# Writes what the program replay must print of its recorded answers, crates/replay/stdin: how many lines of each kind there are, as grep counts
# them, none unread and no difference.
set -eu
cd "$(dirname "$0")/../crates/replay"
all=0
for word in asks type size kept keeps flags kind int big time tape tray; do
  count=$(grep -c "^$word " stdin || true)
  echo "$word $count"
  all=$((all + count))
done > stdout
comments=$(grep -c '^#' stdin || true)
if [ $((all + comments)) -ne "$(wc -l < stdin)" ]; then
  echo "stdin has lines of no kind" >&2
  exit 1
fi
printf 'comments %s\nunread 0\n%s cases, 0 differences\n' "$comments" "$all" >> stdout
