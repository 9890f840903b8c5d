#!/usr/bin/env bash
# Asks git for the trees of the random sets of paths in stdout, and prints each row where it answers another one, and
# how many rows it looked at. Needs git 2.x.
set -e
rows=$(dirname "$(realpath "$0")")/stdout
cd "$(mktemp -d)"
git init -q .
count=0
while IFS= read -r row; do
  text=${row#index read}
  text=${text% = *}
  rm -f .git/index
  printf '%s' "${text# }" | sed 's/\\0/\n/g; s/\\t/\t/g' | git -c core.protectHFS=false update-index --index-info
  [ "$(git write-tree --missing-ok)" = "${row##* = }" ] || echo "git has another tree: $row"
  count=$((count + 1))
done < <(sed -n '/^# Random sets/,/^$/p' "$rows" | grep '^index read')
echo "$count rows"
