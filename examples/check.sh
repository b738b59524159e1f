#!/usr/bin/env bash
# Runs the program on the examples, and compares what it gives with what is kept here: check.sh PROGRAM
set -u
program=$(realpath "$1")
cd "$(dirname "$0")" || exit 1
out=$(mktemp) && err=$(mktemp) || exit 1
trap 'rm -f "$out" "$err"' EXIT
failed=0

# name, wanted status, wanted output (a file), wanted error line, words; the document comes from standard input
check() {
  "$program" "${@:5}" > "$out" 2> "$err"
  local status=$?
  if [ "$status" -eq "$2" ] && cmp -s "$out" "$3" && [ "$(cat "$err")" = "$4" ]; then
    echo "ok: $1"
  else
    echo "failed: $1 ended with $status: $(cat "$err")"
    failed=1
  fi
}

check catalogue.jsonld 0 catalogue.flattened.jsonld '' flatten < catalogue.jsonld
check catalogue.flattened.jsonld 0 catalogue.flattened.jsonld '' flatten < catalogue.flattened.jsonld
check typed.jsonld 0 typed.flattened.jsonld '' flatten < typed.jsonld
check archive.jsonld 0 archive.flattened.jsonld '' flatten < archive.jsonld
check conflict.jsonld 1 /dev/null 'error: conflicting indexes at http://library.example/book/walden' flatten < conflict.jsonld
if command -v jq > /dev/null; then
  check 'two catalogues' 0 merged.flattened.jsonld '' flatten < <(jq -c -n '[inputs[]]' catalogue.jsonld donation.jsonld)
  check 'labels apart' 0 apart.flattened.jsonld '' flatten < <(jq -c -n -f apart.jq loans.jsonld returns.jsonld)
else
  echo 'skipped: what puts two documents together, since there is no jq here'
fi

# its contexts stand in the folder `contexts` beside it
cd library || exit 1
check library.jsonld 0 library.expanded.jsonld '' expand --base http://library.example/ --contexts < library.jsonld
check 'library.jsonld flattened' 0 library.flattened.jsonld '' flatten --base http://library.example/ --contexts < library.jsonld
check 'library.jsonld without its contexts' 1 /dev/null 'error: loading remote context failed at the root' expand < library.jsonld
check wrong.jsonld 1 /dev/null 'error: invalid value object at /@graph/0/author/born' expand --base http://library.example/ --contexts < wrong.jsonld
exit "$failed"
