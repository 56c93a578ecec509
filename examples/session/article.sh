#!/usr/bin/env bash
# Sets an article in pages as article.py does, with `boxglue session` as a coprocess: article.sh OUT.dvi TFM < article.txt
set -euo pipefail
width=300 height=150 page=0

coproc boxglue session "$1" "cmtt10=$2"
session=$COPROC_PID to=${COPROC[1]}
# Copies of its ends: bash closes its own as soon as the session is over.
exec 3<&"${COPROC[0]}" 4>&"$to" {to}>&-

# Gives commands. The words of the answer to the last one are in `answer`.
ask() {
  local command
  printf '%s\n' "$@" >&4
  for command; do
    read -ra answer <&3 || exit 1
    [[ ${answer[1]} != refused && ${answer[0]} != refused ]] || { echo "$command: ${answer[*]}" >&2; exit 1; }
  done
}

# Ships pages while the galley has this height in whole points. The answer is `LINE: measured vbox W H D`, or `LINE: measured void`.
ship_pages() {
  while ask 'measure 0'; [[ ${answer[2]} = vbox && ${answer[4]%%.*} -ge $1 ]]; do
    page=$((page + 1))
    ask "vsplit 0 to ${height}pt into 1" "vbox to $((height + 20))pt into 1" 'box 1' 'glue 0pt plus 1fil' \
      "hbox to ${width}pt" 'glue 0pt plus 1fil' "text $page" 'glue 0pt plus 1fil' 'end' 'end' 'ship 1'
  done
}

ask 'font 0 cmtt10' 'use 0' "set hsize ${width}pt" 'set tolerance 10000'
while read -r paragraph; do
  ask 'vbox into 0' 'unvbox 0' 'par' "text $paragraph" 'end' 'glue 6pt' 'end'
  ship_pages "$height"
done
ship_pages 1
exec 4>&-
cat <&3
wait "$session"
