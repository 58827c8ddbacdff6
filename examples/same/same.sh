#!/bin/sh
# Tells whether the same declarations win in another sheet, as what a minifier made of it.
#
#     same.sh SHEET OTHER
#     esbuild --minify --loader=css <sheet.css | same.sh sheet.css -
#
# Prints what `cssmin same` finds. Ends with 0 where that is `same`, with 1 where it is anything else, and with the status
# of `cssmin` where a sheet is refused. The variable CSSMIN names another program than the `cssmin` on the PATH.
if [ $# != 2 ]; then
    echo "usage: same.sh SHEET OTHER" >&2
    exit 2
fi
split=$(wc -c <"$1") || exit 4
[ "$2" = - ] || [ -r "$2" ] || { echo "same.sh: $2 cannot be read" >&2; exit 4; }
answer=$(cat -- "$1" "$2" | "${CSSMIN:-cssmin}" same $split) || exit
printf '%s\n' "$answer"
[ "$answer" = same ]
