#!/bin/sh
# The same as try-neovim.sh in Emacs with eglot; what is seen is held by try-emacs.txt.
#
#   sh tool/editors/try-emacs.sh [COMMAND]
set -eu
folder=$(cd "$(dirname "$0")" && pwd)
emacs=${EMACS:-emacs}
if ! "$emacs" -Q --batch --eval "(progn (package-initialize) (require 'eglot))" 2>/dev/null; then
    echo "Emacs with eglot is not installed: the language server was not tried in it"
    exit 0
fi
. "$folder/prepare.sh"
timeout 120 "$emacs" -Q --batch -f package-initialize -l "$folder/emacs.el" -l "$folder/try-emacs.el" >"$work/seen" 2>"$work/errors" ||
    { cat "$work/seen" "$work/errors"; exit 1; }
held try-emacs.txt
echo "$("$emacs" --version | head -n 1): opened, refused, repaired by the quick fix, accepted"
