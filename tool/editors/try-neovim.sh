#!/bin/sh
# Neovim without a screen opens the second club's routine, reads its diagnostics, applies the quick fix and reads that there are none. What is
# seen is held by try-neovim.txt (WRITE=1 writes it anew). Where nvim is not installed nothing is tried, and that is said.
#
#   sh tool/editors/try-neovim.sh [COMMAND]      by default the release build of this repository
set -eu
folder=$(cd "$(dirname "$0")" && pwd)
if ! command -v nvim >/dev/null; then
    echo "neovim is not installed: the language server was not tried in it"
    exit 0
fi
. "$folder/prepare.sh"
timeout 120 nvim --headless -n -i NONE -u "$folder/neovim.lua" second_club.c -c "luafile $folder/try-neovim.lua" \
    >"$work/seen" 2>"$work/errors" || { cat "$work/seen" "$work/errors"; exit 1; }
held try-neovim.txt
echo "$(nvim --version | head -n 1): opened, refused, repaired by the quick fix, accepted"
