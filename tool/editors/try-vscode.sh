#!/bin/sh
# The extension for VS Code, run by node with a stand-in for the editor. Where node is not installed nothing is tried, and that is said.
#
#   sh tool/editors/try-vscode.sh [COMMAND]
set -eu
folder=$(cd "$(dirname "$0")" && pwd)
if ! command -v node >/dev/null; then
    echo "node is not installed: the extension for VS Code was not tried"
    exit 0
fi
. "$folder/prepare.sh"
timeout 120 node "$folder/vscode/try.js" mizzengrape "$work/routines/second_club.c"
