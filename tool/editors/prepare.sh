# shellcheck shell=sh
# Taken in by the trials of editors: a home of their own, so that nothing of the user's set-up is read or written; in it a folder with the second
# club's routine; the command on the PATH.
command=$(realpath "${1:-$folder/../target/release/mizzengrape}")
work=$(mktemp -d)
trap 'rm -rf "$work"' EXIT
mkdir "$work/bin" "$work/routines"
ln -s "$command" "$work/bin/mizzengrape"
cp "$folder/../../routines/second_club.c" "$work/routines/"
export HOME="$work" XDG_CONFIG_HOME="$work" XDG_DATA_HOME="$work" XDG_STATE_HOME="$work" XDG_CACHE_HOME="$work" PATH="$work/bin:$PATH"
cd "$work/routines" || exit 1

# What was seen is what a file of this folder holds; with WRITE=1 it is written anew.
held() {
    if [ -n "${WRITE:-}" ]; then
        cp "$work/seen" "$folder/$1"
    fi
    diff "$folder/$1" "$work/seen" || { cat "$work/errors"; exit 1; }
}
