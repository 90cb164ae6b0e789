# What the scripts of checks/ that run tools have in common: a scratch folder, which is removed at the end, and a test of how a
# command ends.
set -euo pipefail
cd "$(dirname "${BASH_SOURCE[0]}")/.."
folder=$(mktemp -d)
trap 'rm -rf "$folder"' EXIT
: > "$folder/in"
fail() { echo "${0##*/}: $*"; exit 1; }
# A command has to end with this status within two minutes and print this message, without a traceback. It reads the file `in`.
ends() {
    local wanted=$1 message=$2 status=0
    shift 2
    timeout 120 "$@" > "$folder/out" 2> "$folder/err" < "$folder/in" || status=$?
    if [[ $status != "$wanted" ]] || ! { [[ -z $message ]] || grep -q -e "$message" "$folder/out" "$folder/err"; } || grep -q Traceback "$folder/err"; then
        fail "$*: status $status: $(cat "$folder/out" "$folder/err")"
    fi
}
