# Prints the help of a script, which is the comment at its head, and ends: with status 0 if --help is asked for, and else, on
# standard error, with status 2.
#
#     usage ARGUMENTS "$@"
usage() {
    local arguments=$1 status=0
    [[ ${2-} == --help ]] || { exec >&2; status=2; }
    echo "usage: ${0##*/} [--help] $arguments"
    sed -n '2,/^[^#]/s/^# \{0,1\}//p' "$0"
    exit "$status"
}

# Sets `into` to the folder that a script has as its one argument, or to the current one.
into_folder() {
    [[ ${1-} != -* && $# -le 1 ]] || usage '[FOLDER]' "$@"
    [[ -d ${1:-.} ]] || { echo "${0##*/}: there is no folder $1" >&2; exit 2; }
    into=$(readlink -f "${1:-.}")
}
