# shellcheck shell=sh
# For the scripts that take no words: `no_words TEXT "$@"` prints the text for --help and ends, and refuses any
# other word with the text on standard error.
no_words() {
    text=$1
    shift
    [ $# -gt 0 ] || return 0
    if [ "$*" = --help ]; then
        echo "$text"
        exit 0
    fi
    echo "$text" >&2
    exit 2
}
