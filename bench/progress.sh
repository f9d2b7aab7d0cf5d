# shows TEXT: how far a measurement is, in one line of standard error, where that is a terminal; no text clears it
shows() {
    [ ! -t 2 ] || printf '\r\033[K%s' "$*" >&2
}
