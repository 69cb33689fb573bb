# Plays matches against engines that hang, for each place where they may: hung.sh PROGRAM. Each match ends by itself,
# and the file hung.txt has what they write, their errors, and the status of each.
ln -sf "$1" program

# Plays a match: plays WHITE BLACK OPTION..
plays() {
    white=$1 black=$2
    shift 2
    ./program match --white "$white" --black "$black" --level "0 0:02 0" --flag --reply-timeout 2 "$@" 2> hung_errors
    status=$?
    cat hung_errors
    echo "$white against $black: status $status"
}

{
    for place in handshake deaf pong turn flood quit; do
        plays "sh hanging.sh $place" "./program stub e7e5"
    done
    plays "./program stub e2e4" "sh hanging.sh turn"
    plays "sh hanging.sh turn" "sh hanging.sh quit"
    rm -f resigned
    plays "sh hanging.sh again" "./program stub e2e4" --games 2
} > hung
cmp hung hung.txt >&2
