# An engine that hangs in one place: hanging.sh handshake, deaf, pong, turn, again, flood or quit. Then nothing but
# SIGKILL ends it: it ignores other signals, reads nothing, and so doesn't see the end of its input either. With deaf it
# asks for more answers than a pipe holds before it hangs, with flood it first writes a line without end in its turn.
# With again it resigns in its first game, and hangs in its turn of the next one.
place=$1
trap '' HUP INT PIPE TERM

# Hangs for 1,000 seconds if this is the place to hang: hang_at PLACE
hang_at() {
    [ "$place" != "$1" ] || exec sleep 1000
}

# Sends 8,000 features that the arbiter has to answer.
ask_much() {
    for _ in 1 2 3 4; do
        echo "feature $(printf 'a=1 %.0s' $(seq 2000))"
    done
}

hang_at handshake
[ "$place" != deaf ] || ask_much
hang_at deaf
echo 'feature ping=1 setboard=1 usermove=1 myname="hanging" done=1'
while read -r line; do
    case $line in
        'ping 1') echo 'pong 1' ;;
        'ping 2') hang_at pong ;;
        go)
            hang_at turn
            [ "$place" != flood ] || cat /dev/zero 2> /dev/null
            hang_at flood
            [ ! -e resigned ] || hang_at again
            case $place in
                again) : > resigned && echo resign ;;
                quit) echo resign ;;
                *) echo 'move e2e4' ;;
            esac
            ;;
        quit) hang_at quit ;;
    esac
done
