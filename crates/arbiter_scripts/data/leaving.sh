# An engine that mates, and closes its input before it says so.
echo 'feature ping=1 usermove=1 setboard=1 myname="leaving" done=1'
while read -r line; do
    case $line in
        'ping '*) echo "pong ${line#ping }" ;;
        'usermove f2f3') echo 'move e7e5' ;;
        'usermove g2g4')
            exec < /dev/null
            echo 'move d8h4'
            ;;
    esac
done
