# The second engine of the stored match: the program as a stub, once two matches of it showed that each game is written
# before the next one begins and before its engines have ended, that an engine that is gone at a game's end ends the
# match, and that an engine that hangs doesn't hold up a match.
program=/proc/$PPID/exe

# Ends this script with a failure if two files differ: same FILE FILE
same() {
    cmp "$1" "$2" >&2 || exit
}

# The engine of `--white` tells, in each game, how many lines were written when it was started, and waits for its game.
: > seen
"$program" match --white "sh looking.sh $program f2f3 g2g4" --black "$program stub e7e5 d8h4" --games 2 > match_output || exit
same seen seen.txt

"$program" match --white "$program stub f2f3 g2g4" --black "sh leaving.sh" --games 2 > left 2> fault
[ $? -eq 1 ] || exit
same left left.txt
same fault fault.txt

# The scripts of each game run this one: once is enough.
[ -e hung ] || sh hung.sh "$program" || exit

exec "$program" stub e7e5 d8h4
