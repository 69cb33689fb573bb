# The first engine of the stored match: the program as a stub, after a session of it, arguments that it refuses, the
# verification of 66 games, one of them with a fault, a game of 20,000 half-moves, a collection of 64 MiB, a piece of
# 96 MiB, and the same with less and less memory came out as they must.
# (stockfish played 64 of the games, and pgn-extract wrote them.)
program=/proc/$PPID/exe

# Ends this script with a failure if two files differ: same FILE FILE
same() {
    cmp "$1" "$2" >&2 || exit
}

"$program" session < session.txt > answers || exit
same answers answers.txt

"$program" no such words 2> refused
[ $? -eq 2 ] && grep -q '^Usage: ' refused || exit

"$program" verify < games.pgn > plain
[ $? -eq 1 ] || exit
same plain plain.txt

"$program" verify --keep-going < games.pgn > verified
[ $? -eq 1 ] || exit
same verified verified.txt

"$program" verify --keep-going --explain < games.pgn > explained
[ $? -eq 1 ] || exit
same explained explained.txt

# The scripts of each game run this one: once is enough.
[ -e counts ] || sh long.sh "$program" || exit
[ -e counts ] || sh large.sh "$program" || exit
[ -e counts ] || sh memory.sh "$program" || exit

exec "$program" stub f2f3 g2g4
