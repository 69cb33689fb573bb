# Plays a game of 20,000 half-moves in a session with 16 MiB: long.sh PROGRAM. After each move, and after each move that is
# taken back, `rep` is how often the position has occurred, as it was counted with no part of this program: Debian's stockfish
# listed the legal moves and gave each position's FEN, chance picked a move, and positions were counted by the first four
# fields of their FENs. No pawn advances two squares, so there are no targets. No position occurs five times and no clock
# gets to 150, so the game needs 133 captures and moves of pawns at least; the start has 138 moves of pawns.
program=$1
start='3k4/4pppp/4pppp/PPP1pppp/PPPPppp1/PPPP4/PPPP4/4K3 w - - 0 1'

{
    echo "setboard $start"
    sed 's/$/\nshowstate/' moves.txt
    sed '1d; s/.*/undo\nshowstate/' moves.txt
} > played
(ulimit -v 16384 && exec "$program" session) < played > states || exit
sed -n 's/^# state ply [0-9]* rep \([0-9]*\) .*/\1/p' states | tr -d '\n' > repetitions
{
    tr -d '\n' < counts.txt
    tr -d '\n' < counts.txt | head -c 19999 | rev
} | tr -d '\n' > wanted
cmp repetitions wanted >&2
