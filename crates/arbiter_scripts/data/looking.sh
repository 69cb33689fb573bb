# An engine that tells how many lines of its match are written when it starts, and then is a stub. It ends only once more
# lines are written, those of its game, or after ten seconds.
program=$1
shift
lines=$(wc -l < match_output)
echo "$lines" >> seen
"$program" stub "$@"
for _ in $(seq 1000); do
    if [ "$(wc -l < match_output)" -gt "$lines" ]; then
        echo 'and its game' >> seen
        exit
    fi
    sleep 0.01
done
