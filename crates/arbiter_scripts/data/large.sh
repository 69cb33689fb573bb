# Verifies a collection of 64 MiB in 65 pieces with 16 MiB, and a piece of 96 MiB with 64 MiB: large.sh PROGRAM.
# Pieces that are done with are let go, and so is what was read of a piece that is too long. The last piece's fault is
# on the line that the whole collection gives it.
program=$1

# Verifies its input with so many KiB; this file has what is to be written: verifies KIB FILE
verifies() {
    (ulimit -v "$1" && exec "$program" verify --keep-going --quiet --explain) > large 2> complaint
    if ! cmp large "$2" >&2; then
        cat complaint >&2
        exit 1
    fi
}

{
    printf '[Event "x"]\n{'
    head -c 1048559 /dev/zero | tr '\0' a
    printf '} *\n'
} > piece
{
    count=0
    while [ "$count" -lt 64 ]; do
        cat piece
        count=$((count + 1))
    done
    printf '[Event "y"]\n1. e4 e4 *\n'
} | verifies 16384 large.txt || exit

{
    printf '[Event "x"]\n{'
    head -c 100663296 /dev/zero | tr '\0' a
    printf '} *\n[Event "y"]\n1. e4 e4 *\n'
} | verifies 65536 longer.txt
