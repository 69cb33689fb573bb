# Takes the program that `rt run` or `rt ci` proved in this checkout, if no source was changed since it was written (so
# sources should not be edited while it is proved). Otherwise it copies the crates that the program needs to a folder
# where `rt all check` proves several at a time, and builds it by `rt run` there. Both take over what their earlier runs
# proved. The script `arbiter` reads this file where the program is not built.

# The copies are outside the checkout: there `rt ci` refuses sources that are not in crates/.
copies=~/.cache
[[ ${XDG_CACHE_HOME-} != /* ]] || copies=$XDG_CACHE_HOME
copies+=/chess_arbiter/${top##*/}-$(sha256sum <<<"$top" | head -c 16)
log=$copies/log
no_copy="the sources can't be copied to $copies"

# Writes a message to standard error.
say() { echo "arbiter: $*" >&2; }
# Ends the build with a reason.
fail() { say "$*: the program was not built"; exit 1; }

# Makes folders for a crate and all below it, each once, and copies their lines of crates.txt. A name that has no line
# there is a library of the toolchain.
choose() {
    local line it
    line=$(grep "^$1[: ]" "$top/crates.txt") && ! grep -q "^$1[: ]" "$copies/crates.txt" || return 0
    mkdir -p "$copies/crates/$1" && echo "$line" >>"$copies/crates.txt" || return
    for it in ${line#*:}; do choose "$it" || return; done
}

# Lists the crates that the program needs, their folders, and the sources as they are.
list() {
    (cd "$copies" && show) && : >"$copies/crates.txt" && choose arbiter && [ -s "$copies/crates.txt" ] || return
    sed 's,[: ].*,,; s,.*,crates/&/src\ncrates/&/specs\ncrates/&/proofs,' "$copies/crates.txt" >"$out/folders" || return
    # A source that is edited from here on will differ from this list, so the next start builds again.
    before=$(sources)
}

# Whether a program was proved in this checkout, and no source, and no folder of sources, was changed since it was
# written.
is_proved() {
    local folders
    mapfile -t folders <"$out/folders"
    [ -x "$proved" ] && [ -s "$proved" ] && cd "$top" &&
        [ -z "$(find -L crates.txt HANDLES "${folders[@]}" -newercm "$proved" -print -quit 2>/dev/null)" ]
}

# Copies src, specs and proofs of the crates that the program needs anew. What rt keeps beside the copies stays as long
# as the crate is needed.
copy() {
    local it
    cp -p "$top/HANDLES" "$copies" || return
    for it in "$copies"/crates/*; do grep -q "^${it##*/}[: ]" "$copies/crates.txt" || rm -rf "$it"; done
    for it in "$copies"/crates/*; do
        rm -rf "$it"/[sp]* && cp -pR "$top/crates/${it##*/}"/[sp]* "$it" || return
    done
}

# Hides the two crates above all others from `rt all check`, which proves each crate on one processor, and would prove
# these alone.
hide() {
    local it
    mkdir hidden && cp crates.txt hidden || return
    grep -vE '^(chess_)?arbiter:' hidden/crates.txt >crates.txt
    for it in crates/chess_arbiter crates/arbiter; do [ ! -d "$it" ] || mv "$it" hidden || return; done
}

# Shows what is hidden, also by a build that was ended at any moment, to `rt run`, which proves one crate after another,
# on several processors each.
show() {
    local it
    for it in hidden/chess_arbiter hidden/arbiter; do [ ! -d "$it" ] || mv "$it" crates || return; done
    [ ! -f hidden/crates.txt ] || mv hidden/crates.txt . || return
    rm -rf hidden
}

# Proves as many crates at a time as there are processors, and on four or more also others, since not all are busy, with
# 1.5 GB of memory for each, but at most eight, since more are hardly ever ready. At the end rt runs the program; what
# that prints goes to the log, too.
prove() {
    [[ $(</proc/meminfo) =~ MemAvailable:\ *([0-9]+) ]]
    set -- "$(nproc)" $((BASH_REMATCH[1] / 1500000))
    set -- "$(printf '%s\n' 8 $(($1 + $1 / 4)) "$2" | sort -n | head -n 1)"
    cd "$copies" && hide || return
    [ ! -s crates.txt ] || (cd ./crates && exec rt all check --jobs $(($1 > 0 ? $1 : 1)))
    set -- $?
    show && [ "$1" -eq 0 ] || return $(($1 > 0 ? $1 : 1))
    cd ./crates/arbiter && rt run -- --version && grep -oE '^(chess_)?arbiter:' ../../crates.txt | sed 's/^/== /'
}

# Shows how many crates of all are proved, and the minutes so far: on a terminal in one line, which is rewritten.
follow() {
    local line proved=0 step shown='' form='arbiter: %s\n' clear=''
    [ ! -t 2 ] || form='\r\e[Karbiter: %s' clear='\r\e[K'
    while
        step="$proved of $1 crates proved ($((SECONDS / 60)) min)"
        [ "$step" = "$shown" ] || printf "$form" "$step" >&2
        shown=$step
        IFS= read -r -t 60 line || [ $? -gt 128 ] # a minute has passed
    do
        case $line in
            '' | '== summary') ;;
            '== '*) : $((proved += 1)) ;;
            *) printf "$clear%s\n" "$line" >&2 ;;
        esac
    done
    printf "$clear" >&2
}

# Ends the build, after what rt printed but for its lines on what was proved, with the reason why it failed. The first
# argument is rt's status, or a reason in words; the second is not 0 if a part of the log could not be written.
fail_by() {
    [ -f "$log" ] || fail "$copies was deleted meanwhile"
    grep -avE ': (proved|ok)$|: modules loaded=|^(so far: |checked .* of [0-9]+$|by-macro: |logic |logic=proved )' "$log" >&2
    local free=$(($(df -k --output=avail "$copies" | tail -n 1)))
    [ "$2" -eq 0 ] && [ "$free" -ge 10000 ] && ! grep -aqE 'No space left|quota exceeded' "$log" ||
        fail "the disk is full ($free kB are left for $copies)"
    [ "$kills" = "$(grep -s '^oom_kill ' /proc/vmstat)" ] || set -- 137 # the kernel killed a process, maybe one of rt's
    case $1 in
        0) fail "rt left no program" ;;
        1) fail "a proof was refused, as the lines above say" ;;
        137 | 247) fail "rt was killed, most likely for lack of memory" ;; # 247 is -9: a check was killed
        *[!0-9]*) fail "$1" ;;
        *) fail "rt ended with status $1, as the lines above say" ;;
    esac
}

# Proves and builds the program in the copies.
build_in_copies() {
    copy 2>"$log" || fail_by "$no_copy" 0
    say "proving and building the program (README says how long the first build takes); the log is $log"
    local crates=$(grep -c '' "$copies/crates.txt")
    prove 2>&1 9<&- | tee "$log" | grep -a --line-buffered -e '^== ' -e '^rt: .*waiting' | follow "$crates"
    set -- "${PIPESTATUS[@]:0:2}"
    proved=$copies/crates/arbiter/out/arbiter
    [ "$1" -eq 0 ] && [ -x "$proved" ] || fail_by "$@"
}

# Builds once nothing else does. The lock is on the folder of this file, since git replaces files.
build() {
    local before kills proved=$top/crates/arbiter/out/arbiter
    trap '' PIPE TTOU
    for it in rt flock find sort grep sed; do command -v "$it" >/dev/null || fail "$it is not on the path"; done
    find "$top/crates.txt" -printf '' 2>/dev/null || fail "find is not GNU find"
    exec 9<"$top/build"
    flock -n 9 || [ $? -ne 1 ] || { say "waiting for another build to end"; flock 9; }
    ! is_built || return 0
    mkdir -p "$out" "$copies" && : >"$log" || fail "$out or $copies can't be written"
    kills=$(grep -s '^oom_kill ' /proc/vmstat)
    list 2>"$log" || fail_by "$no_copy" 0
    is_proved || build_in_copies
    # Until now the former program has the former list. A part of a list, from a full disk, differs from the sources.
    # The program gets the time when its sources were listed: what was edited since is newer, as tools/check asks.
    rm -f "$out/sources" && cp --remove-destination "$proved" "$out" && touch -r "$out/folders" "$out/arbiter" &&
        printf '%s\n' "$before" >"$out/sources" || fail "$out can't be written"
}

# Ends the build with all that it started, and then this script by the same signal.
end() {
    kill -KILL -- "-${!-}" # rt's own processes end when it does
    wait
    trap - "$1"
    kill -s "$1" $$
    exit $((128 + $(kill -l "$1"))) # bash itself ignores SIGQUIT
} 2>/dev/null

for it in INT TERM HUP QUIT; do trap "end $it" "$it"; done
# The build is a process group of its own, and leaves standard input to the program.
set -m
build </dev/null &
set +m
# bash reports here on its standard error that the group was ended.
{ wait $!; } 2>/dev/null || exit 1
