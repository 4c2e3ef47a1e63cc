# What the scripts that build or copy crates share: how they end, the crates by their lines of crates.txt, and their proofs by the commands
# of `rt`.
# A script sources it at the top of the repository. As it ends, also by a signal, its proof and its temporary folders end with it.

# What a script is called, and its status where it built nothing.
tool=${0##*/} failed=1

# ---- How a script ends ----------------------------------------------------------------------------------------------

# The process group of the proof that runs, the temporary folders, those that were made for them, and whether it was said why it ends.
proof='' rooms=() made=() told=''

# say WORD...: a line for whoever waits.
say() { printf '%s: %s\n' "$tool" "$*" >&2; }

# fail WORD...: says why nothing was built, and ends.
fail() {
    say "$@"
    told=yes
    exit "$failed"
}

# low_on_room FOLDER: tells of a disk that has less than 1 GB left.
low_on_room() {
    df -Pm "$1" "${TMPDIR:-/tmp}" 2>/dev/null | awk 'NR > 1 && $4 < 1024 { printf " (%d MB are left on %s)", $4, $6; exit }'
}

# clean_up STATUS: ends the proof that runs, with all that it started, and removes the temporary folders.
clean_up() {
    trap '' HUP INT TERM
    if [[ -n $proof ]]; then
        # One that has only begun may have no group yet.
        kill -- "-$proof" 2>/dev/null || kill "$proof" 2>/dev/null || true
        wait "$proof" 2>/dev/null || true
    fi
    rm -rf "${rooms[@]}"
    rmdir "${made[@]}" 2>/dev/null || true
    (($1 == 0)) || [[ -n $told ]] || say "nothing was built$(low_on_room .)"
}

# What is told of a stop.
goes_on='What was proved is kept: started again it goes on from there'

# stopped NUMBER: ends by the signal of this number.
stopped() {
    say "stopped. $goes_on"
    told=yes
    exit $((128 + $1))
}

# heed_signals: a signal ends the script.
heed_signals() {
    trap 'stopped 1' HUP
    trap 'stopped 2' INT
    trap 'stopped 15' TERM
}

trap 'clean_up $?' EXIT
heed_signals

# make_room FOLDER: makes a temporary folder in that one, and names it in `room`.
make_room() {
    [[ -e $1 ]] || made+=("$1")
    room=$(mkdir -p "$1" 2>/dev/null && mktemp -d "$1/.new.XXXXXX" 2>/dev/null) || fail "nothing can be written into $1"
    rooms+=("$room")
}

# put_in_place FROM TO: moves all files and links below one folder to their places below another; no signal parts them.
put_in_place() {
    local file
    trap '' HUP INT TERM
    while IFS= read -r -d '' file; do
        mkdir -p "$(dirname "$2/$file")"
        mv -f "$1/$file" "$2/$file"
    done < <(find "$1" ! -type d -printf '%P\0')
    heed_signals
}

# ---- The crates -----------------------------------------------------------------------------------------------------

# What the line of each crate names.
declare -A named=()
while IFS=: read -r crate names; do named[${crate%% *}]=$names; done <crates.txt

# below NAME...: these crates and those below them.
below() {
    local -A seen=()
    local each
    while (($# > 0)); do
        each=$1
        shift
        # A library that has no line is the kit's.
        [[ -n ${named[$each]+here} && -z ${seen[$each]-} ]] || continue
        seen[$each]=1
        # shellcheck disable=SC2086  # names are words
        set -- "$@" ${named[$each]}
    done
    ((${#seen[@]} == 0)) || printf '%s\n' "${!seen[@]}"
}

# lines_of NAME...: the lines of crates.txt for these crates, in its order.
lines_of() {
    local IFS='|'
    grep -E "^($*)( staticlib)?:" crates.txt
}

# is_older FILE NAME...: whether a file isn't there, or is older than crates.txt or some source of these crates and those below.
is_older() {
    local file=$1 sources
    shift
    [[ -e $file ]] || return 0
    mapfile -t sources < <(below "$@" | sed 's|^|crates/|')
    [[ -n $(find crates.txt "${sources[@]/%//src}" "${sources[@]/%//specs}" "${sources[@]/%//proofs}" \
        -newer "$file" -print -quit 2>/dev/null) ]]
}

# ---- Their proofs ---------------------------------------------------------------------------------------------------

# want_rt: ends where there is no rt, or that of a kit with another logic than that which README.md names; tells of another kit with
# the same.
want_rt() {
    local found wanted
    [[ -n $(type -P rt) ]] || fail 'there is no rt on the PATH, which the Rattle kit brings'
    # shellcheck disable=SC2016  # Markdown's marks
    wanted=$(sed -n 's/^Proved with `\(rattle-kit-[^`]*\)`.*/\1/p' README.md)
    found=$(rt version) || fail 'rt version ended with an error'
    [[ $found != "$wanted" ]] || return 0
    [[ $found == *' logic '* && ${found#* logic } == "${wanted#* logic }" ]] ||
        fail "rt is of the kit '$found', and README.md names '$wanted'"
    say "rt is '$found', README.md names '$wanted': the logic is the same"
}

# How many crates are to be proved, and those that are done.
total=0
declare -A finished=()

# plan NAME...: these crates are to be proved, and those below them.
plan() { total=$(below "$@" | wc -l); }

# finish NAME: notes that a crate is done, and those below it.
finish() {
    local each
    while read -r each; do finished[$each]=1; done < <(below "$1")
}

# tell_next NAME: says how many crates are done as one begins: those below it are, and the one before it.
tell_next() {
    [[ $1 != "$next" && -z ${finished[$1]-} ]] || return 0
    [[ -z $next ]] || finish "$next"
    next=$1
    finish "$1"
    unset "finished[$1]"
    say "${#finished[@]} of $total crates are done, now $1"
}

# prove FOLDER COMMAND NAME [WORD...]: has `rt COMMAND` prove a crate of that folder and those below it, and build it.
prove() {
    local command=$2 name=$3 line lines next='' status=0 log=()
    local begins='^rt: ([a-z0-9_]+): begins with |^rt: chose --jobs [0-9]+ for ([a-z0-9_]+)$' ends='^crate ([a-z0-9_]+): '
    exec {lines}< <(cd "$1/crates/$name" && exec setsid rt "$command" "${@:4}" </dev/null 2>&1)
    proof=$!
    while IFS= read -r -u "$lines" line; do
        log+=("$line")
        if [[ $line =~ $begins ]]; then
            tell_next "${BASH_REMATCH[1]}${BASH_REMATCH[2]}"
        elif [[ $line =~ $ends ]]; then
            finish "${BASH_REMATCH[1]}"
        elif [[ $line == 'rt: waiting for '* ]]; then
            say "${line#rt: }"
        fi
    done
    exec {lines}<&-
    wait "$proof" || status=$?
    proof=''
    if ((status > 0)); then
        printf '%s\n' "${log[@]}" | grep -v ': proved$\|^statements \|^note: ' >&2 || true
        fail "rt $command in crates/$name ended with status $status, and nothing was built$(low_on_room .)." \
            'What was proved is kept: started again it goes on from there'
    fi
    finish "$name"
}
