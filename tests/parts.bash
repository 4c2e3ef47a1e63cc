# How `tests/run` and `.ci/run` run parts: commands, each with the last line `N passed, M failed`, side by side, each in a process group of its
# own. A script sources it behind harness.bash. An interruption ends all parts.
# shellcheck disable=SC2154  # what harness.bash sets

# What parts said.
mkdir "$room/said"

# As many parts run at a time as there are processors. So many seconds they have to end once they are stopped.
at_once=$(nproc) patience=10

# Of each part that runs, by its process, its words, and when it began; the parts whose output is seen as it comes.
declare -A running=() began_at=() shown=()

# said NAME: where what a part said is kept.
said() { printf '%s\n' "$room/said/${1//[\/ ]/-}"; }

# note_part NAME: notes the part that was started last.
note_part() { running[$!]=$1 began_at[$!]=$SECONDS; }

# start WORD...: starts a part.
start() {
    set -m
    "$@" >"$(said "$*")" 2>&1 </dev/null &
    set +m
    note_part "$*"
}

# show WORD...: runs a part alone, whose output is seen as it comes.
show() {
    shown[$*]=1
    set -m
    { "$@" 2>&1 </dev/null | tee "$(said "$*")"; exit "${PIPESTATUS[0]}"; } &
    set +m
    note_part "$*"
    reap
}

# run_parts PART...: runs parts, each in one word, in their order as one after another ends.
run_parts() {
    local part words
    for part; do
        ((${#running[@]} < at_once)) || reap
        read -ra words <<<"$part"
        start "${words[@]}"
    done
    while ((${#running[@]})); do reap; done
}

# reap: waits until a part ends, and tells how: its counts and its seconds, and all that it said where something failed.
reap() {
    local pid='' status=0 name seconds text before=("$passed" "$failed")
    wait -n -p pid "${!running[@]}" || status=$?
    name=${running[$pid]} seconds=$((SECONDS - began_at[$pid])) text=$(<"$(said "${running[$pid]}")")
    unset "running[$pid]"
    if add_counts "$text" $status; then
        printf '== %s: %s passed, %s failed, %s s\n' "$name" $((passed - before[0])) $((failed - before[1])) "$seconds"
    else
        fails "$name: it ended with status $status after $seconds s"
    fi
    if [[ -z ${shown[$name]-} ]]; then
        keep_skipped "$name" "$text"
        ((failed == before[1])) || printf '%s\n' "$text"
    fi
}

# ---- What was skipped -----------------------------------------------------------------------------------------------

# Of each reason what was skipped, and the reasons in order.
declare -A skips=()
reasons=()

# keep_skipped NAME TEXT: keeps what a part skipped, by the lines of `skipped`.
keep_skipped() {
    local line why
    while IFS= read -r line; do
        line=${line#skipped, as }
        why=${line%%: *}
        [[ -n ${skips[$why]-} ]] || reasons+=("$why")
        skips[$why]+="; $1: ${line#*: }"
    done < <(grep '^skipped, as .*: ' <<<"$2")
}

# The packages of Debian that bring a tool, or levels, by a word of the reason; what else brings one.
declare -A packages=(
    [black]=black [c++]=g++ [chromium]=chromium [clang-format]=clang-format [cmake]=cmake [compiler]=gcc [curl]=curl [dpkg-deb]=dpkg
    [dpkg-shlibdeps]=dpkg-dev [eslint]=eslint [faketime]=faketime [fish]=fish [flake8]=flake8 [freedm.wad]=freedm
    [freedoom]='freedoom freedm' [freedoom1.wad]='freedoom freedm' [freedoom2.wad]=freedoom [git]=git [groff]=groff
    [lintian]=lintian [man-db]=man-db [mypy]=mypy [nm]=binutils [node]=nodejs [node.js]=nodejs [numpy]=python3-numpy [objdump]=binutils
    [pkg-config]=pkg-config [python]='python3 python3-venv' [python3]=python3 [readelf]=binutils [rsvg-convert]=librsvg2-bin
    [script]=bsdutils [setpriv]=util-linux [shellcheck]=shellcheck [yaml]=python3-yaml [zsh]=zsh
)
declare -A bringers=([cargo]='rustup' [clippy]='rustup' [rustfmt]='rustup' [rt]='the Rattle kit')

# brings WHY: what brings what a reason tells of, in brackets; nothing where that isn't known.
brings() {
    local word
    for word in ${1,,}; do
        word=${word##*[/(]}
        word=${word%%[,\)]*}
        word=${word%"'s"}
        [[ -n $word ]] || continue
        [[ -z ${packages[$word]-} ]] || { printf ' (Debian: %s)' "${packages[$word]}" && return; }
        [[ -z ${bringers[$word]-} ]] || { printf ' (%s brings it)' "${bringers[$word]}" && return; }
    done
}

# tell_skipped: a line for each reason.
tell_skipped() {
    local why
    for why in "${reasons[@]}"; do skipped "$why$(brings "$why")" "${skips[$why]#; }"; done
}

# ---- How it ends early ----------------------------------------------------------------------------------------------

# kill_parts SIGNAL: sends a signal to all that the parts started.
kill_parts() {
    local pid
    for pid in "${!running[@]}"; do kill "-$1" -- "-$pid" || unset "running[$pid]"; done
}

# stop NUMBER: ends all parts, and then the script, as a signal of this number does.
stop() {
    local turn
    trap '' HUP INT TERM PIPE
    exec 2>/dev/null
    printf '%s: stopped. These did not end: %s\n' "$itself" "${running[*]-}"
    kill_parts TERM
    for ((turn = 0; turn < 10 * patience; turn++)); do
        ((${#running[@]})) || break
        sleep 0.1
        kill_parts 0
    done
    kill_parts KILL
    exit $((128 + $1))
}
trap 'stop 1' HUP
trap 'stop 2' INT
trap 'stop 13' PIPE
trap 'stop 15' TERM
