# What all tests in bash share: what they are run on, checks and cases that count, what tells of tools that aren't there, how they end, and
# the last line, `N passed, M failed`.
# A test sources it first. It then stands at the top of the checkout, and has a temporary folder, `room`, that ends with it.
# shellcheck disable=SC2034,SC2154  # what only tests use, and what they set
set -uo pipefail
export LC_ALL=C PYTHONDONTWRITEBYTECODE=1

# Where it was started, the top, and the test by its name there.
began=$PWD root=$(dirname "$(dirname "$(readlink -f "${BASH_SOURCE[0]}")")") itself=$(readlink -f "$0")
itself=${itself#"$root/"}
cd "$root" || exit 1

# path_of FILE: the whole path of a file that was named where the test was started.
path_of() { (cd "$began" && realpath -m -- "$1"); }

# ---- What is tested -------------------------------------------------------------------------------------------------

# The programs, the prefix with include/ and lib/ of the library, and the folder of the page: those that these variables name, and else
# what is built.
export WADLOOK=${WADLOOK:-$root/crates/wadlook/out/wadlook} WADLENS=${WADLENS:-$root/crates/wadlens/out/wadlens}
export RELEASED_CASES=${RELEASED_CASES:-$root/crates/released_cases/out/released_cases}
export LIBRARY=${LIBRARY:-$root/out} PAGE=${PAGE:-$root/web/out}

# The sample, and the folder of Freedoom's levels.
sample=$root/sample/base.wad games=${FREEDOOM:-/usr/share/games/doom}

# want FILE...: ends a test that is run on these, where one isn't there.
want() {
    local file
    for file; do
        [[ -e $file ]] || { fails "$itself: there is no $file" && end; }
    done
}

# ---- How a test ends ------------------------------------------------------------------------------------------------

passed=0 failed=0
room=$(mktemp -d) || exit 1

# leave: takes the temporary folder away, also what is shut in it.
leave() { chmod -R u+rwx "$room" && rm -rf "$room"; }
trap leave EXIT

# add_up: tells the last line; whether nothing failed.
add_up() {
    printf '%s passed, %s failed\n' "$passed" "$failed"
    ((failed == 0))
}

# end: ends the test with the last line.
end() {
    add_up
    exit
}

# ---- Checks ---------------------------------------------------------------------------------------------------------

passes() { passed=$((passed + 1)); }

# fails NAME [TEXT]: counts a failed check, and shows what it said.
fails() {
    failed=$((failed + 1))
    printf 'FAILED %s\n' "$1"
    [[ $# -eq 1 ]] || printf '%s\n' "$2"
}

# check NAME CMD..: passes where the command succeeds, and else shows what it said.
check() {
    local said
    if said=$("${@:2}" 2>&1); then passes; else fails "$1" "$said"; fi
}

# check_silent NAME CMD..: passes where the command succeeds and says nothing.
check_silent() { check "$1" says_nothing "${@:2}"; }

# says_nothing CMD..: whether a command succeeds and says nothing; it shows what was said.
says_nothing() {
    local said status=0
    said=$("$@" 2>&1) || status=$?
    [[ -z $said ]] || printf '%s\n' "$said"
    [[ -z $said && $status == 0 ]]
}

# add_counts TEXT STATUS: adds the numbers of a text's last line; whether it has some that go with the status.
add_counts() {
    local numbers='^([0-9]+) passed, ([0-9]+) failed$'
    [[ ${1##*$'\n'} =~ $numbers ]] && (($2 == 0 || BASH_REMATCH[2] > 0)) || return
    passed=$((passed + BASH_REMATCH[1])) failed=$((failed + BASH_REMATCH[2]))
}

# counted NAME CMD..: adds the numbers of the command's last line, and shows what it said where some failed, and else what it skipped.
counted() {
    local said status=0 before=$failed
    said=$("${@:2}" 2>&1) || status=$?
    if ! add_counts "$said" $status; then
        fails "$1" "$said"
    elif ((failed > before)); then
        printf 'FAILED %s\n%s\n' "$1" "$said"
    else
        grep '^skipped, as ' <<<"$said"
    fi
}

# run_groups GROUP...: runs the function `cases_of_GROUP` of each.
run_groups() {
    local group
    for group; do
        if declare -F "cases_of_$group" >/dev/null; then "cases_of_$group"; else fails "there is no group $group"; fi
    done
}

# ---- What is skipped ------------------------------------------------------------------------------------------------

# skipped WHY WHAT: tells what isn't tested. `tests/run` goes by this form.
skipped() { printf 'skipped, as %s: %s\n' "$1" "$2"; }

# skip WHY WHAT: ends a test that tests nothing here.
skip() {
    skipped "$1" "$2"
    end
}

# is_there TOOL...: whether one of these is on the PATH.
is_there() { [[ -n $(type -P "$@") ]]; }

# wants TOOL WHAT: whether a tool is there; tells what is skipped where it isn't.
wants() { is_there "$1" || { skipped "there is no $1" "$2" && return 1; }; }

# by TOOL CHECK NAME CMD..: a check, where the tool is there.
by() { ! wants "$1" "$3" || "${@:2}"; }

# has_python N: whether there is Python 3.N or a later one; wants_python N WHAT: tells what is skipped where there isn't.
has_python() { is_there python3 && python3 -c "import sys; sys.exit(sys.version_info < (3, $1))"; }
wants_python() { has_python "$1" || { skipped "there is no Python 3.$1" "$2" && return 1; }; }

# wants_cargo WHAT: whether there is a cargo that takes the crate in rust/.
wants_cargo() {
    local minor
    minor=$(cargo --version 2>/dev/null | sed -n 's/^cargo 1\.\([0-9]*\)\..*/\1/p')
    ((${minor:-0} >= 81)) || { skipped 'there is no cargo 1.81' "$1" && return 1; }
}

# run_node FILE WORD...: runs Node.js where the test was started, in the machine's own language, which Chromium goes by.
run_node() { (cd "$began" && unset LC_ALL && node "$root/$1" "${@:2}"); }

# wants_chromium WHAT: whether there are Chromium and the Node.js that drives it.
wants_chromium() {
    local version
    wants node "$1" || return
    version=$(node --version)
    version=${version#v}
    ((${version%%.*} >= 20)) || { skipped "there is no Node.js 20, and node is $version" "$1" && return 1; }
    is_there chromium chromium-browser google-chrome google-chrome-stable || { skipped 'there is no Chromium' "$1" && return 1; }
}

# ---- Cases of a program ---------------------------------------------------------------------------------------------
# INPUT, OUTPUT, ERROR and LEFT are texts as printf %b takes them. What a run gave stands in the files `status`, `output`, `error` and `left`.

memory=''

# What runs "$@" within $0 KiB of memory, which it takes from the machine no sooner than it needs it.
# shellcheck disable=SC2016  # it is expanded by the shell that runs it
limited='export GLIBC_TUNABLES=glibc.malloc.top_pad=0; ulimit -v "$0" && exec "$@"'

# run_on INPUT WORD...: runs `program`, within so many KiB of memory as `memory` says, and keeps its status, what it wrote and what it
# left of its input.
run_on() {
    local within=()
    [[ -z $memory ]] || within=(bash -c "$limited" "$memory")
    printf '%b' "$1" >input
    {
        timeout 60 "${within[@]}" "$program" "${@:2}" >output 2>error
        printf '%s' $? >status
        cat >left
    } <input
}

# transcript STATUS OUTPUT ERROR [LEFT]: the files of a run as one text.
transcript() {
    printf 'status %s\n--- standard output\n' "$(<"$1")"
    cat "$2"
    printf -- '--- standard error\n'
    cat "$3"
    [[ $# -eq 3 ]] || { printf -- '--- left of the input\n' && cat "$4"; }
}

# judge NAME STATUS OUTPUT ERROR [LEFT]: counts a case, by what its run gave and what is wanted.
judge() {
    local names=(status output error left)
    names=("${names[@]:0:$#-1}")
    printf '%s' "$2" >status.wanted
    printf '%b' "$3" >output.wanted
    printf '%b' "$4" >error.wanted
    printf '%b' "${5-}" >left.wanted
    transcript "${names[@]/%/.wanted}" >wanted
    transcript "${names[@]}" >came
    if cmp -s wanted came; then passes; else fails "$1" "$(apart)"; fi
}

# apart: what was wanted and what came of a case, as far as they are to be shown.
apart() {
    local each
    for each in wanted came; do
        printf -- '------ %s, %s bytes\n' "$each" "$(stat -c %s "$each")"
        head -c 1500 "$each" | cat -v
        echo
    done
    printf -- '------\n'
}

# ---- What pages show ------------------------------------------------------------------------------------------------

# What docs/CALLING.md calls each language.
declare -A languages=([c]=C [cpp]=C++ [python]=Python [rust]=Rust)

# example LANGUAGE [check|findings]: the example in docs/CALLING.md in a language, which prints sectors, or that which prints what is found in
# files, or in one level.
example() {
    awk -v fence="\`\`\`$*" -v heading="## ${languages[$1]}" '
        /^## / { here = $0 == heading; next }
        here && $0 == fence { inside = 1; next }
        /^```/ { inside = 0 }
        inside' "$root/docs/CALLING.md"
}

# prints_sectors CMD..: what each example prints; some read the sample as their input.
prints_sectors() { diff <(printf 'sector 1, sector 0\n') <("$@" <"$sample"); }

# compiles_by_cmake PREFIX: whether CMake finds the library below a prefix, compiles the page's example in C with the shared object and with
# the archive, and refuses a version that is to come.
compiles_by_cmake() {
    local project=$room/cmake each
    rm -rf "$project"
    mkdir "$project"
    example c >"$project/example.c"
    cat >"$project/CMakeLists.txt" <<'END'
cmake_minimum_required(VERSION 3.13)
project(example C)
find_package(wadlook ${WANTED} REQUIRED CONFIG)
add_executable(shared example.c)
target_link_libraries(shared PRIVATE wadlook::wadlook)
add_executable(static example.c)
target_link_libraries(static PRIVATE wadlook::static)
END
    cmake -S "$project" -B "$project/build" -DCMAKE_PREFIX_PATH="$1" -DWANTED="$(<"$root/VERSION")" && cmake --build "$project/build" || return
    grep -F "wadlook_DIR:PATH=$1/" "$project/build/CMakeCache.txt" || return
    for each in shared static; do prints_sectors "$project/build/$each" || return; done
    ! cmake -S "$project" -B "$project/other" -DCMAKE_PREFIX_PATH="$1" -DWANTED=99 2>"$project/said" && grep 'version: '"$(<"$root/VERSION")" "$project/said"
}

# prints_findings CMD..: what each other example prints of the sample, and that it tells of each finding where one ssector is named twice.
prints_findings() {
    diff <(printf '0 faults, 0 notes\n') <("$@" <"$sample") || return
    cp "$sample" "$room/faulty.wad"
    printf '\0\200\0\200' | dd of="$room/faulty.wad" bs=1 seek=160 conv=notrunc status=none
    "$@" <"$room/faulty.wad" >"$room/found" || return
    diff <(head -n 1 "$room/found"; sed -n 's/.* at \([0-9]*\).*/\1/p' "$room/found") <(printf '%s\n' '2 faults, 0 notes' 0 1)
}

# prints_checked CMD..: what the example over files prints of the sample.
prints_checked() {
    diff <(
        for _ in 1 2 3 4; do printf "E1M1: W1: isn't closed\n"; done
        printf 'E1M1: W7: no player 2 start\nE1M1: W8: 0 deathmatch starts\nE1M1: W19: no exit\n'
    ) <("$@" <"$sample")
}

# ---- Scripts that end early -----------------------------------------------------------------------------------------

# ends_with STATUS WORDS CMD..: whether a command ends with that status, and last says a line with these words.
ends_with() {
    local status=0 said
    said=$("${@:3}" 2>&1) || status=$?
    [[ $status == "$1" && ${said##*$'\n'} == *"$2"* ]] || { printf 'status %s\n%s\n' "$status" "$said" && return 1; }
}

# is_stopped SIGNAL STATUS FILE TOOL CMD..: whether a command ends by a signal, with that status and a line of TOOL that it was stopped, and
# with it the process whose number it put into the file. The signal comes once the number is there. What was said stands in `$room/said`.
is_stopped() {
    local shell status=0
    rm -f "$3"
    # In a shell that isn't interactive what runs in the background heeds no SIGINT; env sees to that.
    env --default-signal=INT "${@:5}" >"$room/said" 2>&1 &
    shell=$!
    for _ in {1..300}; do [[ ! -s $3 ]] || break; sleep 0.1; done
    kill "-$1" "$shell"
    wait "$shell" || status=$?
    [[ $status == "$2" && $(grep -c "^$4: stopped\. " "$room/said") == 1 ]] || { printf 'status %s\n' "$status" && cat "$room/said" && return 1; }
    for _ in {1..50}; do kill -0 "$(<"$3")" 2>/dev/null || return 0; sleep 0.1; done
    echo 'what it started goes on' && return 1
}
