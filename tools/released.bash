# What the scripts share that take what lies in released/: whether the sources here are those of the release there, and a file of it,
# checked and unpacked.
# A script sources it behind tools/crates.bash, at the top of the repository.

# ---- The sources ----------------------------------------------------------------------------------------------------

# What the released files are made of: these crates with those below them, and these parts. VERSION belongs to each.
# shellcheck disable=SC2034  # tools/sources takes them
released_crates=(wadlook wadlens wadlook_c wad_page) released_parts=(include python rust web)

# find_roots PART...: names in `crates` the crates below these parts, in `parts` all that their sources are told by, and in `roots` the
# folders and files that have them.
find_roots() {
    local each
    mapfile -t crates < <(below "$@")
    parts=(VERSION "${crates[@]}") roots=(VERSION)
    for each in "${crates[@]}"; do roots+=("crates/$each/"{src,specs,proofs}); done
    for each; do
        case $each in
            include | python | web) parts+=("$each") roots+=("$each") ;;
            rust) parts+=(rust) roots+=(rust/{Cargo.toml,Cargo.lock,build.rs,src,examples}) ;;
        esac
    done
}

# list_sources: names in `files` the sources below `roots`, in the order of their names. What editors, builds and tests leave there has
# other names, or begins with a dot or a hash.
list_sources() {
    mapfile -t files < <(find "${roots[@]}" \( -path 'web/*/*' -o -name __pycache__ \) -prune -o -type f ! -name '[.#]*' \
        \( -name '*.rt' -o -name '*.antt' -o -name '*.h' -o -name '*.py' -o -name '*.rs' -o -name Cargo.toml -o -name Cargo.lock \
        -o -name '*.html' -o -name '*.css' -o -name '*.mjs' -o -name '*.svg' -o -path 'web/*.json' -o -path 'web/*.txt' -o -name VERSION \) -print 2>/dev/null | LC_ALL=C sort)
}

# take_sources PART...: names in `source_lines` a line `DIGEST  PART` for VERSION, each of these parts and each crate below: the digest of
# what sha256sum says of its files, and of a crate's line of crates.txt before that. It fails where one can't be read.
take_sources() {
    local room temporary=${TMPDIR:-/tmp}
    [[ -d $temporary ]] || temporary=/tmp
    find_roots "$@"
    list_sources
    ((${#files[@]} > 0)) || return
    new_room "$temporary" "${places[@]}" || return
    # A part may have no file.
    (cd "$room" && touch "${parts[@]}") || return
    {
        ((${#crates[@]} == 0)) || lines_of "${crates[@]}"
        sha256sum -- "${files[@]}" 2>/dev/null
    } | awk -v to="$room/" '
        $1 ~ /:$/ || $2 ~ /:$/ { name = $1; sub(/:$/, "", name); print >(to name); next }
        { split($2, names, "/"); print >(to (names[1] == "crates" ? names[2] : names[1])) }' || return
    source_lines=$(LC_ALL=C && cd "$room" && sha256sum -- *) || return
    rm -rf "$room"
}

# is_touched FILE PART...: whether a source of these parts, or what it is compared with, was changed since that file was written. By the
# times of change, which the system alone sets; a folder has a later one where something was taken out of it.
is_touched() {
    local each
    find_roots "${@:2}"
    for each in "${crates[@]}"; do [[ ! crates/$each -nt $1 ]] || return 0; done
    [[ -n $(find crates.txt released/SOURCES "${roots[@]}" -path 'web/*/*' -prune -o -cnewer "$1" -print -quit 2>/dev/null) ]]
}

# ---- The release ----------------------------------------------------------------------------------------------------

# Its tarball and its page.
# shellcheck disable=SC2034  # who sources it asks for one of them
tarball='wadlook-*-x86_64-linux.tar.gz' zipped_page='wadlook-page-*.zip'

# Why what is released isn't taken, in words, and of which kind that is: `none` where there is no release, `changed` where the sources are
# others, `unfit` where this machine or its disk lacks what that needs, `broken` where released/ isn't as it was made.
why='' kind=none

# not_taken KIND WORD...: notes why, and fails.
not_taken() {
    kind=$1 why=${*:2}
    return 1
}

# runs_here: whether what was compiled runs on this machine, where something is released at all.
runs_here() {
    [[ -e released/SOURCES || -e released/SHA256SUMS ]] || return
    local machine
    machine=$(uname -sm)
    [[ $machine == 'Linux x86_64' ]] || not_taken unfit "what is released runs on Linux on x86-64, and this is $machine"
}

# find_file PATTERN: names in `file` the released file of that name, in `digest` what SHA256SUMS says of it, in `release` its version, and
# in `top` the one folder that it holds.
find_file() {
    local sum name each
    [[ -e released/SOURCES || -e released/SHA256SUMS ]] || not_taken none 'nothing is released here' || return
    for each in SOURCES SHA256SUMS; do
        [[ -s released/$each ]] || not_taken broken "released/$each is missing: git checkout released brings it back" || return
    done
    file='' digest=''
    while read -r sum name; do
        # shellcheck disable=SC2053  # a pattern
        [[ -z $file && $name == $1 && $sum =~ ^[0-9a-f]{64}$ ]] && file=$name digest=$sum
    done <released/SHA256SUMS
    [[ -n $file ]] || not_taken broken "released/SHA256SUMS has no digest of $1: git checkout released brings it back" || return
    top=${file%.zip} top=${top%.tar.gz}
    release=${top#wadlook-} release=${release#page-} release=${release%-x86_64-linux}
}

# compare PART...: whether the sources of these parts are those of the release.
compare() {
    local names=() line
    [[ -n $(type -P sha256sum) ]] || not_taken unfit 'there is no sha256sum, by which what is released is checked' || return
    take_sources "$@" || not_taken unfit 'the sources cannot all be read' || return
    mapfile -t names < <(grep -vxFf released/SOURCES <<<"$source_lines" | sed 's/.* //')
    ((${#names[@]} > 0)) || return 0
    printf -v line '%s, ' "${names[@]:0:3}"
    ((${#names[@]} < 4)) || line+="$((${#names[@]} - 3)) more, "
    not_taken changed "the sources have changed since release $release (${line%, })"
}

# check_file: whether the released file is the one that SHA256SUMS names.
check_file() {
    local found
    [[ -n $(type -P sha256sum) ]] || not_taken unfit 'there is no sha256sum, by which what is released is checked' || return
    found=$(sha256sum 2>/dev/null <"released/$file") 2>/dev/null ||
        not_taken broken "released/$file is missing: git checkout released brings it back" || return
    [[ ${found%% *} == "$digest" ]] || not_taken broken "released/$file is damaged: git checkout released brings it back"
}

# spread FOLDER [NAME...]: unpacks the released file there, or of a tarball what has these names.
spread() {
    local words=(tar -xzo -f "released/$file" -C "$1" "${@:2}") need=(tar gzip) each status=0 goes_on='Nothing half unpacked is left'
    [[ $file != *.zip ]] || words=(python3 -m zipfile -e "released/$file" "$1") need=(python3)
    for each in "${need[@]}"; do
        [[ -n $(type -P "$each") ]] || not_taken unfit "there is no $each, which unpacks released/$file" || return
    done
    # It ends with this script.
    setsid "${words[@]}" </dev/null >/dev/null 2>&1 &
    proof=$!
    wait "$proof" || status=$?
    proof=''
    ((status == 0)) || not_taken unfit "released/$file can't be unpacked into ${1%/*}$(low_on_room "${1%/*}")"
}

# ---- What is unpacked -----------------------------------------------------------------------------------------------

# Where it is kept: in the checkout, or where that can't be written in the user's cache, in a folder for each checkout.
places=("$PWD/out/released" "${XDG_CACHE_HOME:-${HOME:-/}/.cache}/wadlook/released$PWD")

# new_room FOLDER...: makes a temporary folder in the first of these that can be written, and names it in `room`.
new_room() {
    local each
    for each; do
        room=$(mkdir -p "$each" 2>/dev/null && mktemp -d "$each/.new.XXXXXX" 2>/dev/null) || continue
        rooms+=("$room")
        return
    done
    return 1
}

# leave_rooms: removes the temporary folders, as a script does that ends by what it runs.
leave_rooms() {
    ((${#rooms[@]} == 0)) || rm -rf "${rooms[@]}"
    rooms=()
}

# find_unpacked WITHIN: names in `kept` the folder in which the released file was unpacked, if it has that file.
find_unpacked() {
    local each
    kept=''
    for each in "${places[@]}"; do
        each+=/$file.${digest:0:16}
        if [[ -e $each/$top/$1 ]]; then kept=$each && return; fi
    done
}

# unpack WITHIN PATTERN: unpacks the released file, which has to have that file, and names the folder in `kept`. It is unpacked beside its
# place and moved there by one rename, so what stands there is whole. Of two starts at once the first one's stands. What was unpacked of
# another release is removed.
unpack() {
    local place each
    check_file || return
    new_room "${places[@]}" || not_taken unfit "neither ${places[0]} nor ${places[1]} can be written" || return
    place=${room%/*} kept=${room%/*}/$file.${digest:0:16}
    spread "$room" || return
    [[ -e $room/$top/$1 ]] || not_taken broken "released/$file has no $1" || return
    chmod +rx "$room"
    # Something was taken out of it.
    [[ ! -d $kept || -e $kept/$top/$1 ]] || rm -rf "$kept"
    mv -fT "$room" "$kept" 2>/dev/null || [[ -e $kept/$top/$1 ]] || not_taken unfit "$kept can't be written" || return
    # shellcheck disable=SC2231  # a pattern
    for each in "$place"/$2.*; do [[ $each == "$kept" ]] || rm -rf "$each"; done
    # What starts have left that were killed.
    find "$place" -maxdepth 1 -name '.new.*' -mmin +60 -exec rm -rf {} + 2>/dev/null || true
}

# take_released PATTERN WITHIN PART...: names in `taken` the folder of the released file of that name, unpacked, which has the file
# WITHIN, where these parts are as they were released. They are compared again only once one was touched.
take_released() {
    local stamp began=${EPOCHREALTIME/[.,]/}
    find_file "$1" || return
    find_unpacked "$2"
    stamp=$kept/.same_$3
    if [[ -z $kept || ! -e $stamp ]] || is_touched "$stamp" "${@:3}"; then
        compare "${@:3}" || return
        [[ -n $kept ]] || unpack "$2" "$1" || return
        # A file's time may be that of a tick of the clock before it was written.
        printf -v began '%d.%06d' $(((began - 100000) / 1000000)) $(((began - 100000) % 1000000))
        touch -d "@$began" "$kept/.same_$3" 2>/dev/null || true
    fi
    taken=$kept/$top
}
