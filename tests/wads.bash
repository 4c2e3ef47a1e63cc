# The sample level in bytes, and files made of lumps. Bytes are written as texts of `\xNN`.
# shellcheck disable=SC2034,SC2059  # what only tests use; bytes as printf takes them

bytes() { printf '\\x%02x' "$@"; }

# words WORD...: numbers of 16 bits.
words() {
    local word all=()
    for word; do all+=($((word & 255)) $((word >> 8 & 255))); done
    ((${#all[@]} == 0)) || bytes "${all[@]}"
}

# times COUNT BYTES
times() {
    local i
    for ((i = 0; i < $1; i++)); do printf '%s' "$2"; done
}

# name8 NAME: eight bytes, with NULs at the end.
name8() {
    local i all=()
    for ((i = 0; i < 8; i++)); do if ((i < ${#1})); then all+=("'${1:i:1}"); else all+=(0); fi; done
    bytes "${all[@]}"
}

# shellcheck disable=SC2046  # each number is a word
bytes_of() { printf '\\x%s' $(od -An -v -tx1 "$1"); }

# pack [NAME BYTES]...: a PWAD of these lumps, from byte 12 on without gaps, and then its directory. No process is started for an entry.
pack() {
    local lumps='' rows=() count=0 at=12 size
    for (( ; $#; count++)); do
        size=$((${#2} / 4))
        rows+=("$at" "$size" "$1")
        lumps+=$2
        at=$((at + size))
        shift 2
    done
    printf "PWAD$(words $count 0 $at $((at >> 16)))"
    printf "$lumps"
    printf "$(directory "${rows[@]}")"
}

# directory [PLACE SIZE NAME]...: the entries of lumps.
directory() {
    for (( ; $#; )); do
        words "$1" $(($1 >> 16)) "$2" $(($2 >> 16))
        name8 "$3"
        shift 3
    done
}

# node X Y DX DY CHILD0 CHILD1
node() { words "$1" "$2" "$3" "$4" 64 0 0 0 64 0 0 0 "$5" "$6"; }

# sidedef SECTOR
sidedef() { printf '%s' "$(words 0 0)" "$(name8 -)" "$(name8 -)" "$(name8 -)" "$(words "$1")"; }

# sector_of FLOOR CEILING FLAT
sector_of() { printf '%s' "$(words "$1" "$2")" "$(name8 FLAT1)" "$(name8 "$3")" "$(words 160 0 0)"; }

sector() { sector_of 0 128 FLAT1; }

# The lumps of the sample level.
usual=(THINGS LINEDEFS SIDEDEFS VERTEXES SEGS SSECTORS NODES SECTORS REJECT BLOCKMAP)
declare -A own=(
    [THINGS]=$(words 8 8 0 1 7)
    [LINEDEFS]=$(words 0 1 4 0 0 0 1)
    [SIDEDEFS]=$(sidedef 0)$(sidedef 1)
    [VERTEXES]=$(words 0 0 0 64)
    [SEGS]=$(words 0 1 16384 0 0 0 1 0 -16384 0 1 0)
    [SSECTORS]=$(words 1 0 1 1)
    [NODES]=$(node 0 0 0 64 32768 32769)
    [SECTORS]=$(sector)$(sector)
    [REJECT]=$(bytes 0)
    [BLOCKMAP]=$(words -8 -8 1 1 5 0 0 -1)
)

# level [LUMP BYTES]...: a PWAD of the sample level with these lumps in place of its own, and those of `behind`, under the name `label`.
behind=() label=E1M1
level() {
    local -A other
    local name parts=("$label" '')
    for (( ; $#; )); do
        other[$1]=$2
        shift 2
    done
    for name in "${usual[@]}"; do parts+=("$name" "${other[$name]-${own[$name]}}"); done
    pack "${parts[@]}" "${behind[@]}"
}

# lumps COUNT: puts the first lumps of the sample level into `parts`, as words of `pack`.
lumps() {
    local name
    parts=()
    for name in "${usual[@]:0:$1}"; do parts+=("$name" "${own[$name]}"); done
}
