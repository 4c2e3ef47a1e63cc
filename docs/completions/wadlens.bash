# Completes the words of wadlens in bash. Source it, or install it as
# /usr/share/bash-completion/completions/wadlens or ~/.local/share/bash-completion/completions/wadlens.

# The options of each command.
declare -gA _wadlens_options=(
    [check]='--wide --map --strict --base --max --ignore --fail --json --quiet --files-from --null --progress --help'
    [survey]='--wide --map --strict --base --ignore --fail --files-from --null --progress --help'
    [picture]='--wide --map --cells --frame --ignore --help'
    [atlas]='--out --wide --map --strict --base --max --ignore --fail --cells --title --day --files-from --null --progress --help'
    [cut]='--entry --level --help'
    [explain]='--help'
    [demos]='--json --files-from --null --progress --help'
    [compare]='--commands --help'
    [listing]='--help'
    [assemble]='--help'
)

# What --ignore and --fail take, beside ranges, and the codes that explain takes.
# tools/tables writes from here
_wadlens_codes='game notes warnings N1 N2 N3 N4 N5 N6 N7 N8 N9 N10 N11 N12 W1 W2 W3 W4 W5 W6 W7 W8 W9 W10 W11 W12 W13 W14 W15 W16 W17 W18 W19 W20 W21 W22 W23 W24 W25'
_wadlens_explained='F1 F2 F3 F4 F5 F6 F7 F8 F9 F10 F11 F12 F13 F14 F15 F16 F17 F18 N1 N2 N3 N4 N5 N6 N7 N8 N9 N10 N11 N12 W1 W2 W3 W4 W5 W6 W7 W8 W9 W10 W11 W12 W13 W14 W15 W16 W17 W18 W19 W20 W21 W22 W23 W24 W25'
# tools/tables writes up to here

_wadlens() {
    local current=${COMP_WORDS[COMP_CWORD]} before=${COMP_WORDS[COMP_CWORD - 1]} given=''
    COMPREPLY=()
    if ((COMP_CWORD == 1)); then
        mapfile -t COMPREPLY < <(compgen -W "${!_wadlens_options[*]} --help --version" -- "$current")
        return
    fi
    [[ -n ${_wadlens_options[${COMP_WORDS[1]}]-} ]] || return
    case $before in
        --max | --entry | --level | --cells | --frame | --title | --day) return ;;
        --ignore | --fail)
            # A list with commas between: the last word is being written.
            [[ $current != *,* ]] || given=${current%,*},
            mapfile -t COMPREPLY < <(compgen -P "$given" -W "$_wadlens_codes" -- "${current##*,}")
            return
            ;;
        --out)
            mapfile -t COMPREPLY < <(compgen -d -- "$current")
            compopt -o filenames 2>/dev/null
            return
            ;;
        --files-from | --base)
            mapfile -t COMPREPLY < <(compgen -f -- "$current")
            compopt -o filenames 2>/dev/null
            return
            ;;
    esac
    if [[ $current == -* && " ${COMP_WORDS[*]:2:COMP_CWORD-2} " != *' -- '* ]]; then
        mapfile -t COMPREPLY < <(compgen -W "${_wadlens_options[${COMP_WORDS[1]}]}" -- "$current")
        return
    fi
    # Folders, and the files with these endings in small or capital letters.
    local ending endings=(wad WAD)
    case ${COMP_WORDS[1]} in
        demos) endings+=(lmp LMP) ;;
        compare | listing) endings=(lmp LMP) ;;
        explain)
            # Small letters are taken, too.
            mapfile -t COMPREPLY < <(compgen -W "$_wadlens_explained" -- "${current^^}")
            return
            ;;
        assemble) return ;;
    esac
    mapfile -t COMPREPLY < <(
        compgen -d -- "$current"
        for ending in "${endings[@]}"; do compgen -f -X "!*.$ending" -- "$current"; done
    )
    compopt -o filenames 2>/dev/null
}

complete -F _wadlens wadlens
