# Completes the words of wadlook in bash. Source it, or install it as
# /usr/share/bash-completion/completions/wadlook or ~/.local/share/bash-completion/completions/wadlook.

# What follows each command, in order: `wide` where `--wide` may stand first; a name; one file, or files to the end.
declare -gA _wadlook_forms=(
    [lumps]='wads'
    [levels]='wads'
    [show]='wide level wads'
    [audit]='wide level wads'
    [points]='wide level wads'
    [census]='wide level wads'
    [sight]='level wads'
    [blocks]='wide level wads'
    [demo]='demo wads'
    [lmp]='lmp'
    [extract]='level wads'
)

_wadlook() {
    local current=${COMP_WORDS[COMP_CWORD]} place=$((COMP_CWORD - 2)) form next ending=wad
    local levels
    levels=$(echo E{1..4}M{1..9} MAP{01..32})
    COMPREPLY=()
    if ((place < 0)); then
        mapfile -t COMPREPLY < <(compgen -W "${!_wadlook_forms[*]}" -- "$current")
        return
    fi
    read -r -a form <<<"${_wadlook_forms[${COMP_WORDS[1]}]-}"
    ((${#form[@]})) || return
    if [[ ${form[0]-} == wide && ${COMP_WORDS[2]} != --wide ]]; then
        ((place > 0)) || mapfile -t COMPREPLY < <(compgen -W '--wide' -- "$current")
        form=("${form[@]:1}")
    fi
    next=${form[place]-}
    [[ -n $next || ${form[-1]} != wads ]] || next=wads
    case $next in
        wide) COMPREPLY=(--wide) ;;
        demo) mapfile -t COMPREPLY < <(compgen -W 'DEMO1 DEMO2 DEMO3 DEMO4' -- "${current^^}") ;;
        level) mapfile -t -O ${#COMPREPLY[@]} COMPREPLY < <(compgen -W "$levels" -- "${current^^}") ;;
        wads | lmp)
            [[ $next == wads ]] || ending=lmp
            # Folders, and the files with that ending in small or capital letters.
            mapfile -t COMPREPLY < <(
                compgen -d -- "$current"
                compgen -f -X "!*.${ending}" -- "$current"
                compgen -f -X "!*.${ending^^}" -- "$current"
            )
            compopt -o filenames 2>/dev/null
            ;;
    esac
}

complete -F _wadlook wadlook
