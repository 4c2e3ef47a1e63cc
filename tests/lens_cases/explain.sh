# Cases of what codes mean, and of levels of which one line tells why: nodes that were not built, and lumps in another order, which
# tests/wadlens runs.
# shellcheck shell=bash disable=SC2034,SC2154  # what tests/wadlens sets and reads

# What a code means, as docs/CODES.md has it.
explained() { sed -n "/^$1: /,/^\`\`\`/p" "$root/docs/CODES.md" | sed '$d' | sed 's/\\/&&/g; s/$/\\n/' | tr -d '\n'; }

# The list of codes: names, classes and what each says, in columns.
code_list() {
    local name text class
    while IFS=: read -r name text; do
        case $name in F*) class=fault ;; N*) class=note ;; *) class=warning ;; esac
        printf '%-5s%-9s%s\\n' "$name" "$class" "${text# }"
    done < <(grep '^[FNW][0-9]*: ' "$root/docs/CODES.md")
}

cases_of_explain() {
    local code codes
    says 'explain' 0 "$(printf '%s' 'F3: linedef vertex names none\n' \
        "A linedef begins or ends at a vertex that isn't there.\\n" \
        "The game doesn't test the number (P_LoadLineDefs): it reads memory that isn't\\n" \
        'its own as the vertex. The linedef runs to a place by chance, or the game\n' \
        'crashes.\n' \
        'Draw the linedef again in an editor, then build the nodes. A level with more\n' \
        'than 32768 vertexes is for ports: check it with --wide.\n')" '' explain F3
    says 'small letters' 0 "$(explained W10)" '' explain w10
    mapfile -t codes < <(grep -o '^[FNW][0-9]*: ' "$root/docs/CODES.md" | tr -d ': ')
    for code in "${codes[@]}"; do says "explain $code" 0 "$(explained "$code")" '' explain "$code"; done
    says 'without a code the list' 0 "$(code_list)" '' explain
    tells 'the first line of the list' $'F1   fault    lump missing after the label\nF2   fault    lump' explain
    tells 'the last line of the list' 'W25  warning  flat not between its ends' explain
    run_on '' explain
    [[ $(wc -l <output) -ne 55 ]] || : >output
    judge 'the list has 55 lines' 0 '' ''
    for code in F19 N13 W26 F0 F01 F '' 'F3 ' X1 n2,w7 sector; do
        mistaken "no such code: '$code'" 'there are the codes F1 to F18, N1 to N12 and W1 to W25' explain "$code"
    done
    mistaken 'the usage of explain' 'Usage: wadlens explain [CODE]' explain F19
    mistaken 'two codes' "unexpected argument 'F4'" explain F3 F4
    mistaken 'a flag of explain' "unexpected argument '--json'" explain --json F3
    tells '--help of explain' 'Usage: wadlens explain [CODE]' explain --help
    ends 'explain: a full disk' 2 "wadlens: standard output can't be written\\n" explain F3 >/dev/full
    ends 'explain: a full disk, the list' 2 "wadlens: standard output can't be written\\n" explain >/dev/full
}

# Levels whose nodes weren't built: one line before the findings.
cases_of_unbuilt() {
    local reached="NODES is empty: 3 ssectors can't be reached; build the nodes" four
    local path='"file":"code.wad","level":"E1M1","entry":0'
    four=(NODES '' SSECTORS "$(words 1 0 1 0 1 0 1 0)")
    finds 'NODES is empty' "$(two "$reached" 'F16 ssector 1: not reached from the root, at (0, 0)' \
        'F16 ssector 2: not reached from the root, at (0, 0)' 'F16 ssector 3: not reached from the root, at (0, 0)')" 3 0 "${four[@]}"
    says 'NODES is empty: an object' 1 "$(
        printf '{%s,"empty":["NODES"],"message":"%s"}\\n' "$path" "$reached"
        printf '{%s,"code":"F16","kind":"ssector","index":1,"message":"not reached from the root","place":{"at":[0,0]}}\\n' "$path"
        printf '{%s,"code":"F16","more":2}\\n{"levels":1,"files":1,"faults":3,"notes":0,"not_judged":0}\\n' "$path"
    )" '' check --json --max 1 code.wad
    finds 'SEGS is empty' "$(two 'SEGS is empty; build the nodes' \
        "F10 ssector 0: segs from 0, 1 of them, aren't all there (0 segs)" \
        "F10 ssector 1: segs from 1, 1 of them, aren't all there (0 segs)")" 2 0 SEGS ''
    finds 'SSECTORS is empty' "$(two 'SSECTORS is empty; build the nodes' \
        "F11 node 0: child 0 names ssector 0, which isn't there (0 ssectors), at (0, 0)" 'F17 level: no ssector')" 2 0 SSECTORS ''
    finds 'all three are empty' "$(two 'SEGS, SSECTORS and NODES are empty; build the nodes' 'F17 level: no ssector')" 1 0 \
        SEGS '' SSECTORS '' NODES ''
    says 'all three are empty: an object' 1 "$(
        printf '{%s,"empty":["SEGS","SSECTORS","NODES"],"message":"%s"}\\n' "$path" 'SEGS, SSECTORS and NODES are empty; build the nodes'
        printf '{%s,"code":"F17","kind":"level","message":"no ssector"}\\n' "$path"
        printf '{"levels":1,"files":1,"faults":1,"notes":0,"not_judged":0}\\n'
    )" '' check --json code.wad
    finds 'SEGS and NODES are empty' "$(two "SEGS and NODES are empty: 1 ssectors can't be reached; build the nodes" \
        "F10 ssector 0: segs from 0, 1 of them, aren't all there (0 segs)" \
        "F10 ssector 1: segs from 1, 1 of them, aren't all there (0 segs)" 'F16 ssector 1: not reached from the root')" 3 0 SEGS '' NODES ''
    finds 'SEGS and SSECTORS are empty' "$(two 'SEGS and SSECTORS are empty; build the nodes' \
        "F11 node 0: child 0 names ssector 0, which isn't there (0 ssectors), at (0, 0)" 'F17 level: no ssector')" 2 0 SEGS '' SSECTORS ''
    finds 'without linedefs nothing is to be built' 'F17 level: no ssector' 1 0 \
        LINEDEFS '' SIDEDEFS '' SEGS '' SSECTORS '' NODES ''
    level SSECTORS "$(words 1 0)" NODES '' >code.wad
    says 'one ssector needs no nodes' 0 '1 levels in 1 files: 0 faults, 0 notes, 0 not judged\n' '' check code.wad
}

# all_of NAME...: in order.wad the sample's lumps stand in this order.
all_of() {
    local lump words=()
    for lump; do words+=("$lump" "${own[$lump]}"); done
    pack E1M1 '' "${words[@]}" >order.wad
}

# ordered NAME LACKING FIRST: what a check tells of order.wad, in lines and in objects.
ordered() {
    local path='"file":"order.wad","level":"E1M1","entry":0'
    says "$1" 1 "order.wad: E1M1: incomplete: no $2 where it belongs\\norder.wad: E1M1: lumps in another order: $3 before $2\\n$(
        )1 levels in 1 files: 0 faults, 0 notes, 1 not judged\\n" '' check order.wad
    says "$1: objects" 1 "{$path,\"format\":\"incomplete\",\"lump\":\"$2\"}\\n{$path,\"order\":[\"$3\",\"$2\"]}\\n$(
        )$(totals_of 1 1 0 0 1)" '' check --json order.wad
}

# Levels whose ten lumps are all there in another order.
cases_of_order() {
    all_of THINGS LINEDEFS SEGS VERTEXES SIDEDEFS SSECTORS NODES SECTORS REJECT BLOCKMAP
    ordered 'two lumps exchanged' SIDEDEFS SEGS
    all_of THINGS LINEDEFS SIDEDEFS VERTEXES SEGS SSECTORS NODES SECTORS BLOCKMAP REJECT
    ordered 'the last two exchanged' REJECT BLOCKMAP
    all_of THINGS SIDEDEFS VERTEXES LINEDEFS SEGS SSECTORS NODES SECTORS REJECT BLOCKMAP
    ordered 'one behind others' LINEDEFS SIDEDEFS
    all_of THINGS LINEDEFS SEGS VERTEXES SEGS SSECTORS NODES SECTORS REJECT BLOCKMAP
    says 'one twice, and another lacking' 1 'order.wad: E1M1: incomplete: no SIDEDEFS where it belongs\n1 levels in 1 files: 0 faults, 0 notes, 1 not judged\n' '' \
        check order.wad
    all_of THINGS LINEDEFS VERTEXES SEGS SSECTORS NODES SECTORS REJECT BLOCKMAP SIDEDEFS
    ordered 'one at the end' SIDEDEFS VERTEXES
    all_of THINGS LINEDEFS VERTEXES SEGS SSECTORS NODES SECTORS REJECT BLOCKMAP
    says 'one lacking, and the file ends' 1 'order.wad: E1M1: incomplete: no SIDEDEFS where it belongs\n1 levels in 1 files: 0 faults, 0 notes, 1 not judged\n' '' \
        check order.wad
    pack E1M1 '' THINGS "${own[THINGS]}" LINEDEFS '' SEGS '' VERTEXES '' SSECTORS '' NODES '' SECTORS '' REJECT '' BLOCKMAP '' OTHER '' SIDEDEFS '' >order.wad
    says 'one behind the ten places' 1 'order.wad: E1M1: incomplete: no SIDEDEFS where it belongs\n1 levels in 1 files: 0 faults, 0 notes, 1 not judged\n' '' \
        check order.wad
}
