# Cases of findings, warnings and formats, which tests/wadlens runs.
# shellcheck shell=bash disable=SC2034,SC2154  # what tests/wadlens sets and reads

# many_segs: in wide.wad the sample level, an ssector of which begins with seg 32768.
many_segs() {
    [[ ! -e wide.wad ]] || return
    level SEGS "$(times 32768 "$(words 0 1 16384 0 0 0)")$(words 1 0 -16384 0 1 0)" \
        SSECTORS "$(words 1 0 1 -32768)" >wide.wad
}

# A label that a look-up of its name doesn't give is told with its entry.
cases_of_labels() {
    local parts
    lumps 10
    pack MAP02 '' "${parts[@]}" MAP02 '' "${parts[@]}" >twice.wad
    says 'two labels of one name, sound' 0 '2 levels in 1 files: 0 faults, 0 notes, 0 not judged\n' '' check twice.wad
    pack MAP02 '' "${parts[@]:0:2}" MAP02 '' "${parts[@]:0:4}" map03 '' "${parts[@]:0:6}" MAP04 '' TEXTMAP '' MAP04 '' >twice.wad
    says 'labels that are not found' 1 "$(
        printf '%s' 'twice.wad: MAP02 (entry 0): incomplete: no LINEDEFS where it belongs\n' \
            'twice.wad: MAP02: incomplete: no SIDEDEFS where it belongs\n' \
            'twice.wad: map03 (entry 5): incomplete: no VERTEXES where it belongs\n' \
            'twice.wad: MAP04 (entry 9): udmf: not read\n' \
            '4 levels in 1 files: 0 faults, 0 notes, 4 not judged\n'
    )" '' check twice.wad
}

cases_of_check() {
    says 'nothing found' 0 '1 levels in 1 files: 0 faults, 0 notes, 0 not judged\n' '' check base.wad
    says 'a fault and a note' 1 "${faults_of_faulty}1 levels in 1 files: 1 faults, 1 notes, 0 not judged\\n" '' check faulty.wad
    says 'what is not judged' 1 "$(
        printf '%s' 'hole.wad: MAP01: incomplete: no BLOCKMAP where it belongs\n' 'hexen.wad: MAP01: hexen: not read\n' \
            'udmf.wad: MAP03: udmf: not read\n' 'extended.wad: E1M1: extended nodes ZNOD: not read\n' \
            '4 levels in 4 files: 0 faults, 0 notes, 4 not judged\n'
    )" '' check hole.wad hexen.wad udmf.wad extended.wad
    cases_of_labels
    local i three="${own[LINEDEFS]}" lines='' end='1 levels in 1 files: 3 faults, 0 notes, 0 not judged\n'
    for i in 1 2 3; do
        three+=$(words 9 1 4 0 0 0 1)
        lines+="many.wad: E1M1: F3 linedef $i: start vertex 9 isn't there (2 vertexes)\\n"
    done
    level LINEDEFS "$three" >many.wad
    says 'findings of one code' 1 "$lines$end" '' check many.wad
    says '--max 0: all' 1 "$lines$end" '' check --max 0 many.wad
    says '--max of as many as there are' 1 "$lines$end" '' check --max 3 many.wad
    lines="many.wad: E1M1: F3 linedef 1: start vertex 9 isn't there (2 vertexes)\\nmany.wad: E1M1: F3: 2 more\\n"
    says '--max of fewer' 1 "$lines$end" '' check --max 1 many.wad
    says '--max after the file, with =' 1 "$lines$end" '' check many.wad --max=1
    cases_of_most
    many_segs
    says 'sound with --wide' 1 "$(
        printf '%s' "wide.wad: E1M1: F10 ssector 1: segs from -32768, 1 of them, aren't all there (32769 segs)\\n" \
            'wide.wad: E1M1: sound with --wide\n' '1 levels in 1 files: 1 faults, 0 notes, 0 not judged\n'
    )" '' check wide.wad
    says 'wide' 0 '1 levels in 1 files: 0 faults, 0 notes, 0 not judged\n' '' check --wide wide.wad
    says 'not judged alone' 2 'udmf.wad: MAP03: udmf: not read\n1 levels in 1 files: 0 faults, 0 notes, 1 not judged\n' '' \
        check udmf.wad
    cases_of_checked_files
    cases_of_linedefs_without_length
}

# several_formats: in several.wad levels of three formats: UDMF, Hexen's, and one that lacks its LINEDEFS.
several_formats() {
    local parts
    lumps 10
    pack MAP01 '' TEXTMAP '\x78' ENDMAP '' E1M1 '' "${parts[@]}" BEHAVIOR '' E1M2 '' THINGS '' >several.wad
}

cases_of_checked_files() {
    says 'sample: no level' 0 '0 levels in 1 files: 0 faults, 0 notes, 0 not judged\n' '' check empty.wad
    # Of two labels of one name the later one is looked up, and none with a small letter is.
    pack MAP01 '' TEXTMAP '' MAP01 '' TEXTMAP '' map02 '' TEXTMAP '' >twice.wad
    says labels_told_with_their_entries 2 "$(
        printf '%s' 'twice.wad: MAP01 (entry 0): udmf: not read\n' 'twice.wad: MAP01: udmf: not read\n' \
            'twice.wad: map02 (entry 4): udmf: not read\n' '3 levels in 1 files: 0 faults, 0 notes, 3 not judged\n'
    )" '' check twice.wad
    several_formats
    says formats 1 "$(
        printf '%s' 'several.wad: MAP01: udmf: not read\n' 'several.wad: E1M1: hexen: not read\n' \
            'several.wad: E1M2: incomplete: no LINEDEFS where it belongs\n' '3 levels in 1 files: 0 faults, 0 notes, 3 not judged\n'
    )" '' check several.wad
}

# Three linedefs without length and without sides, and a REJECT of another size.
cases_of_linedefs_without_length() {
    local i rows=() sideless none='from (0, 0) to (0, 0)' three
    three=$(words 0 0 0 0 0 -1 -1 0 0 0 0 0 -1 -1 0 0 0 0 0 -1 -1)
    sideless=$(two 'F9 seg 0: linedef 0 has no sidedef on side 0, from (0, 0) to (0, 64)' \
        'F9 seg 1: linedef 0 has no sidedef on side 1, from (0, 64) to (0, 0)')
    for i in 0 1; do rows+=("N4 linedef $i: without a front sidedef, $none"); done
    rows+=('N4: 1 more')
    for i in 0 1; do rows+=("N5 linedef $i: without length, $none"); done
    rows+=('N5: 1 more' 'N8 level: REJECT has 0 bytes, 1 are wanted')
    flags=(--max 2)
    finds at_most_two_of_a_code "$(two "$sideless" "${rows[@]}")" 2 7 LINEDEFS "$three" REJECT ''
    rows[2]="N4 linedef 2: without a front sidedef, $none" rows[5]="N5 linedef 2: without length, $none"
    flags=(--wide --max 0)
    finds all_of_a_code "$(two "$sideless" "${rows[@]}")" 2 7 LINEDEFS "$three" REJECT ''
    flags=()
    says codes_more_than_once 1 '{"file":"code.wad","level":"E1M1","entry":0,"format":"doom",'"$(
        sed 's/"linedefs":1/"linedefs":3/; s/"reject":1/"reject":0/' <<<"$counts"
    )"',"sound":false,"faults":2,"notes":7,"findings":{"F9":2,"N4":3,"N5":3,"N8":1}}\n' '' survey code.wad
}

# How many findings of a code are told where nothing is said: 20.
# told_of FILE LEVEL MEMBERS: an object of a level at entry 0.
told_of() { printf '{"file":"%s","level":"%s","entry":0,%s}\\n' "$1" "$2" "$3"; }

# totals_of LEVELS FILES FAULTS NOTES UNJUDGED: the object of the totals.
totals_of() { printf '{"levels":%s,"files":%s,"faults":%s,"notes":%s,"not_judged":%s}\\n' "$@"; }

cases_of_json() {
    local object='"code":"F9","kind":"seg","index":1,"message":"linedef 0 has no sidedef on side 1","place":{"from":[0,64],"to":[0,0]}'
    local noted='"code":"N3","kind":"linedef","index":0,"message":"two-sided, without a back sidedef","place":{"from":[0,0],"to":[0,64]}'
    says 'json: nothing found' 0 "$(totals_of 1 1 0 0 0)" '' check --json base.wad
    says 'json: no file' 0 "$(totals_of 0 0 0 0 0)" '' check --json --files-from /dev/null
    says 'json: a fault and a note' 1 "$(told_of faulty.wad E1M1 "$object")$(told_of faulty.wad E1M1 "$noted")$(totals_of 1 1 1 1 0)" '' \
        check --json faulty.wad
    says 'json: refused, and not judged' 1 "$(
        refused no.wad "$missing"
        told_of hole.wad MAP01 '"format":"incomplete","lump":"BLOCKMAP"'
        told_of udmf.wad MAP03 '"format":"udmf"'
        told_of extended.wad E1M1 '"format":"extended","tag":"ZNOD"'
        totals_of 3 4 0 0 3
    )" "$(told no.wad "$missing")" check --json no.wad hole.wad udmf.wad extended.wad
    local three="${own[LINEDEFS]}"
    three+=$(words 9 1 4 0 0 0 1)$(words 9 1 4 0 0 0 1)
    level LINEDEFS "$three" >many.wad
    says 'json: of one code more than are shown' 1 "$(
        told_of many.wad E1M1 '"code":"F3","kind":"linedef","index":1,"message":"start vertex 9 isn'\''t there (2 vertexes)"'
        told_of many.wad E1M1 '"code":"F3","more":1'
        totals_of 1 1 2 0 0
    )" '' check --max 1 --json many.wad
    many_segs
    says 'json: sound with --wide' 1 "$(
        told_of wide.wad E1M1 '"code":"F10","kind":"ssector","index":1,"message":"segs from -32768, 1 of them, aren'\''t all there (32769 segs)"'
        told_of wide.wad E1M1 '"sound_with_wide":true'
        totals_of 1 1 1 0 0
    )" '' check --json wide.wad
    level THINGS '' SIDEDEFS "$(sidedef 0)$(sidedef 7)" BLOCKMAP "$(words -8 -8 1 1 9 0 0 -1)" >places.wad
    says 'json: of a linedef, of a block, of the level' 1 "$(
        told_of places.wad E1M1 '"code":"F5","kind":"sidedef","index":1,"message":"sector 7 isn'\''t there (2 sectors)","place":{"linedef":0}'
        told_of places.wad E1M1 '"code":"N10","kind":"block","index":[0,0],"message":"its list isn'\''t inside BLOCKMAP"'
        told_of places.wad E1M1 '"code":"N11","kind":"level","message":"no player 1 start"'
        totals_of 1 1 1 2 0
    )" '' check --json places.wad
    says 'json: warnings' 0 "$(
        told_of base.wad E1M1 '"code":"W1","kind":"sector","index":0,"message":"isn'\''t closed","place":{"at":[0,0]}'
        told_of base.wad E1M1 '"code":"W1","more":3'
        told_of base.wad E1M1 '"code":"W7","kind":"level","message":"no player 2 start"'
        told_of base.wad E1M1 '"code":"W8","kind":"level","message":"0 deathmatch starts"'
        told_of base.wad E1M1 '"code":"W19","kind":"level","message":"no exit"'
        printf '%s' '{"levels":1,"files":1,"faults":0,"notes":0,"warnings":7,"not_judged":0,"unlooked_levels":1,"unlooked":["W9","W10","W25"]}\n'
    )" "$neither" check --json --map --max 1 base.wad
    cp base.wad $'a"b\\c\x1f.wad'
    says 'json: a path with what JSON escapes' 2 "$(refused 'no\\"b' "$missing")$(totals_of 0 1 0 0 0)" "$(told 'no"b' "$missing")" check --json 'no"b'
    lumps 2
    pack map01 '' "${parts[@]}" >twice.wad
    says 'json: a label that is not found is told by its entry alone' 1 \
        "$(told_of twice.wad map01 '"format":"incomplete","lump":"SIDEDEFS"')$(totals_of 1 1 0 0 1)" '' check --json twice.wad
}

# --quiet: the status and standard error alone.
cases_of_quiet() {
    says 'quiet: nothing found' 0 '' '' check --quiet base.wad
    says 'quiet: a fault' 1 '' '' check --quiet faulty.wad
    says 'quiet: each file is read' 1 '' "$(told no.wad "$missing")$(told none.wad 'shorter than a WAD header')" check --quiet no.wad faulty.wad none.wad
    says 'quiet: not judged' 2 '' '' check --quiet udmf.wad
    says 'quiet: strict' 1 '' "$neither" check --quiet --map --strict base.wad
    ends 'quiet: a full disk is of no use to it' 0 '' check --quiet base.wad >/dev/full
}

cases_of_most() {
    local i lines="${own[LINEDEFS]}" told='' end='1 levels in 1 files: 0 faults, 22 notes, 0 not judged\n'
    for i in {1..22}; do
        lines+=$(words 1 1 1 0 0 0 -1)
        ((i > 20)) || told+="many.wad: E1M1: N5 linedef $i: without length, from (0, 64) to (0, 64)\\n"
    done
    told+='many.wad: E1M1: N5: 2 more\n'
    level LINEDEFS "$lines" >many.wad
    says 'as many findings of a code as are usual' 0 "$told$end" '' check many.wad
    says '--max of as many as are usual' 0 "$told$end" '' check --max 20 many.wad
}

# finds NAME LINES FAULTS NOTES [LUMP BYTES]...: what `check` tells of the sample level with these lumps, each line without
# its path and level. `flags` are more words.
flags=()
finds() {
    local line text='' status=0
    while read -r line; do text+="code.wad: E1M1: $line\\n"; done <<<"$2"
    (($3 == 0)) || status=1
    level "${@:5}" >code.wad
    says "$1" "$status" "${text}1 levels in 1 files: $3 faults, $4 notes, 0 not judged\\n" '' check "${flags[@]}" code.wad
}

# two A B: two lines of text.
two() { printf '%s\n' "$@"; }

cases_of_codes() {
    local line='from (0, 0) to (0, 64)' back='from (0, 64) to (0, 0)' segs lines
    segs=$(words 1 0 -16384 0 1 0) lines=$(words 0 1 4 0 0 0 1)
    cases_of_links
    finds F11 "$(two "F11 node 0: child 0 names ssector 2, which isn't there (2 ssectors), at (0, 0)" \
        'F16 ssector 0: not reached from the root, at (0, 0)')" 2 0 NODES "$(node 0 0 0 64 32770 32769)"
    finds 'F11, child 1' "$(two "F11 node 0: child 1 names node 5, which isn't there (1 nodes), at (-7, 9)" \
        'F16 ssector 1: not reached from the root, at (0, 64)')" 2 0 NODES "$(node -7 9 0 64 32768 5)"
    finds 'F11, both' "$(two "F11 node 0: child 0 names node 5, which isn't there (1 nodes), at (0, 0)" \
        'F16 ssector 0: not reached from the root, at (0, 0)' 'F16 ssector 1: not reached from the root, at (0, 64)')" 3 0 \
        NODES "$(node 0 0 0 64 5 6)"
    finds F12 'F12 node 0: origin (16384, 0) is outside -16384 to 16383' 1 0 NODES "$(node 16384 0 0 64 32768 32769)"
    finds 'F12, of y' 'F12 node 0: origin (0, -16385) is outside -16384 to 16383' 1 0 NODES "$(node 0 -16385 0 64 32768 32769)"
    finds F13 'F13 node 0: named more than once, at (1, 2)' 1 0 NODES "$(node 1 2 0 64 32768 32769)$(node 3 4 0 64 0 0)"
    finds 'F13, the root' "$(two 'F13 node 0: the root, and named, at (0, 0)' \
        'F16 ssector 0: not reached from the root, at (0, 0)')" 2 0 NODES "$(node 0 0 0 64 0 32769)"
    finds F14 "$(two 'F14 node 0: not reached from the root, at (1, 2)' 'F14 node 1: not reached from the root, at (3, 4)' \
        'F16 ssector 2: not reached from the root, at (0, 0)' 'F16 ssector 3: not reached from the root, at (0, 0)')" 4 0 \
        NODES "$(node 1 2 0 64 1 32770)$(node 3 4 0 64 0 32771)$(node 0 0 0 64 32768 32769)" SSECTORS "$(words 1 0 1 0 1 0 1 0)"
    finds F15 "$(two 'F15 ssector 0: named more than once, at (0, 0)' 'F16 ssector 1: not reached from the root, at (0, 64)')" 2 0 \
        NODES "$(node 0 0 0 64 32768 32768)"
    finds F16 "$(two "NODES is empty: 1 ssectors can't be reached; build the nodes" \
        'F16 ssector 1: not reached from the root, at (0, 64)')" 1 0 NODES ''
    finds F17 "$(two 'SSECTORS and NODES are empty; build the nodes' 'F17 level: no ssector')" 1 0 NODES '' SSECTORS ''
    cases_of_many_nodes
    cases_of_notes
}

# What names what isn't there.
cases_of_links() {
    finds F3 "F3 linedef 0: start vertex 9 isn't there (2 vertexes)" 1 0 LINEDEFS "$(words 9 1 4 0 0 0 1)"
    finds 'F3, end' "F3 linedef 0: end vertex 2 isn't there (2 vertexes)" 1 0 LINEDEFS "$(words 0 2 4 0 0 0 1)"
    finds 'F3, both' "F3 linedef 0: start vertex -1 isn't there (2 vertexes)" 1 0 LINEDEFS "$(words -1 9 4 0 0 0 1)"
    finds F4 "F4 linedef 0: front sidedef 9 isn't there (2 sidedefs), $line" 1 0 LINEDEFS "$(words 0 1 4 0 0 9 1)"
    finds 'F4, back' "F4 linedef 0: back sidedef 2 isn't there (2 sidedefs), $line" 1 0 LINEDEFS "$(words 0 1 4 0 0 0 2)"
    finds 'F4, both' "F4 linedef 0: front sidedef -2 isn't there (2 sidedefs), $line" 1 0 LINEDEFS "$(words 0 1 4 0 0 -2 9)"
    finds 'F4, back, without a front' "$(two "F4 linedef 0: back sidedef 9 isn't there (2 sidedefs), $line" \
        "F9 seg 0: linedef 0 has no sidedef on side 0, $line" "N4 linedef 0: without a front sidedef, $line")" 2 1 \
        LINEDEFS "$(words 0 1 4 0 0 -1 9)"
    finds F5 "F5 sidedef 1: sector 9 isn't there (2 sectors), of linedef 0" 1 0 SIDEDEFS "$(sidedef 0)$(sidedef 9)"
    finds 'F5, of the first linedef' "F5 sidedef 1: sector -1 isn't there (2 sectors), of linedef 0" 1 0 \
        SIDEDEFS "$(sidedef 0)$(sidedef -1)" LINEDEFS "$lines$(words 0 1 1 0 0 1 -1)$lines"
    finds 'F5, of no linedef' "F5 sidedef 2: sector 2 isn't there (2 sectors)" 1 0 SIDEDEFS "${own[SIDEDEFS]}$(sidedef 2)"
    finds F6 "F6 seg 0: start vertex 9 isn't there (2 vertexes)" 1 0 SEGS "$(words 9 1 16384 0 0 0)$segs"
    finds 'F6, end' "F6 seg 0: end vertex -5 isn't there (2 vertexes)" 1 0 SEGS "$(words 0 -5 16384 0 0 0)$segs"
    finds F7 "F7 seg 0: linedef 9 isn't there (1 linedefs), $line" 1 0 SEGS "$(words 0 1 16384 9 0 0)$segs"
    finds F8 "F8 seg 0: side 2 is neither 0 nor 1, $line" 1 0 SEGS "$(words 0 1 16384 0 2 0)$segs"
    finds F9 "F9 seg 1: linedef 0 has no sidedef on side 1, $back" 1 0 LINEDEFS "$(words 0 1 1 0 0 0 -1)"
    finds F10 "F10 ssector 1: segs from 1, 2 of them, aren't all there (2 segs), at (0, 64)" 1 0 SSECTORS "$(words 1 0 2 1)"
    finds 'F10, a count below 0' "F10 ssector 1: segs from 1, -1 of them, aren't all there (2 segs), at (0, 64)" 1 0 \
        SSECTORS "$(words 1 0 -1 1)"
    finds 'F10, no first seg' "F10 ssector 1: segs from 9, 1 of them, aren't all there (2 segs)" 1 0 SSECTORS "$(words 1 0 1 9)"
    finds 'F10, no start of the first seg' "$(two "F6 seg 1: start vertex 9 isn't there (2 vertexes)" \
        "F10 ssector 1: segs from 1, 2 of them, aren't all there (2 segs)")" 2 0 \
        SEGS "$(words 0 1 16384 0 0 0 9 0 -16384 0 1 0)" SSECTORS "$(words 1 0 2 1)"
    flags=(--wide)
    finds 'F3, wide' "F3 linedef 0: start vertex 65535 isn't there (2 vertexes)" 1 0 LINEDEFS "$(words -1 1 4 0 0 0 1)"
    finds 'F4, wide' "F4 linedef 0: front sidedef 65534 isn't there (2 sidedefs), $line" 1 0 LINEDEFS "$(words 0 1 4 0 0 -2 1)"
    finds 'F5, wide' "F5 sidedef 1: sector 65535 isn't there (2 sectors), of linedef 0" 1 0 SIDEDEFS "$(sidedef 0)$(sidedef -1)"
    finds 'F6, wide' "F6 seg 0: end vertex 65531 isn't there (2 vertexes)" 1 0 SEGS "$(words 0 -5 16384 0 0 0)$segs"
    finds 'F7, wide' "F7 seg 0: linedef 65535 isn't there (1 linedefs), $line" 1 0 SEGS "$(words 0 1 16384 -1 0 0)$segs"
    finds 'F8, wide: a side stays as it is' "F8 seg 0: side -1 is neither 0 nor 1, $line" 1 0 SEGS "$(words 0 1 16384 0 -1 0)$segs"
    finds 'F10, wide' "F10 ssector 1: segs from 1, 65535 of them, aren't all there (2 segs), at (0, 64)" 1 0 SSECTORS "$(words 1 0 -1 1)"
    flags=()
}

# 32768 nodes of zeros: each names node 0 twice, and the last is the root.
cases_of_many_nodes() {
    local none='\x00'
    while ((${#none} < 4 * 917504)); do none+=$none; done
    flags=(--max 1)
    finds F18 "$(two 'F13 node 0: named more than once, at (0, 0)' \
        'F14 node 1: not reached from the root, at (0, 0)' 'F14: 32765 more' 'F16 ssector 0: not reached from the root, at (0, 0)' \
        'F16: 1 more' 'F18 level: 32768 nodes, 32767 are the most' 'N7 node 0: without direction, at (0, 0)' 'N7: 32767 more')" \
        32770 32768 NODES "${none:0:4*917504}"
    flags=()
}

cases_of_notes() {
    finds N2 'N2 lump 8: SECTORS has 1 bytes left over' 0 1 SECTORS "${own[SECTORS]}$(bytes 0)"
    finds 'N2, of THINGS' 'N2 lump 1: THINGS has 9 bytes left over' 0 1 THINGS "${own[THINGS]}$(bytes 1 2 3 4 5 6 7 8 9)"
    finds N3 "N3 linedef 1: two-sided, without a back sidedef, $line" 0 1 LINEDEFS "$lines$(words 0 1 4 0 0 0 -1)"
    finds N4 "N4 linedef 1: without a front sidedef, $line" 0 1 LINEDEFS "$lines$(words 0 1 1 0 0 -1 -1)"
    finds N5 'N5 linedef 1: without length, from (0, 64) to (0, 64)' 0 1 LINEDEFS "$lines$(words 1 1 1 0 0 0 -1)"
    finds N6 'N6 ssector 1: without segs, at (0, 64)' 0 1 SSECTORS "$(words 1 0 0 1)"
    finds 'N6, no first seg' "$(two "F10 ssector 1: segs from 2, 0 of them, aren't all there (2 segs)" 'N6 ssector 1: without segs')" \
        1 1 SSECTORS "$(words 1 0 0 2)"
    finds N7 'N7 node 0: without direction, at (3, -4)' 0 1 NODES "$(node 3 -4 0 0 32768 32769)"
    finds N8 'N8 level: REJECT has 0 bytes, 1 are wanted' 0 1 REJECT ''
    finds N9 'N9 level: BLOCKMAP has 4 words, 5 are wanted' 0 1 BLOCKMAP "$(words -8 -8 1 1)"
    finds 'N9, less than a head' 'N9 level: BLOCKMAP has 3 words, 4 are wanted' 0 1 BLOCKMAP "$(bytes 1 2 3 4 5 6 7)"
    finds 'N9, as many blocks as there may be' 'N9 level: BLOCKMAP has 4 words, 1073676293 are wanted' 0 1 \
        BLOCKMAP "$(words 0 0 32767 32767)"
    finds N10 'N10 block (0, 0): its list has no end' 0 1 BLOCKMAP "$(words -8 -8 1 1 5 0 0)"
    finds 'N10, outside' "N10 block (0, 0): its list isn't inside BLOCKMAP" 0 1 BLOCKMAP "$(words -8 -8 1 1 99 0 0 -1)"
    finds 'N10, column and row' "N10 block (1, 0): its list isn't inside BLOCKMAP" 0 1 BLOCKMAP "$(words -8 -8 2 1 6 99 0 -1)"
    finds 'N10, row and column' "N10 block (0, 1): its list isn't inside BLOCKMAP" 0 1 \
        BLOCKMAP "$(words -8 -8 2 2 8 8 99 8 0 -1)"
    finds N11 'N11 level: no player 1 start' 0 1 THINGS ''
    finds N12 'N12 vertex 2: (16384, 0) is outside -16384 to 16383' 0 1 VERTEXES "$(words 0 0 0 64 16384 0)"
    finds 'N12, of y' 'N12 vertex 2: (0, -16385) is outside -16384 to 16383' 0 1 VERTEXES "$(words 0 0 0 64 0 -16385)"
}

# A closed room, of which nothing is told: a square of one-sided linedefs, one of which ends the level, all starts in its middle.
starts=$(for kind in 1 2 3 4 11 11 11 11; do words 32 32 0 $kind 7; done)
walls=$(words 0 1 1 0 0 0 -1 1 2 1 0 0 1 -1 2 3 1 11 0 2 -1)
room_sides=$(for side in 0 1 2 3; do printf '%s' "$(words 0 0)$(name8 -)$(name8 -)$(name8 WALL)$(words 0)"; done)
closed=(THINGS "$starts" LINEDEFS "$walls$(words 3 0 1 0 0 3 -1)" SIDEDEFS "$room_sides"
    VERTEXES "$(words 0 0 0 64 64 64 64 0)" SEGS "$(words 0 1 16384 0 0 0 1 2 0 1 0 0 2 3 -16384 2 0 0 3 0 -32768 3 0 0)"
    SSECTORS "$(words 4 0)" NODES '' SECTORS "$(sector)")

# wall_side UPPER LOWER SECTOR: a side of the wall between two rooms.
wall_side() { printf '%s' "$(words 0 0)$(name8 "$1")$(name8 "$2")$(name8 -)$(words "$3")"; }

# Two of them side by side, sector 0 and sector 1, each an ssector; linedef 2 is the wall between them, and has textures.
rooms_sides=$(
    for sector in 0 0 0 1 1 1; do printf '%s' "$(words 0 0)$(name8 -)$(name8 -)$(name8 WALL)$(words "$sector")"; done
)
rooms=(THINGS "$starts" VERTEXES "$(words 0 0 0 64 64 64 64 0 128 64 128 0)" SECTORS "$(sector)$(sector)"
    LINEDEFS "$(words 0 1 1 0 0 0 -1 1 2 1 0 0 1 -1 2 3 4 0 0 6 7 3 0 1 0 0 2 -1 2 4 1 11 0 3 -1 4 5 1 0 0 4 -1 5 3 1 0 0 5 -1)"
    SIDEDEFS "$rooms_sides$(wall_side WALL WALL 0)$(wall_side WALL WALL 1)"
    SEGS "$(words 0 1 16384 0 0 0 1 2 0 1 0 0 2 3 -16384 2 0 0 3 0 -32768 3 0 0)$(
        words 2 4 0 4 0 0 4 5 -16384 5 0 0 5 3 -32768 6 0 0 3 2 16384 2 1 0)"
    SSECTORS "$(words 4 0 4 4)" NODES "$(node 64 64 0 -64 32768 32769)")

# warns NAME LINES COUNT [LUMP BYTES]...: what `check --map` tells of the sample level with these lumps, each line without its
# path and level; then of that file `--strict` and a survey. `notes` are told first, and which names of `behind` textures and flats
# aren't looked for without is told at last.
notes=()
warns() {
    local line text='' status=0 codes='' code seen=() lacking=$neither member=',"unlooked":["W9","W10","W25"]'
    case " ${behind[*]} " in
        *' TEXTURE1 '*) lacking=$no_flats member=',"unlooked":["W10","W25"]' ;;
        *' F_START '*) lacking=$no_textures member=',"unlooked":["W9"]' ;;
    esac
    for line in "${notes[@]}"; do text+="warned.wad: E1M1: $line\\n"; done
    while read -r line; do [[ -z $line ]] || text+="warned.wad: E1M1: $line\\n"; done <<<"$2"
    text+="1 levels in 1 files: 0 faults, ${#notes[@]} notes, $3 warnings, 0 not judged, 1 with warnings not looked for\\n"
    level "${@:4}" >warned.wad
    says "$1" 0 "$text" "$lacking" check --map --max 0 warned.wad
    (($3 == 0)) || status=1
    says "$1, strict" "$status" "$text" "$lacking" check --strict --max 0 --map warned.wad
    while read -r code _; do [[ -z $code ]] || seen[${code#W}]=$((${seen[${code#W}]-0} + 1)); done <<<"$2"
    for code in "${!seen[@]}"; do codes+=",\"W$code\":${seen[code]}"; done
    run_on '' survey --map warned.wad
    [[ $(<output) != *"},\"warnings\":{${codes#,}}$member}" ]] || : >output
    judge "$1, surveyed" 0 '' ''
    run_on '' survey --map --strict warned.wad
    [[ $(<output) != *"},\"warnings\":{${codes#,}}$member}" ]] || : >output
    judge "$1, surveyed strictly" "$status" '' ''
}

cases_of_warnings() {
    local front='from (0, 0) to (0, 64)' back='from (0, 64) to (0, 0)' w1
    w1=$(two "W1 sector 0: isn't closed, at (0, 0)" "W1 sector 0: isn't closed, at (0, 64)" \
        "W1 sector 1: isn't closed, at (0, 0)" "W1 sector 1: isn't closed, at (0, 64)")
    warns 'a closed room' '' 0 "${closed[@]}"
    warns 'W1, W7, W8 and W19 of the sample' \
        "$(two "$w1" 'W7 level: no player 2 start' 'W8 level: 0 deathmatch starts' 'W19 level: no exit')" 7
    # Its seg still has side 0, so all things lie behind the linedef.
    warns 'W1 and W3, of a linedef turned round' "$(two "W1 sector 0: isn't closed, at (0, 64)" "W1 sector 0: isn't closed, at (64, 64)" \
        "$(for thing in {0..7}; do echo "W3 thing $thing: stands in the void, at (32, 32)"; done)")" 10 \
        "${closed[@]}" LINEDEFS "$(words 0 1 1 0 0 0 -1 2 1 1 0 0 1 -1 2 3 1 11 0 2 -1 3 0 1 0 0 3 -1)"
    notes=('N5 linedef 4: without length, from (64, 64) to (64, 64)')
    warns 'W1, of a linedef from a vertex to itself: none' '' 0 "${closed[@]}" \
        LINEDEFS "$walls$(words 3 0 1 0 0 3 -1)$(words 2 2 4 0 0 0 0)"
    notes=()
    cases_of_bare_walls
    cases_of_bare_rooms
    warns W3 'W3 thing 8: stands in the void, at (65, 32)' 1 "${closed[@]}" THINGS "$starts$(words 65 32 0 3001 7)"
    warns 'W3, on the wall: none' '' 0 "${closed[@]}" THINGS "$starts$(words 64 32 0 3001 7)"
    warns 'W3, past the range: none' '' 0 "${closed[@]}" THINGS "$starts$(words 16384 32 0 3001 7)"
    warns W4 "W4 linedef 0: no sector has tag 7, $front" 1 "${closed[@]}" \
        LINEDEFS "$(words 0 1 1 18 7 0 -1 1 2 1 0 0 1 -1 2 3 1 11 0 2 -1 3 0 1 0 0 3 -1)"
    warns 'W4, of a teleporter' "$(two "W4 linedef 0: no sector has tag 7, $front" \
        "W16 linedef 0: special 97 can't be crossed: it has no back sidedef, $front")" 2 "${closed[@]}" \
        LINEDEFS "$(words 0 1 1 97 7 0 -1 1 2 1 0 0 1 -1 2 3 1 11 0 2 -1 3 0 1 0 0 3 -1)"
    for special in 11 48; do
        warns "W4, of special $special, which goes without a tag: none" '' 0 "${closed[@]}" \
            LINEDEFS "$(words 0 1 1 $special 7 0 -1 1 2 1 0 0 1 -1 2 3 1 11 0 2 -1 3 0 1 0 0 3 -1)"
    done
    for special in 85 142; do
        warns "W14, of special $special" "W14 linedef 0: special $special is none of the game's, $front" 1 "${closed[@]}" \
            LINEDEFS "$(words 0 1 1 $special 7 0 -1 1 2 1 0 0 1 -1 2 3 1 11 0 2 -1 3 0 1 0 0 3 -1)"
    done
    warns 'W17, of a door in a wall' "W17 linedef 0: special 1 without a back sidedef: its use ends the game, $front" 1 "${closed[@]}" \
        LINEDEFS "$(words 0 1 1 1 7 0 -1 1 2 1 0 0 1 -1 2 3 1 11 0 2 -1 3 0 1 0 0 3 -1)"
    warns 'W4, without a special: none' '' 0 "${closed[@]}" \
        LINEDEFS "$(words 0 1 1 0 7 0 -1 1 2 1 0 0 1 -1 2 3 1 11 0 2 -1 3 0 1 0 0 3 -1)"
    warns W5 "$(two "$w1" 'W5 ssector 0: its segs face sectors 0 and 1, at (0, 0)' 'W19 level: no exit')" 6 SSECTORS "$(words 2 0)" NODES '' \
        THINGS "$(for kind in 1 2 3 4 11 11 11 11; do words 0 8 0 $kind 7; done)"
    # The right room's seg on the wall says that it is of the wall's front.
    warns 'W5, alone' 'W5 ssector 1: its segs face sectors 1 and 0, at (64, 64)' 1 "${rooms[@]}" \
        SEGS "$(words 0 1 16384 0 0 0 1 2 0 1 0 0 2 3 -16384 2 0 0 3 0 -32768 3 0 0)$(
            words 2 4 0 4 0 0 4 5 -16384 5 0 0 5 3 -32768 6 0 0 3 2 16384 2 0 0)"
    warns W6 "W6 linedef 4: lies on linedef 0, $back" 1 "${closed[@]}" LINEDEFS "$walls$(words 3 0 1 0 0 3 -1)$(words 1 0 4 0 0 0 0)"
    warns 'W6, of other vertexes there' "W6 linedef 4: lies on linedef 0, $front" 1 "${closed[@]}" \
        VERTEXES "$(words 0 0 0 64 64 64 64 0 0 0 0 64)" LINEDEFS "$walls$(words 3 0 1 0 0 3 -1)$(words 4 5 4 0 0 0 0)"
    warns W7 'W7 level: no player 3 start' 1 "${closed[@]}" THINGS "$(for kind in 1 2 4 11 11 11 11; do words 32 32 0 $kind 7; done)"
    warns W8 'W8 level: 3 deathmatch starts' 1 "${closed[@]}" THINGS "$(for kind in 1 2 3 4 11 11 11; do words 32 32 0 $kind 7; done)"
    cases_of_unknown_textures
    cases_of_unknown_flats
    cases_of_unknown_things
    cases_of_warned_levels
}

# Walls without textures.
cases_of_bare_walls() {
    local front='from (0, 0) to (0, 64)' none='W19 level: no exit' w1 all
    w1=$(two "W1 sector 0: isn't closed, at (0, 0)" "W1 sector 0: isn't closed, at (0, 64)" \
        "W1 sector 1: isn't closed, at (0, 0)" "W1 sector 1: isn't closed, at (0, 64)")
    all=(THINGS "$(for kind in 1 2 3 4 11 11 11 11; do words 8 8 0 $kind 7; done)")
    warns 'W2, middle' "W2 linedef 0: no middle texture in front, $front" 1 "${closed[@]}" \
        SIDEDEFS "$(sidedef 0)${room_sides:120}"
    warns 'W2, upper and lower in front' "$(two "$w1" "W2 linedef 0: no upper texture in front, $front" \
        "W2 linedef 0: no lower texture in front, $front" "$none")" 7 "${all[@]}" SECTORS "$(sector_of 0 128 FLAT1)$(sector_of 8 120 FLAT1)"
    warns 'W2, upper and lower at the back' "$(two "$w1" "W2 linedef 0: no upper texture at the back, $front" \
        "W2 linedef 0: no lower texture at the back, $front" "$none")" 7 "${all[@]}" SECTORS "$(sector_of 8 120 FLAT1)$(sector_of 0 128 FLAT1)"
    warns 'W2, front before back' "$(two "$w1" "W2 linedef 0: no upper texture in front, $front" \
        "W2 linedef 0: no lower texture at the back, $front" "$none")" 7 "${all[@]}" SECTORS "$(sector_of 8 128 FLAT1)$(sector_of 0 120 FLAT1)"
    warns 'W2, of the sky: none above' "$(two "$w1" "W2 linedef 0: no lower texture in front, $front" "$none")" 6 "${all[@]}" \
        SECTORS "$(sector_of 0 128 F_SKY1)$(sector_of 8 120 F_SKY1)"
    warns 'W2, of one sky' "$(two "$w1" "W2 linedef 0: no upper texture in front, $front" "$none")" 6 "${all[@]}" \
        SECTORS "$(sector_of 0 128 F_SKY1)$(sector_of 0 120 FLAT1)"
}

# bare NAME TEXT 'FLOOR CEILING' 'FLOOR CEILING' UPPER LOWER UPPER LOWER: two rooms of these heights, and the textures of the wall
# between them, in front and at the back.
bare() {
    local lines=''
    [[ -z $2 ]] || lines="W2 linedef 2: $2, from (64, 64) to (64, 0)"
    # shellcheck disable=SC2086  # heights are two words
    warns "$1" "$lines" $((${#lines} > 0)) "${rooms[@]}" SECTORS "$(sector_of $3 FLAT1)$(sector_of $4 FLAT1)" \
        SIDEDEFS "$rooms_sides$(wall_side "$5" "$6" 0)$(wall_side "$7" "$8" 1)"
}

# A wall between two closed rooms, without a texture: each is the level's one warning.
cases_of_bare_rooms() {
    warns 'two closed rooms' '' 0 "${rooms[@]}"
    bare 'W2, all textures are there: none' '' '0 120' '8 128' WALL WALL WALL WALL
    bare 'W2, heights are the same: none' '' '0 128' '0 128' - - - -
    bare 'W2, upper in front' 'no upper texture in front' '0 128' '0 120' - WALL WALL WALL
    bare 'W2, upper at the back' 'no upper texture at the back' '0 120' '0 128' WALL WALL - WALL
    bare 'W2, lower in front' 'no lower texture in front' '0 128' '8 128' WALL - WALL WALL
    bare 'W2, lower at the back' 'no lower texture at the back' '8 128' '0 128' WALL WALL WALL -
    bare 'W2, the textures that are not seen: none' '' '0 128' '8 120' WALL WALL - -
}

# textures NAME...: a lump that lists them.
textures() {
    local name at=$((4 + 4 * $#))
    words $# 0
    for name; do
        words "$at" 0
        at=$((at + 8))
    done
    for name; do name8 "$name"; done
}

# Textures of the closed room, whose four walls are WALL.
cases_of_unknown_textures() {
    local i all behind
    all=$(for i in 0 1 2 3; do printf '%s\n' "W9 sidedef $i: middle texture WALL isn't there, of linedef $i"; done)
    behind=(TEXTURE1 "$(textures DOOR wall)")
    warns 'W9, a texture without case: none' '' 0 "${closed[@]}"
    behind=(TEXTURE1 "$(textures DOOR)" TEXTURE2 "$(textures WALL)")
    warns 'W9, a texture of TEXTURE2: none' '' 0 "${closed[@]}"
    behind=(TEXTURE1 "$(textures DOOR)")
    warns W9 "$all" 4 "${closed[@]}"
    behind=(TEXTURE1 "$(words -1 -1 8 0)$(name8 WALL)")
    warns 'W9, of a negative count' "$all" 4 "${closed[@]}"
    behind=(TEXTURE1 "$(words 0 0 8 0)$(name8 WALL)")
    warns 'W9, behind the count' "$all" 4 "${closed[@]}"
    behind=(TEXTURE1 "$(words -1 32767 8 0)$(name8 WALL)")
    warns 'W9, of the greatest count: none' '' 0 "${closed[@]}"
    behind=(TEXTURE1 "$(words 1 0 9 0)$(name8 WALL)")
    warns 'W9, a name across the end' "$all" 4 "${closed[@]}"
    behind=(TEXTURE1 "$(words 1 0 -8 -1)$(name8 WALL)")
    warns 'W9, a name before the start' "$all" 4 "${closed[@]}"
    behind=(TEXTURE1 "$(bytes 1 0)" TEXTURE2 "$(textures WALL)")
    warns 'W9, of a lump without a count: none' '' 0 "${closed[@]}"
    behind=(TEXTURE1 "$(textures WALL)" TEXTURE1 "$(textures DOOR)")
    warns 'W9, of the winner' "$all" 4 "${closed[@]}"
    behind=(TEXTURE2 "$(textures DOOR)")
    warns 'W9, without TEXTURE1: not looked for' '' 0 "${closed[@]}"
    behind=(TEXTURE1 "$(textures WALL)")
    warns 'W9, of three parts' "$(two "W9 sidedef 0: upper texture (empty) isn't there, of linedef 0" \
        "W9 sidedef 0: lower texture q isn't there, of linedef 0")" 2 "${closed[@]}" \
        SIDEDEFS "$(words 0 0)$(name8 '')$(name8 q)$(name8 -X)$(words 0)${room_sides:120}"
    warns 'W9, of no linedef' "W9 sidedef 4: middle texture DOOR isn't there" 1 "${closed[@]}" \
        SIDEDEFS "$room_sides$(words 0 0)$(name8 -)$(name8 -)$(name8 DOOR)$(words 0)"
}

# Flats of the closed room, whose floor and ceiling are FLAT1.
cases_of_unknown_flats() {
    local behind
    behind=(F_START '' FLAT1 '' F_END '')
    warns 'W10, all flats are there: none' '' 0 "${closed[@]}"
    warns 'W10, a flat without case: none' '' 0 "${closed[@]}" SECTORS "$(sector_of 0 128 flat1)"
    warns W10 "W10 sector 0: ceiling flat FLAT2 isn't there" 1 "${closed[@]}" SECTORS "$(sector_of 0 128 FLAT2)"
    warns 'W10, of an empty name' "W10 sector 0: ceiling flat (empty) isn't there" 1 "${closed[@]}" SECTORS "$(sector_of 0 128 '')"
    behind=(F_START '' flat1 '' F_END '')
    warns 'W10, entries as they stand' "$(two "W10 sector 0: floor flat FLAT1 isn't there" \
        "W10 sector 0: ceiling flat FLAT1 isn't there")" 2 "${closed[@]}"
    behind=(FLAT2 '')
    warns 'W10, without F_START: not looked for' '' 0 "${closed[@]}"
}

# A thing more in the closed room.
cases_of_unknown_things() {
    local kind
    for kind in 2009 2016 90 3007 32000; do
        warns "W11, $kind" "W11 thing 8: type $kind is none of the game's, at (32, 32)" 1 "${closed[@]}" \
            THINGS "$starts$(words 32 32 0 "$kind" 4)"
    done
    for kind in -1 0 4 5 2008 2028 3006; do
        warns "W11, $kind: none" '' 0 "${closed[@]}" THINGS "$starts$(words 32 32 0 "$kind" 7)"
    done
    warns 'W11, 89: none, but W21' "$(two 'W21 thing 8: type 89 ends the reading of things, 0 follow, at (32, 32)' \
        'W21 thing 8: has no target (type 87) in easy, medium, hard: its shot ends the game, at (32, 32)')" 2 "${closed[@]}" \
        THINGS "$starts$(words 32 32 0 89 7)"
    warns 'W11, in no skill: none' '' 0 "${closed[@]}" THINGS "$starts$(words 32 32 0 32000 24)"
}

# How many are shown, what stands behind them, and levels in which they aren't looked for.
cases_of_warned_levels() {
    local i few two_levels
    few=$(
        for i in 0 64; do printf '%s' "base.wad: E1M1: W1 sector 0: isn't closed, at (0, $i)\\n"; done
        printf '%s' 'base.wad: E1M1: W1: 2 more\n' 'base.wad: E1M1: W7 level: no player 2 start\n' \
            'base.wad: E1M1: W8 level: 0 deathmatch starts\n' 'base.wad: E1M1: W19 level: no exit\n'
    )
    says '--max of warnings' 0 "${few}1 levels in 1 files: 0 faults, 0 notes, 7 warnings, 0 not judged, 1 with warnings not looked for\\n" "$neither" check --map --max 2 base.wad
    says 'not looked for' 1 "$faults_of_faulty$unlooked_in_faulty" "$neither" check --map faulty.wad
    two_levels="${few//base.wad/.\/base.wad}udmf.wad: MAP03: udmf: not read\\n"
    two_levels+='2 levels in 2 files: 0 faults, 0 notes, 7 warnings, 1 not judged, 1 with warnings not looked for\n'
    says 'a level that is not judged, too' 2 "$two_levels" "$neither" check --map --max 2 ./base.wad udmf.wad
    says '1 goes before 2, of a warning' 1 "$two_levels" "$neither" check --map --strict --max 2 ./base.wad udmf.wad
    many_segs
    says 'before what the wide reading finds' 1 "$(
        printf '%s' "wide.wad: E1M1: F10 ssector 1: segs from -32768, 1 of them, aren't all there (32769 segs)\\n" \
            "${few//base.wad/wide.wad}" 'wide.wad: E1M1: warnings W3, W5 not looked for: F10\n' 'wide.wad: E1M1: sound with --wide\n' \
            '1 levels in 1 files: 1 faults, 0 notes, 7 warnings, 0 not judged, 1 with warnings not looked for\n'
    )" "$neither" check --map --max 2 wide.wad
    says 'surveyed, where they are not looked for' 1 \
        '{"file":"faulty.wad","level":"E1M1","entry":0,"format":"doom",'"$counts"',"sound":false,"faults":1,"notes":1,"findings":{"F9":1,"N3":1},"warnings":{},"unlooked":['"$(unlooked_names)"']}\n' \
        '' survey --map faulty.wad
    says 'surveyed, of another format' 2 '{"file":"udmf.wad","level":"MAP03","entry":0,"format":"udmf"}\n' '' survey --map udmf.wad
    cases_of_warned_sample
}

# The sample's two sectors are open at both ends of its linedef, and it has one start.
cases_of_warned_sample() {
    local text object
    text=$(
        printf 'base.wad: E1M1: %s\\n' "W1 sector 0: isn't closed, at (0, 0)" "W1 sector 0: isn't closed, at (0, 64)" \
            "W1 sector 1: isn't closed, at (0, 0)" 'W1: 1 more' 'W7 level: no player 2 start' 'W8 level: 0 deathmatch starts' \
            'W19 level: no exit'
        printf '%s' '1 levels in 1 files: 0 faults, 0 notes, 7 warnings, 0 not judged, 1 with warnings not looked for\n'
    )
    says warnings 0 "$text" "$neither" check --map --max 3 base.wad
    says 'warnings, strict' 1 "$text" "$neither" check --map --strict --max 3 base.wad
    says no_warnings 1 "$faults_of_faulty$unlooked_in_faulty" "$neither" \
        check --map --strict --max 20 faulty.wad
    object='{"file":"base.wad","level":"E1M1","entry":0,"format":"doom",'$counts',"sound":true,"faults":0,"notes":0,"findings":{}'
    object+=',"warnings":{"W1":4,"W7":1,"W8":1,"W19":1},"unlooked":["W9","W10","W25"]}\n'
    says 'warnings, surveyed' 0 "$object" '' survey --map base.wad
    says 'warnings, surveyed strictly' 1 "$object" '' survey --map --strict base.wad
}

# is_freedoom FOLDER: whether the three files of Freedoom 0.12.1 are there.
is_freedoom() {
    (cd "$1" && sha256sum --check --status) 2>/dev/null <<'END'
84c3a912f2973892a8025d09d65f5053b1ee2304968a5a172526d683a185b885  freedoom1.wad
c72de2af7e2d0c17f6213e751a167e2f1913278aaf37ae6957854fe3cd6588ca  freedoom2.wad
f8fddaa129c03d6898eca9111ce139310335952b7b133090a369b153b8f92efe  freedm.wad
END
}

# The warnings of Freedoom 0.12.1's 100 levels, where these are (FREEDOOM names their folder): of each code how many there are, and
# in how many levels.
cases_of_warned_games() {
    local games=${FREEDOOM:-/usr/share/games/doom} files=() code count counts sum
    if ! is_freedoom "$games"; then
        printf 'skipped, as there is no Freedoom 0.12.1 in %s: warnings of levels\n' "$games"
        return
    fi
    files=("$games"/{freedoom1,freedoom2,freedm}.wad)
    run_on '' survey --map "${files[@]}"
    mv output surveyed
    wc -l <surveyed >output
    for code in W{1..25}; do
        mapfile -t counts < <(grep -o "\"$code\":[0-9]*" surveyed | cut -d : -f 2)
        sum=0
        for count in "${counts[@]}"; do sum=$((sum + count)); done
        printf '%s\n' "$code $sum ${#counts[@]}" >>output
    done
    grep '"W6"' surveyed | grep -o '"level":"[^"]*"' >>output
    judge 'warnings of 100 levels' 0 "$(
        printf '%s\\n' 100 'W1 0 0' 'W2 1288 52' 'W3 0 0' 'W4 17 8' 'W5 33 10' 'W6 1 1' 'W7 0 0' 'W8 1 1' 'W9 0 0' 'W10 0 0' 'W11 0 0' \
            'W12 0 0' 'W13 0 0' 'W14 44 8' 'W15 0 0' 'W16 22 5' 'W17 4 3' 'W18 3 1' 'W19 0 0' 'W20 0 0' 'W21 1 1' 'W22 28 25' 'W23 0 0' \
            'W24 0 0' 'W25 0 0' \
            '"level":"E3M6"'
    )" ''
    cases_of_ended_games
}

# in_games [FILE LINE]...: these lines of the files of Freedoom.
in_games() {
    for (( ; $#; )); do
        printf '%s/%s.wad: %s\\n' "$games" "$1" "$2"
        shift 2
    done
}

# Each place at which the game ends, or is spoilt, and how many bytes the savegames that are too long have.
cases_of_ended_games() {
    local special="special 37: sector" held="its new special is what memory held" door='special 27 without a back sidedef: its use ends the game'
    local floor='a player on its floor ends the game'
    says 'what ends or spoils the game in 100 levels' 0 "$(
        in_games freedoom1 "E3M9: W18 sector 308: special 72: $floor" freedoom1 "E3M9: W18 sector 544: special 77: $floor" \
            freedoom1 "E3M9: W18 sector 547: special 77: $floor" \
            freedoom1 "E4M6: W17 linedef 1465: $special 502 finds no neighbour at -120, $held, from (928, -508) to (928, -388)" \
            freedoom2 "MAP25: W17 linedef 2784: $special 362 finds no neighbour at -273, $held, from (-2224, 456) to (-1616, 456)" \
            freedoom2 "MAP26: W17 linedef 949: $door, from (4752, -1424) to (4752, -1408)" \
            freedoom2 "MAP26: W17 linedef 951: $door, from (4880, -1408) to (4880, -1424)" \
            freedm 'MAP08: W21 thing 26: appears in no skill, at (352, -352)'
        printf '100 levels in 3 files: 0 faults, 0 notes, 8 warnings, 0 not judged\\n'
    )" '' check --map --max 0 --ignore notes,W1-W16,W19-W20,W22-W25 "${files[@]}"
    run_on '' check --map --ignore notes,W1-W21,W23-W25 "${files[@]}"
    sed -nE 's/^.*: ([A-Z0-9]+): W22 level: ([0-9]+) bytes to save.*/\1 \2/p' output >saved
    mv saved output
    judge 'savegames of 100 levels that are too long' 0 "$(
        printf '%s\\n' 'E1M5 237538' 'E1M7 196394' 'E2M5 222470' 'E3M4 183582' 'E3M9 193354' 'E4M2 226046' 'E4M7 295690' 'E4M9 229010' \
            'MAP12 353534' 'MAP15 184614' 'MAP28 262842'
    )" ''
}

# not_judged NAME STATUS TEXT MEMBERS: what both commands tell of the level MAP01 of format.wad.
not_judged() {
    says "check: $1" "$2" "format.wad: MAP01: $3\\n1 levels in 1 files: 0 faults, 0 notes, 1 not judged\\n" '' check format.wad
    says "survey: $1" "$2" '{"file":"format.wad","level":"MAP01","entry":0,"format":'"$4}\\n" '' survey format.wad
}

# begins LUMP TEXT: of the level in `parts` that lump begins with these bytes.
begins() {
    local i
    for ((i = 0; i < ${#parts[@]}; i += 2)); do
        [[ ${parts[i]} != "$1" ]] || parts[i + 1]=$2$(words 0 0 0 0)
    done
}

cases_of_formats() {
    local count tag parts
    for ((count = 1; count < 10; count++)); do
        lumps "$count"
        pack MAP01 '' "${parts[@]}" >format.wad
        not_judged "F1, ${usual[count]}" 1 "incomplete: no ${usual[count]} where it belongs" \
            '"incomplete","lump":"'"${usual[count]}"'"'
    done
    lumps 10
    renamed NODES NODEZ
    renamed REJECT REJECTS
    pack MAP01 '' "${parts[@]}" BEHAVIOR '' >format.wad
    not_judged 'N1, before hexen' 1 'incomplete: no NODES where it belongs' '"incomplete","lump":"NODES"'
    for tag in "${usual[@]}"; do
        lumps 10
        pack MAP01 '' "${parts[@]}" >format.wad
        outside "$tag"
        not_judged "F2, $tag" 1 "outside: $tag" '"outside","lump":"'"$tag"'"'
    done
    lumps 10
    begins NODES '\x58\x4e\x4f\x44'
    pack MAP01 '' "${parts[@]}" >format.wad
    outside REJECT SEGS
    not_judged 'F2, the first of two, before extended' 1 'outside: SEGS' '"outside","lump":"SEGS"'
    pack MAP01 '' "${parts[@]}" BEHAVIOR '' >format.wad
    outside SEGS
    not_judged 'hexen, before outside' 2 'hexen: not read' '"hexen"'
    pack MAP01 '' TEXTMAP '' "${parts[@]:2}" BEHAVIOR '' >format.wad
    not_judged 'udmf, before incomplete' 2 'udmf: not read' '"udmf"'
    cases_of_tags
}

cases_of_tags() {
    local tag
    for tag in ZNOD ZGLN ZGL2 XGL3 ZGL3; do
        lumps 10
        if [[ $tag == ?NOD ]]; then begins NODES "$(name8 "$tag")"; else begins SSECTORS "$(name8 "$tag")"; fi
        pack MAP01 '' "${parts[@]}" >format.wad
        not_judged "extended, $tag" 2 "extended nodes $tag: not read" '"extended","tag":"'"$tag"'"'
    done
    lumps 10
    begins NODES "$(name8 xNd4)"
    begins SSECTORS "$(name8 XGLN)"
    pack MAP01 '' "${parts[@]}" >format.wad
    not_judged 'extended, both: that of NODES' 2 'extended nodes xNd4: not read' '"extended","tag":"xNd4"'
    finds 'xNd4 and no four zeros' 'F12 node 0: origin (20088, 13412) is outside -16384 to 16383' 1 0 \
        NODES "$(node 20088 13412 1 0 32768 32769)"
}

# longs NUMBER...: numbers of 32 bits.
longs() {
    local number
    for number; do words "$number" $((number >> 16)); done
}

# The parts of a lump that has all nodes of the sample level: the vertexes, two ssectors of a seg each, the segs and the node.
later_vertexes=$(longs 2 0)
later_ssectors=$(longs 2 1 1)
later_segs=$(longs 2 0 1)$(words 0)$(bytes 0)$(longs 1 0)$(words 0)$(bytes 1)
later_node=$(longs 1)$(words 0 0 0 64)$(longs 0 0 0 0 2147483648 2147483649)

# breaks NAME TAG WORDS [LUMP BYTES]...: what `check`, `survey` and `picture` tell of the sample level with these lumps, whose nodes
# are broken.
breaks() {
    local told="extended nodes $2: $3" object
    object=$(told_of broken.wad E1M1 '"format":"extended","tag":"'"$2"'","broken":"'"$3"'"')
    level "${@:4}" >broken.wad
    says "broken nodes: $1" 1 "broken.wad: E1M1: $told\\n1 levels in 1 files: 0 faults, 0 notes, 1 not judged\\n" '' check broken.wad
    says "broken nodes, in objects: $1" 1 "$object$(totals_of 1 1 0 0 1)" '' check --json broken.wad
    says "broken nodes, surveyed: $1" 1 "$object" '' survey broken.wad
    says "broken nodes, drawn: $1" 1 '' "wadlens: E1M1: $told\\n" picture E1M1 broken.wad
}

# reads NAME TAG [LUMP BYTES]...: the nodes of the sample level with these lumps aren't broken.
reads() {
    level "${@:3}" >whole.wad
    says "whole nodes: $1" 2 "whole.wad: E1M1: extended nodes $2: not read\\n1 levels in 1 files: 0 faults, 0 notes, 1 not judged\\n" '' \
        check whole.wad
    says "whole nodes, surveyed: $1" 2 "$(told_of whole.wad E1M1 '"format":"extended","tag":"'"$2"'"')" '' survey whole.wad
}

# Why nodes are broken is told by the first reason that holds.
cases_of_broken_nodes() {
    local tag xnod xgln tables=$later_ssectors$later_segs$later_node
    xnod=$(letters XNOD) xgln=$(letters XGLN)
    cases_of_cut_nodes "$xnod$later_vertexes$tables"
    breaks 'the tag alone' XNOD 'NODES ends within its vertexes' NODES "$xnod"
    breaks 'more new vertexes than bytes' XNOD 'NODES ends within its vertexes' NODES "$xnod$(longs 2 4294967295 0)"
    breaks 'one seg of no ssector' XNOD 'its ssectors have 1 segs, 2 are there' \
        NODES "$xnod$later_vertexes$(longs 2 1 0)$later_segs$later_node"
    breaks 'counts that wrap in 32 bits' XNOD 'its ssectors have 4294967298 segs, 2 are there' \
        NODES "$xnod$later_vertexes$(longs 2 4294967295 3)$later_segs$later_node"
    breaks 'made for another VERTEXES' XNOD 'made for 3 vertexes, VERTEXES has 2' NODES "$xnod$(longs 3 0)$tables"
    breaks 'half a record of VERTEXES' XNOD 'made for 2 vertexes, VERTEXES has 1' \
        VERTEXES "${own[VERTEXES]:0:24}" NODES "$xnod$later_vertexes$tables"
    breaks 'an end goes before other vertexes' XNOD 'NODES ends within its nodes' NODES "$xnod$(longs 3 0)${tables:0:${#tables}-4}"
    breaks 'segs go before other vertexes' XNOD 'its ssectors have 1 segs, 2 are there' \
        NODES "$xnod$(longs 3 0 2 1 0)$later_segs$later_node"
    breaks 'GL nodes stand in SSECTORS' XGLN 'SSECTORS ends within its ssectors' SSECTORS "$xgln$later_vertexes$(longs 2 1)"
    breaks 'segs of 13 bytes' XGL2 'SSECTORS ends within its segs' SSECTORS "$(letters XGL2)$later_vertexes$later_ssectors$later_segs"
    reads 'all of them' XNOD NODES "$xnod$later_vertexes$tables"
    reads 'bytes behind them' XNOD NODES "$xnod$later_vertexes$tables$(bytes 0 0 0)"
    reads 'a third record of VERTEXES' XNOD VERTEXES "${own[VERTEXES]}$(words 5 5)" NODES "$xnod$later_vertexes$tables"
    reads 'XNOD goes before XGLN' XNOD NODES "$xnod$later_vertexes$tables" SSECTORS "$xgln"
    reads 'ZNOD goes before XGLN' ZNOD NODES "$(letters ZNOD)$(bytes 120 156)" SSECTORS "$xgln"
    reads 'GL nodes' XGLN SSECTORS "$xgln$later_vertexes$tables" NODES ''
    reads 'nodes of DeePBSP are never broken' xNd4 NODES "$(letters xNd4)$(longs 0)" SEGS "$(bytes 1)" SSECTORS "$(bytes 1 2)"
    for tag in XGL3 ZGLN; do reads "$tag" "$tag" SSECTORS "$(letters "$tag")"; done
}

# cases_of_cut_nodes NODES: of each front of NODES the part within which it ends, a level each.
cases_of_cut_nodes() {
    local all=() part parts size text=''
    lumps 10
    for ((size = 4; 4 * size < ${#1}; size++)); do
        part=vertexes
        ((size < 12)) || part=ssectors
        ((size < 24)) || part=segs
        ((size < 50)) || part=nodes
        parts[13]=${1:0:4*size}
        all+=("CUT$size" '' "${parts[@]}")
        text+="fronts.wad: CUT$size: extended nodes XNOD: NODES ends within its $part\\n"
    done
    pack "${all[@]}" >fronts.wad
    says 'broken nodes: each front' 1 "${text}82 levels in 1 files: 0 faults, 0 notes, 82 not judged\\n" '' check fronts.wad
}
