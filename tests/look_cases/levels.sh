# Cases of what is asked of a level, which tests/wadlook runs.
# shellcheck shell=bash disable=SC2034,SC2059,SC2154  # what tests/wadlook sets and reads; texts are as printf takes them

cases_of_points() {
    local base=$'1 5 sector 0 ssector 0\n0 5 sector 1 ssector 1\n-1 5 sector 1 ssector 1\n'
    local form='refused: form\n' range='refused: range\n' line lines='' texts=''
    answers first_point '0 5\n' '0 5 sector 1 ssector 1\n' points E1M1 base.wad
    answers base_points '1 5\n0 5\n-1 5\n' "$base" points E1M1 base.wad
    answers wide_points '1 5\n0 5\n-1 5\n' "$base" points --wide E1M1 base.wad
    answers 'wide_points: small letters' '0 5\n' '0 5 sector 1 ssector 1\n' points --wide e1m1 base.wad
    answers two_files '0 5\n' '0 5 sector 1 ssector 1\n' points E1M1 base.wad base.wad
    answers 'the last file wins' '0 5\n' '0 5 sector 0 ssector 0\n' points E1M1 base.wad no_direction.wad
    answers 'the last file wins, the other way round' '0 5\n' '0 5 sector 1 ssector 1\n' points E1M1 no_direction.wad base.wad
    answers 'a level that goes on in a second file' '0 5\n' '0 5 sector 1 ssector 1\n' points E1M1 label.wad ten_lumps.wad
    answers 'queries: small letters' '0 5\n' '0 5 sector 1 ssector 1\n' points e1m1 base.wad
    level NODES "$(node 0 0 -1 1 32768 32769)" >level.wad
    answers diagonal_ties '0 0\n1 -1\n-1 1\n' '0 0 sector 0 ssector 0\n1 -1 sector 1 ssector 1\n-1 1 sector 1 ssector 1\n' \
        points E1M1 level.wad
    level NODES "$(node -16384 16383 32767 -32768 32768 32769)" >level.wad
    answers greatest_products '16383 -16384\n' '16383 -16384 sector 1 ssector 1\n' points E1M1 level.wad
    for line in '0 5' '3 3' '3 4' '2 3' '-9 7' '-9 9' '-16384 16383' '-16384 -16384' '16383 16383'; do
        lines+="$line\n" texts+="$line sector 0 ssector 0\n"
    done
    answers no_direction "$lines" "$texts" points E1M1 no_direction.wad
    answers no_nodes "$lines" "$texts" points E1M1 no_nodes.wad
    answers wide_ssectors '0 5\n' '0 5 sector 1 ssector 1\n' points --wide E1M1 wide_ssectors.wad

    refuses 'a NAME that is not there' '8 no label' points E2M9 base.wad
    refuses 'a NAME that is not there, and no entries' '8 no label' points E1M1 empty.wad
    refuses 'lumps_missing: the label' '8 no label' points E1M1 ten_lumps.wad
    refuses 'an empty NAME' '8 no label' points '' base.wad
    refuses 'queries: nine letters' '8 no label' points E1M1E1M1E base.wad
    pack e1m1 '' >level.wad
    refuses 'a label with small letters' '8 no label' points e1m1 level.wad
    patched base.wad $(($(entry 0) + 8)) "$(name8 e1m1)" >level.wad
    refuses 'lower_case_label' '8 no label' points E1M1 level.wad
    refuses 'queries: the first eight letters' 'F1 1' points blockmapper base.wad
    refuses 'a label before the last nine lumps' 'F1 10' points THINGS base.wad
    refuses lumps_missing 'F1 10' points E1M1 nine_lumps.wad
    refuses 'the last label alone' 'F1 1' points E1M1 base.wad label.wad
    refuses 'a lump outside its file' 'F2 7' points E1M1 nodes_outside.wad
    patched nine_lumps.wad $((217 + 16 * 3)) "$(words 0 0 -1 -1)" >level.wad
    refuses 'the first lump that is refused' 'F2 3' points E1M1 level.wad
    patched eight_lumps.wad $((216 + 16 * 8)) "$(words -1 -1)" >level.wad
    refuses first_lump_decides 'F2 8' points E1M1 level.wad
    patched base.wad "$(entry 10)" "$(words 217 0 193 0)" >level.wad
    refuses 'a lump that leaves its file by a byte' 'F2 10' points E1M1 base.wad level.wad
    patched base.wad "$(entry 10)" "$(words 217 0 192 0)" >level.wad
    answers 'a lump that ends with its file' '0 5\n' '0 5 sector 1 ssector 1\n' points E1M1 level.wad

    answers line_forms 'x\n16384 0\n0  5\n1 2 3\n\n007 -0\r\n+1 1\n' \
        "$form$range$form$form$form"'7 0 sector 0 ssector 0\n'"$form" points E1M1 base.wad
    answers 'line_forms: a last line without its end' '1 5\n0 5' '1 5 sector 0 ssector 0\n0 5 sector 1 ssector 1\n' \
        points E1M1 base.wad
    answers 'spaces, signs and other bytes' ' 0 5\n0 5 \n0\t5\n- 5\n--1 5\n0 5-\n1\n0 5\0\n\xff 5\n' \
        "$(times 9 "$form")" points E1M1 base.wad
    answers 'bytes 13' '0 5\r\n0 5\r\r\n0\r5\n\r\n\r' '0 5 sector 1 ssector 1\n'"$(times 4 "$form")" points E1M1 base.wad
    answers 'the ends of the range' '-16384 16383\n16383 -16384\n-16385 0\n0 16384\n' \
        "-16384 16383 sector 1 ssector 1\n16383 -16384 sector 0 ssector 0\n$range$range" points E1M1 base.wad
    answers 'numbers past every type' '1 99999999999999999999\n-18446744073709551616 0\n1 4294967296\nx 16384\n' \
        "$range$range$range$form" points E1M1 base.wad
    local zeros
    zeros=$(times 62 0)
    answers line_lengths "$zeros 5\n$zeros 5\r\n0$zeros 5\n$(times 62 9) 5\n" \
        '0 5 sector 1 ssector 1\n0 5 sector 1 ssector 1\n'"$form$range" points E1M1 base.wad
    answers 'line_lengths: 64 bytes' "$zeros 5" '0 5 sector 1 ssector 1\n' points E1M1 base.wad
    answers 'line_lengths: 64 bytes and byte 13' "$zeros 5\r\n" '0 5 sector 1 ssector 1\n' points E1M1 base.wad
    answers 'line_lengths: 65 bytes' "0$zeros 5" "$form" points E1M1 base.wad
    answers 'line_lengths: 62 digits 9' "$(times 62 9) 5" "$range" points E1M1 base.wad
    # Points whose lines were read together are told by four: nine lines, with one that is refused at each place, or none.
    local place refused side
    for refused in {0..9}; do
        lines='' texts=''
        for place in {0..8}; do
            side=$(((place / 2 + refused) % 2))
            if ((place == refused)); then
                lines+='x\n' texts+=$form
            else
                lines+="$side 5\n" texts+="$side 5 sector $((1 - side)) ssector $((1 - side))\n"
            fi
        done
        answers "nine lines, line $refused of them refused" "$lines" "$texts" points E1M1 base.wad
    done
    answers 'a long line between two' "1 5\n$(times 1000 '0 5 ')\n0 5\n" \
        "1 5 sector 0 ssector 0\n${form}0 5 sector 1 ssector 1\n" points E1M1 base.wad
}

# Levels that the audit judges.
cases_of_accept() {
    answers two_nodes '1 5\n1 10\n0 5\n1 11\n' \
        '1 5 sector 0 ssector 0\n1 10 sector 0 ssector 0\n0 5 sector 1 ssector 1\n1 11 sector 1 ssector 2\n' \
        points E1M1 two_nodes.wad
    local near='1 5 sector 0 ssector 0\n' far='1 11 sector 1 ssector 2\n' past='0 5 sector 1 ssector 1\n'
    answers 'two_nodes: depths side by side' '1 5\n1 11\n0 5\n1 5\n0 5\n0 5\n0 5\n1 11\n0 5\n1 5\n' \
        "$near$far$past$near$past$past$past$far$past$near" points E1M1 two_nodes.wad
    answers chain '1 5\n0 5\n' '1 5 sector 0 ssector 0\n0 5 sector 0 ssector 32767\n' points E1M1 chain.wad
    local first='1 5 sector 0 ssector 0\n' last='0 5 sector 0 ssector 32767\n'
    answers 'chain: depths side by side' '0 5\n0 5\n1 5\n1 5\n0 5\n' "$last$last$first$first$last" points E1M1 chain.wad
    refuses nodes_not_reached audit points E1M1 nodes_not_reached.wad
    refuses side_missing audit points E1M1 side_missing.wad
    refuses wide_ssectors audit points E1M1 wide_ssectors.wad
    level NODES '' >level.wad
    refuses no_nodes audit points E1M1 level.wad
    level NODES "$(node 16384 0 0 64 32768 32769)" >level.wad
    refuses 'unsound_levels: an origin out of range' audit points E1M1 level.wad
    level NODES "$(node 0 0 0 64 32768 32768)" >level.wad
    refuses 'unsound_levels: one ssector twice' audit points E1M1 level.wad
    level SEGS '' >level.wad
    refuses 'unsound_levels: no segs' audit points E1M1 level.wad
}

# shown [TABLE TEXT]...: what `show` tells of the sample, with these texts in place of its tables'.
shown() {
    local -A table_of=(
        [THINGS]='THINGS 1 rest 0\n0 8 8 0 1 7\n'
        [LINEDEFS]='LINEDEFS 1 rest 0\n0 0 1 4 0 0 0 1\n'
        [SIDEDEFS]='SIDEDEFS 2 rest 0\n0 0 0 - - - 0\n1 0 0 - - - 1\n'
        [VERTEXES]='VERTEXES 2 rest 0\n0 0 0\n1 0 64\n'
        [SEGS]='SEGS 2 rest 0\n0 0 1 16384 0 0 0\n1 1 0 -16384 0 1 0\n'
        [SSECTORS]='SSECTORS 2 rest 0\n0 1 0\n1 1 1\n'
        [NODES]='NODES 1 rest 0\n0 0 0 0 64 64 0 0 0 64 0 0 0 32768 32769\n'
        [SECTORS]='SECTORS 2 rest 0\n0 0 128 FLAT1 FLAT1 160 0 0\n1 0 128 FLAT1 FLAT1 160 0 0\n'
        [REJECT]='REJECT 1\n'
        [BLOCKMAP]='BLOCKMAP 16\n'
    )
    local name
    for (( ; $#; )); do
        table_of[$1]=$2
        shift 2
    done
    printf '%s' 'level E1M1 at 0\n'
    for name in "${usual[@]}"; do printf '%s' "${table_of[$name]}"; done
}

cases_of_show() {
    local segs
    prints show_text "$(shown)" show E1M1 base.wad
    prints 'show_text, wide' "$(shown)" show --wide E1M1 base.wad
    local rest='SECTORS 2 rest 1\n0 0 128 FLAT1 FLAT1 160 0 0\n1 0 128 FLAT1 FLAT1 160 0 0\n'
    prints bytes_left_over "$(shown SECTORS "$rest")" show e1m1 bytes_left_over.wad
    prints wide_no_side "$(shown LINEDEFS 'LINEDEFS 1 rest 0\n0 0 1 4 0 0 0 -1\n')" show E1M1 side_missing.wad
    prints 'wide_no_side, wide' "$(shown LINEDEFS 'LINEDEFS 1 rest 0\n0 0 1 4 0 0 0 65535\n')" \
        show --wide E1M1 side_missing.wad
    segs='SEGS 32769 rest 0\n'$(printf '%s 0 1 16384 0 0 0\\n' {0..32767})'32768 1 0 -16384 0 1 0\n'
    prints wide_ssectors "$(shown SEGS "$segs" SSECTORS 'SSECTORS 2 rest 0\n0 1 0\n1 1 -32768\n')" \
        show E1M1 wide_ssectors.wad
    prints 'wide_ssectors, wide' "$(shown SEGS "$segs" SSECTORS 'SSECTORS 2 rest 0\n0 1 0\n1 1 32768\n')" \
        show --wide E1M1 wide_ssectors.wad
    printf "PWAD$(words 3 0 12 0)$(times 48 '\x00')" >three.wad
    prints lump_places "$(shown | sed 's/at 0/at 3/')" show E1M1 three.wad base.wad
    prints lumps_in_a_later_file "$(shown)" show E1M1 five_lumps.wad five_more_lumps.wad
    refuses lumps_missing '8 no label' show E2M9 base.wad
    refuses 'a lump missing' 'F1 10' show E1M1 nine_lumps.wad
    refuses 'a lump outside its file' 'F2 7' show E1M1 nodes_outside.wad
    cannot_write show '' show E1M1 base.wad
}

declare -A text_of=(
    [F1]='lump missing after the label' [F2]='lump outside its file' [F3]='linedef vertex names none'
    [F4]='linedef side names none' [F5]='sidedef sector names none' [F6]='seg vertex names none'
    [F7]='seg linedef names none' [F8]='seg side is not 0 or 1' [F9]="seg's linedef has no side there"
    [F10]="ssector's segs out of range" [F11]='child names nothing' [F12]='node origin out of range'
    [F13]='node named twice or root named' [F14]='node not reached' [F15]='ssector named more than once'
    [F16]='ssector not reached' [F17]='no ssector' [F18]='more than 32767 nodes' [N1]='lump name differs'
    [N2]='bytes left over' [N3]='two-sided flag without side 1' [N4]='no side 0' [N5]='linedef of no length'
    [N6]='ssector without segs' [N7]='partition without direction' [N8]='REJECT size' [N9]='BLOCKMAP short'
    [N10]='block list faulty' [N11]='no player 1 start' [N12]='vertex out of range'
)

# finds NAME 'CODE INDEX, ..' WORD...: `audit` finds that, and the status says whether there is a fault.
finds() {
    local finding code text='' faults=0 notes=0 findings
    IFS=, read -r -a findings <<<"$2"
    for finding in "${findings[@]}"; do
        finding=${finding# }
        code=${finding% *}
        text+="$finding ${text_of[$code]}\n"
        if [[ $code == F* ]]; then faults=$((faults + 1)); else notes=$((notes + 1)); fi
    done
    run_on "$unread" audit "${@:3}"
    judge "$1" $((faults > 0)) "${text}faults $faults notes $notes\n" '' "$unread"
}

# finds_in NAME 'CODE INDEX, ..' [LUMP BYTES]...: the same of the sample with these lumps.
finds_in() {
    level "${@:3}" >level.wad
    finds "$1" "$2" E1M1 level.wad
}

# finds_in_nodes NAME COUNT [FAULT]: what `audit` finds in so many nodes of zeros, and this fault.
finds_in_nodes() {
    local last=$(($2 - 1)) text
    nodes_of_zeros "$2" >level.wad
    text="F13 0 ${text_of[F13]}\n$(seq -f "F14 %.0f ${text_of[F14]}" 1 $((last - 1)))\n"
    text+="F16 0 ${text_of[F16]}\nF16 1 ${text_of[F16]}\n${3:+$3 ${text_of[${3% *}]}\n}"
    text+="$(seq -f "N7 %.0f ${text_of[N7]}" 0 "$last")\n"
    run_on "$unread" audit E1M1 level.wad
    judge "$1" 1 "${text}faults $((last + ($# > 2) + 2)) notes $2\n" '' "$unread"
}

cases_of_audit() {
    local name place
    finds base_points '' E1M1 base.wad
    finds_in second_start '' THINGS "${own[THINGS]}${own[THINGS]}"
    level THINGS '' >other.wad
    patched other.wad $((223 + 16 * 7 + 8)) "$(name8 NODEZ)" >level.wad
    finds name_and_start_notes 'N1 7, N11 0' E1M1 level.wad
    finds no_direction 'N7 0' E1M1 no_direction.wad
    finds_in no_nodes 'F16 1' NODES ''
    finds 'no_nodes, one ssector' '' E1M1 no_nodes.wad
    finds_in 'no_nodes, no ssector' 'F17 0' NODES '' SSECTORS ''
    finds two_nodes '' E1M1 two_nodes.wad
    finds nodes_not_reached 'F14 0, F14 1, F16 2, F16 3' E1M1 nodes_not_reached.wad
    finds side_missing 'F9 1, N3 0' E1M1 side_missing.wad
    finds wide_no_side 'F9 1, N3 0' --wide E1M1 side_missing.wad
    # 65535 says that there is no side, also where so many sidedefs are there.
    with_zeros side_missing.wad 3 $((65536 * 30)) >level.wad
    finds wide_no_side_of_65536 'F9 1, N3 0' --wide E1M1 level.wad
    finds_in 'side_missing, a side of 2' 'F8 1' SEGS "$(words 0 1 16384 0 0 0 1 0 -16384 0 2 0)"
    finds bytes_left_over 'N2 8' E1M1 bytes_left_over.wad
    finds lumps_missing 'F1 10' E1M1 nine_lumps.wad
    finds 'a lump outside its file' 'F2 7' E1M1 nodes_outside.wad
    refuses 'a NAME that is not there' '8 no label' audit E2M9 base.wad
    finds_in 'children: one ssector twice' 'F15 0, F16 1' NODES "$(node 0 0 0 64 32768 32768)"
    finds_in 'children: the root' 'F13 0, F16 0' NODES "$(node 0 0 0 64 0 32769)"
    finds_in 'children: none' 'F11 0, F16 0' NODES "$(node 0 0 0 64 32770 32769)"
    finds_in 'children: an origin out of range' 'F12 0' NODES "$(node 16384 0 0 64 32768 32769)"
    for place in '-16384 0' '16383 0' '0 -16384' '0 16383'; do
        # shellcheck disable=SC2086  # a place is two words
        finds_in "origins: $place" '' NODES "$(node $place 0 64 32768 32769)"
    done
    for place in '-32768 0' '-16385 0' '16384 0' '32767 0' '0 -32768' '0 -16385' '0 16384' '0 32767'; do
        # shellcheck disable=SC2086  # a place is two words
        finds_in "origins: $place" 'F12 0' NODES "$(node $place 0 64 32768 32769)"
    done
    finds_in_nodes 'too_many_nodes: 32767' 32767
    finds_in_nodes 'too_many_nodes: 32768' 32768 'F18 0'
    finds_in 'notes on linedefs, ssectors and vertexes' 'N5 0, N6 0, N12 0, N12 1' \
        VERTEXES "$(words 16384 0 16384 0)" SSECTORS "$(words 0 0 1 1)"
    finds_in 'no side 0' 'F9 0, N4 0' LINEDEFS "$(words 0 1 4 0 0 -1 1)"
    finds_in sight_bits 'N8 0' REJECT ''
    finds_in 'sight_bits, one bit set' '' REJECT "$(bytes 2)"
    finds_in 'block_lists, whole' '' BLOCKMAP "$(words 0 0 1 1 5 0 7 -1)"
    finds_in block_list_empty '' BLOCKMAP "$(words 0 0 1 1 5 -1)"
    finds_in block_lists 'N10 0' BLOCKMAP "$(words 0 0 1 1 5 0 7)"
    finds_in 'block_lists, no offset' 'N9 0' BLOCKMAP "$(words 0 0 1 1)"
    finds_in 'block_lists, 7 bytes' 'N9 0' BLOCKMAP "$(bytes 0 0 0 0 1 0 1)"
    finds_in blockmap_negative '' BLOCKMAP "$(words 0 0 -1 -1)"
    finds_in blockmap_past_end 'N9 0' BLOCKMAP "$(words 0 0 32767 32767)"

    # 16 MB in which 4,000,000 blocks name a list that no end word follows. The text is compared by its checksum.
    patched base.wad "$(entry 10)" "$(words 409 0 16000000 $((16000000 >> 16)))" >level.wad
    printf "$(words 0 0 2000 2000)" >>level.wad
    yes ab | tr -d '\n' | tr ab '\4\0' | head -c 15999992 >>level.wad
    run_on "$unread" audit E1M1 level.wad
    sha256sum <output >sum
    mv sum output
    judge lists_without_end 0 "$({
        seq -f "N10 %.0f ${text_of[N10]}" 0 3999999
        echo 'faults 0 notes 4000000'
    } | sha256sum)\n" '' "$unread"
    rm level.wad

    finds wide_ssectors 'F10 1' E1M1 wide_ssectors.wad
    finds 'wide_ssectors, wide' '' --wide E1M1 wide_ssectors.wad
    finds_in wide_blockmap 'N10 0' BLOCKMAP "$(words 0 0 1 1 -32768)$(times 32763 "$(words 0)")$(words 7 -1)"
    finds 'wide_blockmap, wide' '' --wide E1M1 level.wad
    finds chain '' E1M1 chain.wad
    local -A of_a_cut=(
        [THINGS]='N2 1, N11 0' [LINEDEFS]='F7 0, F7 1, N2 2' [SIDEDEFS]='F4 0, N2 3'
        [VERTEXES]='F3 0, F6 0, F6 1, N2 4' [SEGS]='F10 1, N2 5' [SSECTORS]='F11 0, N2 6' [NODES]='F16 1, N2 7'
        [SECTORS]='F5 1, N2 8' [REJECT]='N8 0' [BLOCKMAP]='N10 0'
    )
    for name in "${usual[@]}"; do
        finds_in "lump_cut_by_one: $name" "${of_a_cut[$name]}" "$name" "${own[$name]::-4}"
    done
    cannot_write audit '' audit E1M1 base.wad
}

cases_of_census() {
    answers census_base '-1 0 1 1\n0 0 0 0\n0 0 1023 1023\n0 0 1024 1023\n1 0 0 0\n' \
        '-1 0 1 1 points 6 0:2 1:4\n0 0 0 0 points 1 1:1\n0 0 1023 1023 points 1048576 0:1047552 1:1024\n'"$(
            times 2 'refused: range\n')" census E1M1 base.wad
    answers 'census_base, wide' '-1 0 1 1\n' '-1 0 1 1 points 6 0:2 1:4\n' census --wide E1M1 base.wad
    level NODES "$(node 0 0 -1 1 32768 32769)" >level.wad
    answers census_diagonal '-1 -1 1 1\n' '-1 -1 1 1 points 9 0:4 1:5\n' census E1M1 level.wad
    # The widest rectangles. In each row a division finds where the side changes; a search along each row would take minutes.
    yes -- '-16384 0 16383 31' | head -n 200000 >input
    timeout 60 "$program" census E1M1 level.wad <input >output 2>error
    printf '%s' $? >status
    : >left
    sha256sum <output >sum
    mv sum output
    judge 'wide rectangles across a diagonal' 0 \
        "$(yes -- '-16384 0 16383 31 points 1048576 0:524753 1:523823' | head -n 200000 | sha256sum)\n" '' ''
    answers census_square '-512 -512 511 511\n' '-512 -512 511 511 points 1048576 0:523264 1:525312\n' \
        census E1M1 base.wad
    answers census_no_direction '-1 0 1 1\n' '-1 0 1 1 points 6 0:6\n' census E1M1 no_direction.wad
    answers two_nodes '-1 9 1 11\n' '-1 9 1 11 points 9 0:2 1:7\n' census E1M1 two_nodes.wad
    answers 'census_work: chain' '1 0 1024 1023\n' '1 0 1024 1023 points 1048576 0:1048576\n' census E1M1 chain.wad
    answers 'census_forms: forms and ranges' '0 0 0\n0 0 0 0 0\n0  0 0 0\n0 0 0 x\n0 1 0 0\n16384 0 16384 0\n-16384 -16384 -16384 16383\n' \
        "$(times 4 'refused: form\n')$(times 2 'refused: range\n')-16384 -16384 -16384 16383 points 32768 1:32768\n" \
        census E1M1 base.wad
    refuses nodes_not_reached audit census E1M1 nodes_not_reached.wad
    refuses wide_ssectors audit census E1M1 wide_ssectors.wad
    answers 'wide_ssectors, wide' '0 0 1 0\n' '0 0 1 0 points 2 0:1 1:1\n' census --wide E1M1 wide_ssectors.wad
    cannot_write census '0 0 0 0\n' census E1M1 base.wad
}

cases_of_sight() {
    answers sight_bits '0 1\n' '0 1 clear\n' sight E1M1 base.wad
    level REJECT '' >level.wad
    answers 'sight_bits, REJECT empty' '0 1\n2 0\n' '0 1 unknown\nrefused: range\n' sight E1M1 level.wad
    level REJECT "$(bytes 2)" >level.wad
    answers 'sight_bits, one bit set' '0 1\n1 0\nx\n' '0 1 blocked\n1 0 clear\nrefused: form\n' sight E1M1 level.wad
    level REJECT "$(bytes 2)" SECTORS "${own[SECTORS]}$(sector)" >level.wad
    answers 'sight_bits, three sectors' '0 1\n1 0\n2 2\n' '0 1 blocked\n1 0 clear\n2 2 unknown\n' sight E1M1 level.wad
    answers sight_in_a_faulty_level '0 1\n' '0 1 clear\n' sight E1M1 side_missing.wad
    patched base.wad "$(entry 9)" "$(words 217 0)" >level.wad
    answers lumps_overlap '0 1\n1 1\n' '0 1 clear\n1 1 blocked\n' sight E1M1 level.wad
    answers 'forms and ranges' '0\n0 1 0\n-1 0\n0 2\n-0 01\n' \
        "$(times 2 'refused: form\n')$(times 2 'refused: range\n')0 1 clear\n" sight E1M1 base.wad
    refuses 'a lump outside its file' 'F2 7' sight E1M1 nodes_outside.wad
    cannot_write sight '0 1\n' sight E1M1 base.wad
}

cases_of_blocks() {
    local size=268435046 lines='0 5\n' texts='0 5 block 0 0 fault 2\n' i
    answers base_block '0 5\n' '0 5 block 0 0 lines 0 0\n' blocks E1M1 base.wad
    level BLOCKMAP "$(words 0 0 1 1 5 0 7 -1)" >level.wad
    answers block_lists '127 127\n128 0\n-1 0\n' '127 127 block 0 0 lines 0 7\n128 0 no block\n-1 0 no block\n' \
        blocks E1M1 level.wad
    level BLOCKMAP "$(words 0 0 1 1 5 0 7)" >level.wad
    answers 'block_lists, without the last word' '127 127\n' '127 127 block 0 0 fault 2\n' blocks E1M1 level.wad
    level BLOCKMAP "$(words 0 0 1 1)" >level.wad
    answers 'block_lists, no offset' '127 127\n' '127 127 block 0 0 fault 1\n' blocks E1M1 level.wad
    level BLOCKMAP "$(bytes 0 0 0 0 1 0 1)" >level.wad
    refuses 'block_lists, 7 bytes' 'no blockmap' blocks E1M1 level.wad
    level BLOCKMAP "$(words 0 0 1 1 5 -1)" >level.wad
    answers block_list_empty '0 5\n' '0 5 block 0 0 lines\n' blocks E1M1 level.wad
    level BLOCKMAP "$(words 0 0 -1 -1)" >level.wad
    answers blockmap_negative '0 5\n' '0 5 no block\n' blocks E1M1 level.wad
    level BLOCKMAP "$(words 0 0 32767 32767)" >level.wad
    answers blockmap_past_end '0 5\n' '0 5 block 0 0 fault 1\n' blocks E1M1 level.wad
    level BLOCKMAP "$(words 0 0 1 1 -32768)$(times 32763 "$(words 0)")$(words 7 -1)" >level.wad
    answers wide_blockmap '127 127\n' '127 127 block 0 0 fault 1\n' blocks E1M1 level.wad
    answers 'wide_blockmap, wide' '127 127\n' '127 127 block 0 0 lines 7\n' blocks --wide E1M1 level.wad
    answers 'forms and ranges' '0\n0 5 1\n16384 0\n0 -16385\n' \
        "$(times 2 'refused: form\n')$(times 2 'refused: range\n')" blocks E1M1 base.wad
    answers 'a level with faults' '0 5\n' '0 5 block 0 0 lines 0 0\n' blocks E1M1 nodes_not_reached.wad

    # A list without an end, in a hole of 134 million words: a search for its end for each line would take many minutes.
    patched base.wad "$(entry 10)" "$(words 409 0 "$size" $((size >> 16)))" >level.wad
    printf "$(words 0 0 1 1 5)" >>level.wad
    truncate -s $((409 + size)) level.wad
    for ((i = 0; i < 17; i++)); do lines+=$lines texts+=$texts; done
    answers 'a list without an end, asked for again and again' "$lines" "$texts" blocks E1M1 level.wad
    rm level.wad
    cannot_write blocks '0 5\n' blocks E1M1 base.wad
}

# Levels of every kind, each under its own name in the folder `plenty`.
cases_of_plenty() {
    local name bytes children line words
    mkdir plenty
    cp base.wad no_direction.wad no_nodes.wad nodes_not_reached.wad side_missing.wad bytes_left_over.wad nine_lumps.wad plenty
    for line in '0 0 -1 1' '-16384 16383 32767 -32768' '16384 0 0 64'; do
        # shellcheck disable=SC2086  # a line is four words
        level NODES "$(node $line 32768 32769)" >"plenty/line $line"
    done
    for children in '32768 32768' '0 32769' '32770 32769'; do
        # shellcheck disable=SC2086  # two words
        level NODES "$(node 0 0 0 64 $children)" >"plenty/children $children"
    done
    level NODES '' >plenty/no_nodes_but_ssectors
    level NODES '' SSECTORS '' >plenty/no_ssectors
    level THINGS '' >plenty/no_things
    wants_no_memory levels_with_and_without_findings

    level REJECT '' >plenty/REJECT_empty
    level REJECT "$(bytes 2)" >plenty/REJECT_set
    level BLOCKMAP "$(times 7 "$(bytes 0)")" >plenty/BLOCKMAP_short
    for words in '0 0 1 1' '0 0 1 1 5 0 7' '0 0 1 1 5 0 7 -1' '0 0 1 1 5 -1' '0 0 -1 -1' '0 0 32767 32767'; do
        # shellcheck disable=SC2086  # each is a number
        level BLOCKMAP "$(words $words)" >"plenty/BLOCKMAP $words"
    done
    for name in "${usual[@]}"; do level "$name" "${own[$name]::-4}" >"plenty/$name cut"; done
    wants_no_memory other_tables

    cp chain.wad plenty
    nodes_of_zeros 32768 >plenty/nodes
    bytes=$(times 100000 '\xff')
    for name in "${usual[@]}"; do level "$name" "$bytes" >"plenty/$name large"; done
    wants_no_memory large_levels
}
