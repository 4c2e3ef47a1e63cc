# Cases of demos, as lumps and as files, which tests/wadlook runs.
# shellcheck shell=bash disable=SC2034,SC2059,SC2154  # what tests/wadlook sets and reads; texts are as printf takes them

# the_demos LISTS REFUSES: calls `LISTS NAME BYTES LISTING` for each demo that is one, and for each other
# `REFUSES NAME BYTES LISTING REASON`, where the listing goes as far as the bytes do.
the_demos() {
    local head two first second header length at text
    header='skill 3 episode 1 map 1 deathmatch 0 respawn 0 fast 0 nomonsters 0 viewpoint 0 players 1 0 0 0\n'
    first='0 1 25 0 0 00\n' second='1 1 -50 -128 255 80\n'
    head=$(bytes 109 3 1 1 0 0 0 0 0 1 0 0 0)
    two=$head$(bytes 25 0 0 0 206 128 255 128 128 7)
    "$1" demo_two_commands "$two" "demo version 109 $header$first${second}tics 2 odd 0 after 1\n"
    text="demo version 109 ${header/1 0 0 0/1 1 0 0}"
    "$1" demo_two_players "${head::-12}$(bytes 1 0 0)${two:52}" \
        "$text${first}0 2 -50 -128 255 80\ntics 1 odd 0 after 1\n"
    "$1" 'demo_two_players, a third command' "${head::-12}$(bytes 1 0 0)${two:52:32}$(bytes 1 2 3 4 128 7)" \
        "$text${first}0 2 -50 -128 255 80\n1 1 1 2 3 04\ntics 1 odd 1 after 1\n"
    "$2" demo_without_marker "${two::84}$(bytes 7)" "demo version 109 $header$first$second" 'demo 5 at 21'
    "$1" demo_110 "$(bytes 110)${two:4}" "demo version 110 $header$first${second}tics 2 odd 0 after 1\n"
    local long
    long=$(bytes 111)${head:4}$(bytes 25 0 52 18 0 206 128 255 255 128 128)
    "$1" demo_111 "$long" "demo version 111 ${header}0 1 25 0 4660 00\n1 1 -50 -128 65535 80\ntics 2 odd 0 after 0\n"
    "$2" 'demo_111_cut, to 22 bytes' "${long::88}" "demo version 111 ${header}0 1 25 0 4660 00\n" 'demo 5 at 18'
    "$2" 'demo_111_cut, to 23 bytes' "${long::92}" \
        "demo version 111 ${header}0 1 25 0 4660 00\n1 1 -50 -128 65535 80\n" 'demo 5 at 23'
    "$1" demo_109_as_111 "$(bytes 111)${two:4}" "demo version 111 ${header}0 1 25 0 0 ce\ntics 1 odd 0 after 4\n"
    "$1" 'demo_refusals: no commands' "$head$(bytes 128)" "demo version 109 ${header}tics 0 odd 0 after 0\n"
    "$2" 'demo_refusals: version 108' "$(bytes 108)" '' 'demo 2 version 108'
    "$2" demo_112 "$(bytes 112)" '' 'demo 2 version 112'
    "$2" 'demo_refusals: a short header' "$(bytes 109 3)" '' 'demo 3'
    "$2" 'demo_refusals: no players' "$(bytes 109 0 0 0 0 0 0 0 0 0 0 0 0)" '' 'demo 4'
    "$2" 'demo_refusals: a header alone' "$head" "demo version 109 $header" 'demo 5 at 13'
    for ((length = 0; length < 22; length++)); do
        text=''
        if ((length >= 13)); then text="demo version 109 $header"; fi
        if ((length >= 17)); then text+=$first; fi
        if ((length >= 21)); then text+=$second; fi
        at=$(((length - 13) / 4 * 4 + 13))
        case $length in
            0) at='demo 1' ;;
            [1-9] | 1[0-2]) at='demo 3' ;;
            *) at="demo 5 at $at" ;;
        esac
        "$2" "demo_cut: $length bytes" "${two::length*4}" "$text" "$at"
    done
    "$1" 'demo_cut: 22 bytes' "${two::88}" "demo version 109 $header$first${second}tics 2 odd 0 after 0\n"
}

lists_a_lump() {
    pack DEMO1 "$2" >demo.wad
    prints "$1" "$3" demo demo1 demo.wad
}

refuses_a_lump() {
    pack DEMO1 "$2" >demo.wad
    refuses "$1" "$4" demo demo1 demo.wad
}

cases_of_demo() {
    local listing='demo version 109 skill 3 episode 1 map 1 deathmatch 0 respawn 0 fast 0 nomonsters 0 viewpoint 0 '
    listing+='players 1 0 0 0\n0 1 25 0 0 00\n1 1 -50 -128 255 80\ntics 2 odd 0 after 1\n'
    the_demos lists_a_lump refuses_a_lump
    printf "PWAD$(words 1 0 35 0)$(bytes 109 3 1 1 0 0 0 0 0 1 0 0 0 25 0 0 0 206 128 255 128 128 7)" >demo.wad
    printf "$(words 12 0 23 0)DEMO1\0\0\0" >>demo.wad
    prints demo_in_a_wad "$listing" demo demo1 demo.wad
    refuses 'demo_in_a_wad: an empty lump' 'demo 1' demo E1M1 base.wad
    refuses lumps_missing '5 no such lump' demo E2M9 base.wad
    refuses 'a lump outside its file' '6 outside file' demo NODES nodes_outside.wad
    printf "PWAD$(words 3 0 12 0)$(words -5 -1 0 0)$(name8 A)$(words 60 0 1 0)$(name8 B)$(words 12 0 -1 -1)$(name8 C)" >places.wad
    refuses 'lump_places: no bytes, wherever they are' 'demo 1' demo A places.wad
    refuses 'lump_places: a byte behind the file' '6 outside file' demo B places.wad
    refuses 'lump_places: a negative size' '6 outside file' demo C places.wad
    pack E1M1 "$(still_demo 0)" >first.wad
    pack E1M1 "$(still_demo 1)" E1M1 "$(still_demo 2)" e1m1 "$(still_demo 3)" >second.wad
    prints last_label_wins "$(still_listing 2)" demo e1m1 first.wad second.wad
    refuses 'demo is never wide' usage demo --wide DEMO1 base.wad
    pack DEMO1 "$(bytes 109 3 1 1 0 0 0 0 0 1 0 0 0 128)" >demo.wad
    cannot_write demo '' demo DEMO1 demo.wad
}

# still_demo SKILL: a demo without a tic; still_listing SKILL: its listing.
still_demo() { bytes 109 "$1" 1 1 0 0 0 0 0 1 0 0 0 128; }
still_listing() {
    printf 'demo version 109 skill %s episode 1 map 1 deathmatch 0 respawn 0 fast 0 nomonsters 0 viewpoint 0 players 1 0 0 0\\n' "$1"
    printf 'tics 0 odd 0 after 0\\n'
}

lists_a_file() {
    printf "$2" >demo.lmp
    prints "$1" "$3" lmp demo.lmp
}

refuses_a_file() {
    printf "$2" >demo.lmp
    refuses_after "$1" "$3" "$4" lmp demo.lmp
}

cases_of_lmp() {
    local most=268435456 listing
    the_demos lists_a_file refuses_a_file
    listing='demo version 109 skill 3 episode 1 map 1 deathmatch 0 respawn 0 fast 0 nomonsters 0 viewpoint 0 '
    listing+='players 1 0 0 0\n'
    refuses 'no such file' 'file 1: read' lmp no.lmp
    refuses 'a folder' read lmp folder
    refuses 'two files' usage lmp demo.lmp demo.lmp
    printf "$(bytes 109 3 1 1 0 0 0 0 0 1 0 0 0 128)" >demo.lmp
    truncate -s "$most" demo.lmp
    prints 'a demo of as many bytes as there may be' "${listing}tics 0 odd 0 after $((most - 14))\n" lmp demo.lmp
    truncate -s $((most + 1)) demo.lmp
    refuses_after 'a demo of one byte more' "$listing" 'too long' lmp demo.lmp
    printf "$(bytes 109 3 1 1 0 0 0 0 0 1 0 0 0 128)" >demo.lmp
    wants_memory_at_first 'a demo that there is no memory for' "${listing}tics 0 odd 0 after 0\n" lmp demo.lmp
    cannot_write lmp '' lmp demo.lmp
}
