# Cases of demos, two of them compared, and one put together from its listing, which tests/wadlens runs.
# shellcheck shell=bash disable=SC2034,SC2154  # what tests/wadlens sets and reads

# demo [BYTE...]: a demo of one player with these bytes behind its header.
header=(109 3 1 1 0 0 0 0 0 1 0 0 0)
demo() { printf '%b' "$(bytes "${header[@]}" "$@")"; }

# listed PATH MEMBERS: the object of a demo of skill 3 on E1M1, from its players on.
listed() { printf '{"file":"%s","version":109,"skill":3,"episode":1,"map":1,%s}\\n' "$@"; }

# unlisted PATH LUMP TEXT: the object of a demo that isn't read.
unlisted() { printf '{"file":"%s","lump":"%s","refused":"%s"}\\n' "$@"; }

# refused_object PATH TEXT: the object of a file that is refused.
refused_object() { printf '{"file":"%s","refused":"%s"}\\n' "$@"; }

# logged NAME STATUS LOG WORD...: what stands in one log of standard output and standard error.
logged() {
    timeout 60 "$program" "${@:4}" >output 2>&1
    printf '%s' $? >status
    : >error
    judge "$1" "$2" "$3" ''
}

two_commands=(25 0 0 0 206 128 255 128)

# The files that the cases of demos ask.
demo_files() {
    local more
    demo "${two_commands[@]}" 128 7 >two.lmp
    demo 128 >still.lmp
    { demo; head -c $((4 * 2099)) /dev/zero; demo 128 | tail -c 1; } >minute.lmp
    { demo; head -c $((4 * 128101)) /dev/zero; demo 128 | tail -c 1; } >hour.lmp
    header[10]=2
    demo "${two_commands[@]}" 1 2 3 4 128 7 >odd.lmp
    header[10]=0
    header[0]=111 header[2]=0 header[3]=32
    demo 25 0 52 18 0 206 128 255 255 128 128 >long.lmp
    header[0]=109 header[2]=1 header[3]=1
    more=$(bytes "${header[@]}" "${two_commands[@]}" 128)
    pack E1M1 '\x01' DEMO1 "$more" DEMO2 '' DEMONS "$(bytes 204 1)" DEMO "$(bytes "${header[@]}" 1)" demo3 "$more" XDEMO1 "$more" >demos.wad
    pack DEMO1 "$(bytes 204)" DEMO2 "$more" DEMO3 "$(bytes 109)" DEMO4 "$more" >mixed.wad
    pack DEMO1 "$more" DEMO2 "$more" >gone.wad
    printf '\xff\xff\xff\x7f' | dd of=gone.wad bs=1 seek=$((12 + 44 + 16)) conv=notrunc status=none
}

cases_of_demos() {
    local game='version 109, skill 3, episode 1, map 1' mark large='larger than 268435456 bytes'
    demo_files
    says 'a demo' 0 "two.lmp: $game, 1 player, 2 tics, 0:00.05, after 1\n" '' demos two.lmp
    says 'a demo without a tic' 0 "still.lmp: $game, 1 player, 0 tics, 0:00.00\n" '' demos still.lmp
    says 'two players, and a command of one of them' 0 "odd.lmp: $game, 2 players, 1 tics, 0:00.02, odd 1, after 1\n" '' demos odd.lmp
    says 'the last hundredth of a minute' 0 "minute.lmp: $game, 1 player, 2099 tics, 0:59.97\n" '' demos minute.lmp
    says 'more than an hour' 0 "hour.lmp: $game, 1 player, 128101 tics, 61:00.02\n" '' demos hour.lmp
    says 'the long form' 0 'long.lmp: version 111, skill 3, episode 0, map 32, 1 player, 2 tics, 0:00.05\n' '' demos long.lmp
    says 'two files, in order' 0 "still.lmp: $game, 1 player, 0 tics, 0:00.00\ntwo.lmp: $game, 1 player, 2 tics, 0:00.05, after 1\n" \
        '' demos still.lmp two.lmp
    cp two.lmp $'t\ewo.lmp'
    says 'demos: controls in a path' 2 "t\\\\x1bwo.lmp: $game, 1 player, 2 tics, 0:00.05, after 1\n" "$(told 'n\\x09o' "$missing")" demos $'t\ewo.lmp' $'n\to'
    mark='no end marker: the bytes from place 13 on make no whole command'
    # The game finds no lump of small letters, so demo3 is none.
    says 'the demos of a WAD file' 2 "demos.wad: DEMO1: $game, 1 player, 2 tics, 0:00.05\n" \
        "wadlens: demos.wad: DEMONS: version 204: not read\nwadlens: demos.wad: DEMO: $mark\n" demos demos.wad
    says 'a demo outside its file' 2 "gone.wad: DEMO1: $game, 1 player, 2 tics, 0:00.05\n" \
        'wadlens: gone.wad: DEMO2: outside its file\n' demos gone.wad
    says 'a WAD file without a demo' 0 '' '' demos base.wad
    says 'demos: the objects' 2 "$(listed two.lmp '"players":1,"tics":2,"odd":0,"after":1')$(
        printf '{"file":"demos.wad","lump":"DEMO1","version":109,"skill":3,"episode":1,"map":1,"players":1,"tics":2,"odd":0,"after":0}\\n'
    )$(unlisted demos.wad DEMONS 'version 204: not read')$(unlisted demos.wad DEMO "$mark")$(
        listed odd.lmp '"players":2,"tics":1,"odd":1,"after":1')" \
        "wadlens: demos.wad: DEMONS: version 204: not read\nwadlens: demos.wad: DEMO: $mark\n" demos --json two.lmp demos.wad odd.lmp
    says 'demos: the object of one outside its file' 2 "$(printf '{"file":"gone.wad","lump":"DEMO1","version":109,"skill":3,"episode":1,"map":1,')$(
        printf '"players":1,"tics":2,"odd":0,"after":0}\\n')$(unlisted gone.wad DEMO2 'outside its file')" \
        'wadlens: gone.wad: DEMO2: outside its file\n' demos --json gone.wad
    cases_of_demos_in_order
    cases_of_logged_demos
    cases_of_refused_demos
    cases_of_lists_of_demos
    cases_of_large_demos
    cases_of_ends_of_demos
    mistaken 'demos alone' 'FILE' demos
    mistaken '--wide of demos' "unexpected argument '--wide'" demos --wide two.lmp
    mistaken '--json of a survey' "unexpected argument '--json'" survey --json base.wad
}

# Three demos of a WAD file, of which the second is refused.
cases_of_demos_in_order() {
    local two sound="$game, 1 player, 2 tics, 0:00.05, after 1" message='wadlens: three.wad: DEMO2: version 204: not read\n'
    local members='"version":109,"skill":3,"episode":1,"map":1,"players":1,"tics":2,"odd":0,"after":1}\n'
    two=$(bytes "${header[@]}" "${two_commands[@]}" 128 7)
    pack DEMO1 "$two" DEMO2 "$(bytes 204)" DEMO3 "$two" >three.wad
    says demos_in_order 2 "three.wad: DEMO1: $sound\nthree.wad: DEMO3: $sound\n" "$message" demos three.wad
    says 'demos_in_order: the objects' 2 "{\"file\":\"three.wad\",\"lump\":\"DEMO1\",$members$(
        unlisted three.wad DEMO2 'version 204: not read'){\"file\":\"three.wad\",\"lump\":\"DEMO3\",$members" "$message" \
        demos --json three.wad
}

# The message about a demo or a file that is refused stands behind what was answered before, and before its object.
cases_of_logged_demos() {
    local sound="$game, 1 player, 2 tics, 0:00.05" object first third
    first='wadlens: mixed.wad: DEMO1: version 204: not read\n' third="wadlens: mixed.wad: DEMO3: 1 bytes of a header's 13\n"
    logged 'demos: one log' 2 "still.lmp: $game, 1 player, 0 tics, 0:00.00\n${first}mixed.wad: DEMO2: $sound\n${third}mixed.wad: DEMO4: $sound\n$(
        told no.lmp "$missing")still.lmp: $game, 1 player, 0 tics, 0:00.00\n" demos still.lmp mixed.wad no.lmp still.lmp
    object='"version":109,"skill":3,"episode":1,"map":1,"players":1,"tics":2,"odd":0,"after":0}\n'
    logged 'demos: one log of objects' 2 "$first$(unlisted mixed.wad DEMO1 'version 204: not read'){\"file\":\"mixed.wad\",\"lump\":\"DEMO2\",$object$third$(
        unlisted mixed.wad DEMO3 "1 bytes of a header's 13"){\"file\":\"mixed.wad\",\"lump\":\"DEMO4\",$object$(
        told no.lmp "$missing")$(refused_object no.lmp "$missing")" demos --json mixed.wad no.lmp
    logged 'survey: one log' 2 "$(told no.wad "$missing")$(refused_object no.wad "$missing")$(told folder "$unread")$(refused_object folder "$unread")" \
        survey no.wad folder
}

cases_of_lists_of_demos() {
    says_on 'demos: a list' 'two.lmp\0' 0 "$(listed two.lmp '"players":1,"tics":2,"odd":0,"after":1')" '' demos --json --null --files-from -
    says_on 'demos: an empty list' '' 0 '' '' demos --files-from -
    says 'demos: a list that is not there' 2 '' "$(told no.list "$missing")" demos --files-from no.list two.lmp
    says 'demos: a list that is a folder' 2 '' "$(told folder "$unread")" demos --json --files-from folder two.lmp
    says 'demos: a list without end' 2 '' "$(told /dev/zero "$large")" demos --files-from /dev/zero two.lmp
}

# The most bytes that a file may have, and more; and more than there is memory for.
cases_of_large_demos() {
    local still="still.lmp: $game, 1 player, 0 tics, 0:00.00\\n" most
    # What comes after 22 bytes: a header, two commands, a marker.
    most="most.lmp: $game, 1 player, 2 tics, 0:00.05, after 268435434\\n"
    cp two.lmp most.lmp
    truncate -s 268435456 most.lmp
    says 'demos: as many bytes as there may be' 0 "$most" '' demos most.lmp
    memory=200000 says 'demos: no memory for a file' 3 "$still" 'wadlens: no memory left\n' demos still.lmp most.lmp
    memory=400000 says 'demos: memory of one file at a time' 0 "$most$most" '' demos most.lmp most.lmp
    printf x >>most.lmp
    says 'demos: one byte more' 2 "$still" "$(told most.lmp "$large")" demos most.lmp still.lmp
    says 'demos: a device without end' 2 "$(refused_object /dev/zero "$large")" "$(told /dev/zero "$large")" demos --json /dev/zero
    rm most.lmp
}

cases_of_ends_of_demos() {
    local pipe full="wadlens: standard output can't be written\\n"
    : >one.lmp
    says 'demos: --progress' 2 "still.lmp: $game, 1 player, 0 tics, 0:00.00\n" \
        "\r1 files, 0 levels\r\x1b[Kwadlens: one.lmp: empty\n\r2 files, 0 levels\n" demos --progress still.lmp one.lmp
    # A line of its 1024 demos has more than 64 bytes, so that they don't fit into the program's buffer.
    pack DEMO1 "$(bytes "${header[@]}" "${two_commands[@]}" 128)" >one.wad
    repeated one.wad 1024 >many.wad
    ends 'demos: a full disk' 2 "$full" demos still.lmp >/dev/full
    ends 'demos: a full disk within a file' 2 "$full" demos many.wad one.lmp >/dev/full
    ends 'demos: a full disk before a message' 2 "$full" demos still.lmp one.lmp >/dev/full
    ends 'demos: no standard output' 2 "$full" demos still.lmp >&-
    exec {pipe}> >(:)
    wait $!
    ends 'demos: a closed pipe' 0 '' demos still.lmp >&"$pipe"
    ends 'demos: a closed pipe, the objects' 0 '' demos --json still.lmp >&"$pipe"
    ends 'demos: a closed pipe, and a refused demo' 2 "$(told one.lmp empty)" demos one.lmp still.lmp >&"$pipe"
    ends 'demos: a closed pipe before a message' 2 '' demos still.lmp one.lmp >&"$pipe"
    ends 'demos: a closed pipe within a file ends the run' 0 '' demos many.wad one.lmp >&"$pipe"
    ends 'demos: .. with what was found before' 2 "$(told one.lmp empty)" demos one.lmp many.wad no.lmp >&"$pipe"
    exec {pipe}>&-
    timeout 60 "$program" demos one.lmp two.lmp >output 2>/dev/full
    printf '%s' $? >status
    : >error
    judge 'demos: a full standard error' 2 '' ''
    timeout 60 "$program" demos --json still.lmp one.lmp two.lmp >output 2>/dev/full
    printf '%s' $? >status
    judge 'demos: .. behind what was answered' 2 "$(listed still.lmp '"players":1,"tics":0,"odd":0,"after":0')" ''
}

# refused_demo TEXT BYTE...: why a demo of these bytes is refused.
refused_demo() {
    printf '%b' "$(bytes "${@:2}")" >one.lmp
    says "demos: $1" 2 '' "wadlens: one.lmp: $1\n" demos one.lmp
    says "demos: $1, the object" 2 "$(refused_object one.lmp "$1")" "wadlens: one.lmp: $1\n" demos --json one.lmp
}

cases_of_refused_demos() {
    refused_demo '1 bytes of a header'"'"'s 13' 109
    refused_demo '12 bytes of a header'"'"'s 13' "${header[@]:0:12}"
    refused_demo 'no player in the game' "${header[@]:0:9}" 0 0 0 0 128
    refused_demo 'no end marker: the bytes from place 13 on make no whole command' "${header[@]}"
    refused_demo 'no end marker: the bytes from place 21 on make no whole command' "${header[@]}" "${two_commands[@]}" 1 2 128
    refused_demo 'version 0 (1.2 and before): not read' 0
    refused_demo 'version 4 (1.2 and before): not read' 4
    refused_demo 'version 5: not read' 5
    refused_demo 'version 77: not read' 77
    refused_demo 'version 103: not read' 103
    refused_demo '1 bytes of a header'"'"'s 13' 104
    refused_demo 'version 112: not read' 112
    refused_demo 'version 199: not read' 199
    refused_demo '1 bytes of a header'"'"'s 301' 200
    refused_demo '1 bytes of a header'"'"'s 109' 201
    refused_demo 'version 202 (Boom): its signature isn'"'"'t 1d 42 6f 6f 6d e6' 202 30
    refused_demo 'version 203 (MBF): its signature isn'"'"'t 1d 4d 42 46 e6 00' 203 29 66
    refused_demo 'version 204: not read' 204
    refused_demo 'version 209: not read' 209
    refused_demo 'version 210 (PrBoom): its signature isn'"'"'t 1d 4d 42 46 e6 00' 210 29 77 66 70 230 1
    refused_demo '2 bytes of a header'"'"'s 109' 214 29
    refused_demo 'version 215: not read' 215
    refused_demo 'version 220: not read' 220
    refused_demo 'version 221 (MBF21): its signature isn'"'"'t 1d 4d 42 46 e6 00' 221 0
    refused_demo 'version 222: not read' 222
    refused_demo 'version 255: not read' 255
    : >one.lmp
    says 'demos: empty' 2 '' 'wadlens: one.lmp: empty\n' demos one.lmp
    says 'demos: empty, the object' 2 "$(refused_object one.lmp empty)" 'wadlens: one.lmp: empty\n' demos --json one.lmp
    says 'demos: no file' 2 '' "$(told no.lmp "$missing")" demos no.lmp
    says 'demos: no file, the object' 2 "$(refused_object no.lmp "$missing")" "$(told no.lmp "$missing")" demos --json no.lmp
    says 'demos: a folder' 2 "$(refused_object folder "$unread")" "$(told folder "$unread")" demos --json folder
    says 'demos: a WAD file that is cut' 2 "$(refused_object cut.wad "its directory isn't inside the file")" \
        "$(told cut.wad "its directory isn't inside the file")" demos --json cut.wad
    says 'demos: a WAD file of a negative count' 2 '' "$(told count.wad 'a negative count of lumps')" demos count.wad
    printf IWAD >one.wad
    says 'demos: a WAD file of four bytes' 2 '' "$(told one.wad 'shorter than a WAD header')" demos one.wad
}

# ---- Two demos, and one from its listing ----------------------------------------------------------------------------

# demo_of NAME BYTE...: a file of a demo with these bytes behind its header.
demo_of() { demo "${@:2}" >"$1"; }

# differ NAME LINE A B: where two demo files first differ, and the other way round.
differ() {
    says "compare: $1" 1 "$2\n" '' compare "$3" "$4"
}

cases_of_compare() {
    local i names=(version skill episode map deathmatch respawn fast nomonsters viewpoint) numbers=(109 3 1 1 0 0 0 0 0)
    demo_files
    demo_of plain.lmp "${two_commands[@]}" 128
    says 'compare: a demo and itself' 0 '' '' compare two.lmp two.lmp
    says 'compare: what follows the marker' 0 '' '' compare two.lmp plain.lmp
    says 'compare: demos without a tic' 0 '' '' compare still.lmp ./still.lmp
    for ((i = 0; i < 9; i++)); do
        header[i]=$((numbers[i] + 1))
        demo_of other.lmp 128
        header[i]=${numbers[i]}
        differ "${names[i]}" "header: ${names[i]} ${numbers[i]}, $((numbers[i] + 1))" still.lmp other.lmp
        differ "${names[i]}, the other way round" "header: ${names[i]} $((numbers[i] + 1)), ${numbers[i]}" other.lmp still.lmp
    done
    header[11]=2
    demo_of other.lmp 128
    differ 'players' 'header: players 1 0 0 0, 1 0 2 0' still.lmp other.lmp
    header[1]=255
    demo_of other.lmp 128
    differ 'the first field that differs' 'header: skill 3, 255' still.lmp other.lmp
    header[11]=0 header[1]=3
    cases_of_compared_commands
    says 'compare: FIFOs' 0 '' '' compare <(cat two.lmp) <(cat plain.lmp)
    cases_of_refused_compares
    cases_of_ends_of_compares
    mistaken 'compare alone' '<A>' compare
    mistaken 'compare of one' '<B>' compare two.lmp
    mistaken 'compare of three' "unexpected argument 'two.lmp'" compare two.lmp two.lmp two.lmp
    mistaken '--json of compare' "unexpected argument '--json'" compare --json two.lmp two.lmp
    mistaken '--files-from of compare' "unexpected argument '--files-from'" compare --files-from - two.lmp two.lmp
    cp two.lmp -- -y.lmp
    says 'compare: a path that begins with -' 0 '' '' compare -- -y.lmp two.lmp
    tells '--help of compare' 'Usage: wadlens compare [OPTIONS] <A> <B>' compare --help
}

cases_of_compared_commands() {
    demo_of other.lmp 26 0 0 0 206 128 255 128 128
    differ 'forward' 'tic 0 player 1: 25 0 0 00, 26 0 0 00' plain.lmp other.lmp
    demo_of other.lmp 25 0 0 0 206 127 255 128 128
    differ 'side' 'tic 1 player 1: -50 -128 255 80, -50 127 255 80' plain.lmp other.lmp
    demo_of other.lmp 25 0 9 0 206 128 255 129 128
    differ 'turn, of the first command' 'tic 0 player 1: 25 0 0 00, 25 0 9 00' plain.lmp other.lmp
    demo_of other.lmp 25 0 0 0 206 128 255 175 128
    differ 'buttons' 'tic 1 player 1: -50 -128 255 80, -50 -128 255 af' plain.lmp other.lmp
    demo_of other.lmp 25 0 0 0 128
    differ 'A ends' 'A ends at tic 1' other.lmp plain.lmp
    differ 'B ends' 'B ends at tic 1' plain.lmp other.lmp
    differ 'one without a tic ends' 'A ends at tic 0' still.lmp plain.lmp
    header[11]=1
    demo_of three.lmp 1 0 0 0 2 0 0 0 3 0 0 0 4 0 0 0 128
    demo_of other.lmp 1 0 0 0 2 0 0 0 3 0 0 0 5 0 0 0 128
    differ 'a player of two' 'tic 1 player 3: 4 0 0 00, 5 0 0 00' three.lmp other.lmp
    demo_of other.lmp 1 0 0 0 2 0 0 0 3 0 0 0 128
    differ 'the end within a tic' 'A ends at tic 1' other.lmp three.lmp
    demo_of other.lmp 1 0 0 0 128
    differ 'the end within the first tic' 'B ends at tic 0' three.lmp other.lmp
    header[11]=0
    header[0]=111 header[2]=0 header[3]=32
    demo_of other.lmp 25 0 52 18 0 206 128 255 255 129 128
    differ 'the long form' 'tic 1 player 1: -50 -128 65535 80, -50 -128 65535 81' long.lmp other.lmp
    header[0]=109 header[2]=1 header[3]=1
}

cases_of_ends_of_compares() {
    local one
    ends 'compare: a full disk' 2 "wadlens: standard output can't be written\\n" compare still.lmp plain.lmp >/dev/full
    ends 'compare: a full disk, nothing to write' 0 '' compare two.lmp plain.lmp >/dev/full
    ends 'compare: no standard output' 2 "wadlens: standard output can't be written\\n" compare still.lmp plain.lmp >&-
    exec {one}> >(:)
    wait $!
    ends 'compare: a closed pipe' 1 '' compare still.lmp plain.lmp >&"$one"
    ends 'compare: a closed pipe, a refused demo' 2 "$(told no.lmp "$missing")" compare still.lmp no.lmp >&"$one"
    exec {one}>&-
    timeout 60 "$program" compare no.lmp none.lmp >output 2>/dev/full
    printf '%s' $? >status
    : >error
    judge 'compare: a full standard error' 2 '' ''
}

# Each file that holds no demo is told, and nothing is compared.
cases_of_refused_compares() {
    local large='larger than 268435456 bytes'
    : >void.lmp
    says 'compare: no A' 2 '' "$(told no.lmp "$missing")" compare no.lmp two.lmp
    says 'compare: no B' 2 '' "$(told no.lmp "$missing")" compare two.lmp no.lmp
    says 'compare: neither' 2 '' "$(told no.lmp "$missing")$(told folder "$unread")" compare no.lmp folder
    says 'compare: A is empty' 2 '' "$(told void.lmp empty)" compare void.lmp two.lmp
    says 'compare: both are empty' 2 '' "$(told void.lmp empty)$(told ./void.lmp empty)" compare void.lmp ./void.lmp
    says 'compare: a WAD file is no demo' 2 '' "$(told base.wad 'version 80: not read')" compare two.lmp base.wad
    demo_of cut.lmp 1 2 3
    says 'compare: no end marker' 2 '' "$(told cut.lmp 'no end marker: the bytes from place 13 on make no whole command')" \
        compare cut.lmp two.lmp
    head -c 7 two.lmp >part.lmp
    says 'compare: a part of a header' 2 '' "$(told part.lmp "7 bytes of a header's 13")" compare part.lmp two.lmp
    header[9]=0
    demo_of void.lmp 128
    header[9]=1
    says 'compare: no player' 2 '' "$(told void.lmp 'no player in the game')" compare two.lmp void.lmp
    says 'compare: both are refused' 2 '' "$(told void.lmp 'no player in the game')$(told part.lmp "7 bytes of a header's 13")" \
        compare void.lmp part.lmp
    says 'compare: controls in a path' 2 '' "$(told 'no\\x0a\\x1f' "$missing")" compare $'no\n\x1f' two.lmp
    says 'compare: a device without end' 2 '' "$(told /dev/zero "$large")" compare /dev/zero two.lmp
    { cat plain.lmp; head -c $((268435456 - 22)) /dev/zero; } >most.lmp
    says 'compare: as many bytes as there may be' 0 '' '' compare most.lmp plain.lmp
    printf x >>most.lmp
    says 'compare: one byte more' 2 '' "$(told most.lmp "$large")" compare plain.lmp most.lmp
    truncate -s 268435456 most.lmp
    memory=200000 says 'compare: no memory' 3 '' 'wadlens: no memory left\n' compare plain.lmp most.lmp
    rm most.lmp
}

# head_line NUMBER...: the header's line of 13 numbers.
head_line() {
    printf 'demo version %s skill %s episode %s map %s deathmatch %s respawn %s fast %s nomonsters %s viewpoint %s players %s %s %s %s' "$@"
}

# assembled NAME LISTING BYTE...: the demo of a listing, by its bytes behind the header.
assembled() {
    says_on "assemble: $1" "$2" 0 "$(bytes "${header[@]}" "${@:3}")" '' assemble
}

# wrong NAME LINE WANTED INPUT: a text that is no listing, told by its first wrong line and what is wanted there.
wrong() {
    says_on "assemble: $1" "$4" 2 '' "wadlens: standard input: line $2 is no line of a listing: $3\\n" assemble
}

# What is wanted, but for a line's end.
header_wanted="a demo's header is wanted" end_wanted='the last line has no end' nothing_wanted='nothing more is wanted'
turn_wanted() { printf 'tic %s player %s or the totals are wanted' "$@"; }
totals_wanted() { printf 'the totals are tics %s odd %s after 0' "$@"; }

cases_of_assemble() {
    local top commands='0 1 25 0 0 00\n1 1 -50 -128 255 80\n' last='tics 2 odd 0 after 0\n'
    top=$(head_line "${header[@]}")'\n'
    assembled 'a demo' "$top$commands$last" "${two_commands[@]}" 128
    assembled 'a demo without a tic' "${top}tics 0 odd 0 after 0\n" 128
    assembled 'bytes came after the marker' "$top${commands}tics 2 odd 0 after 7\n" "${two_commands[@]}" 128
    assembled 'as many as 64 bits tell' "$top${commands}tics 2 odd 0 after 18446744073709551615\n" "${two_commands[@]}" 128
    assembled 'the ends of ranges' "${top}0 1 -127 127 0 ff\n1 1 127 -128 255 00\n2 1 -1 0 9 0a\ntics 3 odd 0 after 0\n" \
        129 127 0 255 127 128 255 0 255 0 9 10 128
    header=(109 0 255 99 1 2 3 4 3 0 255 0 1)
    assembled 'numbers of the header, and two players' \
        "$(head_line "${header[@]}")\n0 2 1 0 0 00\n0 4 2 0 0 00\n1 2 3 0 0 00\ntics 1 odd 1 after 0\n" 1 0 0 0 2 0 0 0 3 0 0 0 128
    wrong 'two players: who is next' 3 "$(turn_wanted 0 4)" "$(head_line "${header[@]}")\\n0 2 1 0 0 00\\n1 2 3 0 0 00\\n"
    wrong 'two players: the totals' 5 "$(totals_wanted 1 1)" \
        "$(head_line "${header[@]}")\\n0 2 1 0 0 00\\n0 4 2 0 0 00\\n1 2 3 0 0 00\\ntics 1 odd 0 after 0\\n"
    cases_of_other_versions
    header=(109 3 1 1 0 0 0 0 0 1 0 0 0)
    cases_of_wrong_headers
    cases_of_wrong_lines
    printf '%b' "$top$commands$last" >listing
    cases_of_ends_of_assemble
    mistaken 'assemble of a file' "unexpected argument 'listing'" assemble listing
    mistaken '--json of assemble' "unexpected argument '--json'" assemble --json
    tells '--help of assemble' 'Usage: wadlens assemble' assemble --help
}

# A turn is one byte but under version 111, where it is two.
cases_of_other_versions() {
    local top version
    for version in 110 111; do
        header=("$version" 3 1 1 0 0 0 0 0 1 0 0 0)
        assembled "version $version without a tic" "$(head_line "${header[@]}")\\ntics 0 odd 0 after 0\\n" 128
    done
    top=$(head_line "${header[@]}")'\n'
    assembled 'turns of the long form' "${top}0 1 25 0 4660 00\\n1 1 -50 -128 65535 80\\n2 1 0 0 0 00\\ntics 3 odd 0 after 5\\n" \
        25 0 52 18 0 206 128 255 255 128 0 0 0 0 0 128
    wrong 'a turn above those of the long form' 2 "$(turn_wanted 0 1)" "${top}0 1 25 0 65536 00\\ntics 1 odd 0 after 0\\n"
    wrong 'the marker in the long form' 2 "$(turn_wanted 0 1)" "${top}0 1 -128 0 0 00\\ntics 1 odd 0 after 0\\n"
    header=(110 3 1 1 0 0 0 0 0 1 0 0 0)
    top=$(head_line "${header[@]}")'\n'
    assembled 'commands of version 110' "${top}0 1 25 0 255 00\\ntics 1 odd 0 after 0\\n" 25 0 255 0 128
    wrong 'a turn of the long form alone' 2 "$(turn_wanted 0 1)" "${top}0 1 25 0 256 00\\ntics 1 odd 0 after 0\\n"
}

# What is read, and where that or what is written fails.
cases_of_ends_of_assemble() {
    local one
    timeout 60 "$program" assemble <folder >output 2>error
    printf '%s' $? >status
    judge 'assemble: an input that cannot be read' 2 '' "$(told 'standard input' "$unread")"
    head -c 268435457 /dev/zero | timeout 60 "$program" assemble >output 2>error
    printf '%s' $? >status
    judge 'assemble: a byte too many' 2 '' "$(told 'standard input' 'larger than 268435456 bytes')"
    head -c 268435456 /dev/zero | timeout 60 "$program" assemble >output 2>error
    printf '%s' $? >status
    judge 'assemble: as many bytes as there may be' 2 '' "wadlens: standard input: line 1 is no line of a listing: $end_wanted\\n"
    head -c 268435456 /dev/zero | timeout 60 bash -c "$limited" 200000 "$program" assemble >output 2>error
    printf '%s' $? >status
    judge 'assemble: no memory' 3 '' 'wadlens: no memory left\n'
    ends 'assemble: a full disk' 2 "wadlens: standard output can't be written\\n" assemble <listing >/dev/full
    ends 'assemble: no standard output' 2 "wadlens: standard output can't be written\\n" assemble <listing >&-
    exec {one}> >(:)
    wait $!
    ends 'assemble: a closed pipe' 0 '' assemble <listing >&"$one"
    exec {one}>&-
    timeout 60 "$program" assemble </dev/null >output 2>/dev/full
    printf '%s' $? >status
    : >error
    judge 'assemble: a full standard error' 2 '' ''
}

cases_of_wrong_headers() {
    local good
    good=$(head_line "${header[@]}")
    wrong 'nothing' 1 "$header_wanted" ''
    wrong 'an empty line' 1 "$header_wanted" '\n'
    wrong 'a header alone, without an end' 1 "$end_wanted" "$good"
    wrong 'a header alone' 2 "$(turn_wanted 0 1)" "$good\n"
    wrong 'a header and a line without an end' 2 "$end_wanted" "$good\n0 1 25 0 0 00"
    wrong 'version 108' 1 "$header_wanted" "${good/109/108}\ntics 0 odd 0 after 0\n"
    wrong 'version 112' 1 "$header_wanted" "${good/109/112}\ntics 0 odd 0 after 0\n"
    wrong 'no player' 1 "$header_wanted" "${good/players 1/players 0}\ntics 0 odd 0 after 0\n"
    wrong 'a number above 255' 1 "$header_wanted" "${good/skill 3/skill 256}\ntics 0 odd 0 after 0\n"
    wrong 'a leading zero' 1 "$header_wanted" "${good/skill 3/skill 03}\ntics 0 odd 0 after 0\n"
    wrong 'no number' 1 "$header_wanted" "${good/skill 3/skill}\ntics 0 odd 0 after 0\n"
    wrong 'a sign' 1 "$header_wanted" "${good/skill 3/skill -3}\ntics 0 odd 0 after 0\n"
    wrong 'two spaces' 1 "$header_wanted" "${good/skill 3/skill  3}\ntics 0 odd 0 after 0\n"
    wrong 'another label' 1 "$header_wanted" "${good/skill/Skill}\ntics 0 odd 0 after 0\n"
    wrong 'fields in another order' 1 "$header_wanted" "${good/skill 3 episode 1/episode 1 skill 3}\ntics 0 odd 0 after 0\n"
    wrong 'a space at the end' 1 "$header_wanted" "$good \ntics 0 odd 0 after 0\n"
    wrong 'byte 13' 1 "$header_wanted" "$good\r\ntics 0 odd 0 after 0\r\n"
    wrong 'a line before it' 1 "$header_wanted" "\n$good\ntics 0 odd 0 after 0\n"
    wrong 'byte 0' 1 "$header_wanted" "\0$good\ntics 0 odd 0 after 0\n"
}

# Lines of commands and totals, each in place of a right one.
cases_of_wrong_lines() {
    local top line
    top=$(head_line "${header[@]}")'\n'
    for line in '2 1 25 0 0 00' '00 1 25 0 0 00' '0 2 25 0 0 00' '0 1 -128 0 0 00' '0 1 128 0 0 00' '0 1 +25 0 0 00' '0 1 -0 0 0 00' \
        '0 1 25 -129 0 00' '0 1 25 128 0 00' '0 1 25 0 256 00' '0 1 25 0 -1 00' '0 1 025 0 0 00' '0 1 25 0 0 0' '0 1 25 0 0 000' \
        '0 1 25 0 0 0A' '0 1 25 0 0 0g' '0 1 25 0 0 00 ' ' 0 1 25 0 0 00' '0 1 25  0 0 00' '0 1 25 0 0' '0 1 25 0 0 00 1' '' \
        '0 1 25 0 0 00\r' '0 1 25 0 0 \x8000' 'demo version 109' 'tic 0 odd 0 after 0'; do
        wrong "the command $line" 2 "$(turn_wanted 0 1)" "$top$line\ntics 1 odd 0 after 0\n"
        wrong "a second command $line" 3 "$(turn_wanted 1 1)" "${top}0 1 25 0 0 00\n${line/#0 1/1 1}\ntics 2 odd 0 after 0\n"
    done
    top+='0 1 25 0 0 00\n'
    for line in 'tics 2 odd 0 after 0' 'tics 1 odd 1 after 0' 'tics 01 odd 0 after 0' 'tics 1 odd 0 after 00' 'tics 1 odd 0 after -1' \
        'tics 1 odd 0 after' 'tics 1 odd 0 after ' 'tics 1 odd 0 after 18446744073709551616' 'tics 1 odd 0 after 0 ' 'tics 1 odd 0' \
        'tics 1 odd 0 after 0x' 'tics' 'tics are told'; do
        wrong "the totals $line" 3 "$(totals_wanted 1 0)" "$top$line\n"
    done
    wrong 'totals in another letter' 3 "$(turn_wanted 1 1)" "${top}Tics 1 odd 0 after 0\n"
    wrong 'no totals' 3 "$(turn_wanted 1 1)" "$top"
    wrong 'totals without an end' 3 "$end_wanted" "${top}tics 1 odd 0 after 0"
    wrong 'a line behind the totals' 4 "$nothing_wanted" "${top}tics 1 odd 0 after 0\ntics 1 odd 0 after 0\n"
    wrong 'an empty line behind the totals' 4 "$nothing_wanted" "${top}tics 1 odd 0 after 0\n\n"
    wrong 'a part of a line behind the totals' 4 "$end_wanted" "${top}tics 1 odd 0 after 0\n1"
}

# The demos of Freedoom 0.12.1, where it is there, four in each file: each is told by its length, is listed, put together again, and compared.
cases_of_games() {
    local games=${FREEDOOM:-/usr/share/games/doom} look=$WADLOOK file at size name count=0 wanted=0
    if [[ ! -f $games/freedoom1.wad || ! -x $look ]]; then
        printf 'skipped, as there is no Freedoom or no wadlook: its demos\n'
        return
    fi
    for file in freedoom1.wad freedoom2.wad freedm.wad; do
        [[ -f $games/$file ]] || continue
        wanted=$((wanted + 4))
        while read -r _ at size name; do
            [[ $name == DEMO? && $size != 0 ]] || continue
            tail -c +$((at + 1)) "$games/$file" | head -c "$size" >game.lmp
            game_of "$file $name"
            count=$((count + 1))
        done < <("$look" lumps "$games/$file")
    done
    printf '%s' "$count" >output
    printf 0 >status
    : >error
    judge 'games: how many demos' 0 "$wanted" ''
}

# game_of NAME: the demo in `game.lmp`.
game_of() {
    local tics odd after word bytes numbers players=0 byte
    "$look" lmp game.lmp >listing
    read -r -a numbers < <(head -c 13 game.lmp | od -An -v -tu1 -w13)
    for byte in "${numbers[@]:9}"; do ((byte == 0)) || players=$((players + 1)); done
    read -r word tics word odd word after < <(tail -n 1 listing)
    bytes=$(($(wc -c <game.lmp) - after))
    says "games: $1, its length" 0 "$(
        ((players == 1)) && word=player || word=players
        printf 'game.lmp: version %s, skill %s, episode %s, map %s, %s %s, %s tics, %d:%02d.%02d' \
            "${numbers[@]:0:4}" "$players" "$word" "$tics" $((tics / 2100)) $((tics / 35 % 60)) $((tics % 35 * 100 / 35))
        ((odd == 0)) || printf ', odd %s' "$odd"
        ((after == 0)) || printf ', after %s' "$after"
    )\\n" '' demos game.lmp
    timeout 60 "$program" assemble <listing >again.lmp 2>error
    printf '%s' $? >status
    cmp <(head -c "$bytes" game.lmp) again.lmp >output 2>&1
    judge "games: $1, put together" 0 '' ''
    says "games: $1, compared" 0 '' '' compare game.lmp again.lmp
    { head -c $((bytes - 5)) again.lmp; printf '\200'; } >short.lmp
    says "games: $1, without its last command" 1 "B ends at tic $(((tics * players + odd - 1) / players))\\n" '' compare game.lmp short.lmp
}
