# Cases of pictures and atlases, which tests/wadlens runs.
# shellcheck shell=bash disable=SC2034,SC2154  # what tests/wadlens sets and reads

# drawn TITLE VIEW MATRIX SECTORS TWO-SIDED OTHERS MARKS: a picture of the sample level, in whose map the thing stands as it does there.
drawn() {
    local left top width height longer across down
    read -r left top width height <<<"$2"
    longer=$((width > height ? width : height))
    across=$(((width * 1024 + longer - 1) / longer)) down=$(((height * 1024 + longer - 1) / longer))
    printf '%s' "<svg xmlns=\"http://www.w3.org/2000/svg\" viewBox=\"$2\" width=\"$across\" height=\"$down\">\\n" \
        "<title>$1</title>\\n" \
        '<style>svg{background:#14161a}path{vector-effect:non-scaling-stroke}.s{shape-rendering:crispEdges}.s path:hover{fill:#fb5}' \
        '.w{fill:none;stroke:#eee;stroke-width:1.5}.t{fill:none;stroke:#778;stroke-width:.7}' \
        '.f{fill:none;stroke:#f33;stroke-width:4}.a{fill:none;stroke:#fb3;stroke-width:3}.p{vector-effect:none;stroke:#14161a;stroke-width:5;paint-order:stroke}' \
        '.start{fill:#6f6}.monster{fill:#f7b}.weapon{fill:#5cf}.key{fill:#ff5}.other{fill:#cba}.p:hover{fill:#fff}</style>\n' \
        "<rect x=\"$left\" y=\"$top\" width=\"$width\" height=\"$height\" fill=\"#14161a\"/>\\n" \
        "<g class=\"s\" transform=\"matrix($3)\">\\n$4</g><g transform=\"matrix(1 0 0 -1 0 0)\">\\n" \
        "<path class=\"t\" d=\"$5\"/>\\n<path class=\"w\" d=\"$6\"/>\\n$7" \
        "${things:-$(thing start '8 8' 0 '0: type 1, angle 0, flags 7')}</g></svg>\\n"
}

# thing CLASS PLACE TURN TITLE: the line of a thing.
thing() { printf '<path class="p %s" transform="translate(%s)rotate(%s)" d="M20 0L-12 14v-28z"><title>thing %s</title></path>\\n' "$@"; }

# shaded SECTOR BLOCKS CELLS: the path of a sector of the sample level.
shaded() {
    printf '<path fill="#7f7f93" d="%s"><title>sector %s: floor 0 FLAT1, ceiling 128 FLAT1' "$2" "$1"
    printf ', light 160, special 0, tag 0, %s cells</title></path>\\n' "$3"
}

# marked SHAPE TEXT: the line of a finding.
marked() { printf '<path class="f" d="%s"><title>%s</title></path>\\n' "$1" "$2"; }

# The sample level: of its one linedef, from (0, 0) to (0, 64), all 65 points lie on its left, in sector 1.
pictures() {
    usual_view='-32 -96 64 128' usual_matrix='1 0 0 -1 0 0' line='M0 0L0 64'
    whole=$(drawn 'E1M1: faults 0 notes 0' "$usual_view" "$usual_matrix" "$(shaded 1 'M0 0h1v65h-1z' 65)" "$line" '' '')
    # Without its left side: seg 1 has no sidedef, and the linedef says that it has two sides.
    half=$(drawn 'E1M1: faults 1 notes 1' "$usual_view" "$usual_matrix" '' '' "$line" \
        "$(marked 'M0 64L0 0' "F9 1 seg's linedef has no side there")$(marked "$line" 'N3 0 two-sided flag without side 1')")
    # ring: what is drawn about (0, 0). A second linedef has an end that isn't there: a ring is drawn at the other.
    ring='M0 0m-24 0a24 24 0 1 0 48 0a24 24 0 1 0-48 0'
    level LINEDEFS "$(words 0 1 4 0 0 0 1 0 9 4 0 0 0 1)" >torn.wad
    level LINEDEFS "$(words 0 9 4 0 0 0 1)" >nothing.wad
}

cases_of_picture() {
    local i parts usual_view usual_matrix line ring whole half many=()
    pictures
    says 'picture' 0 "$whole" '' picture E1M1 base.wad
    says 'picture: small letters' 0 "$whole" '' picture e1m1 base.wad
    says 'picture: --wide' 0 "$whole" '' picture --wide E1M1 base.wad
    says 'picture: as many cells as are usual' 0 "$whole" '' picture --cells 512 E1M1 base.wad
    says 'picture: 65 cells' 0 "$whole" '' picture --cells 65 E1M1 base.wad
    # The point of a cell of 2 units is a unit from its lower left corner, and so on the line's right.
    says 'picture: 64 cells' 0 "$(drawn 'E1M1: faults 0 notes 0' "$usual_view" '2 0 0 -2 0 0' \
        "$(shaded 0 'M0 0h1v33h-1z' 33)" "$line" '' '')" '' picture E1M1 base.wad --cells 64
    says 'picture: 8 cells' 0 "$(drawn 'E1M1: faults 0 notes 0' "$usual_view" '9 0 0 -9 0 0' \
        "$(shaded 0 'M0 0h1v8h-1z' 8)" "$line" '' '')" '' picture --cells=8 E1M1 base.wad
    says 'picture: a cell' 0 "$(drawn 'E1M1: faults 0 notes 0' "$usual_view" '65 0 0 -65 0 0' \
        "$(shaded 0 'M0 0h1v1h-1z' 1)" "$line" '' '')" '' picture --cells 1 E1M1 base.wad
    says 'picture: a level with a fault' 1 "$half" '' picture E1M1 faulty.wad
    says 'picture: a later file hides an earlier one' 1 "$half" '' picture E1M1 base.wad faulty.wad
    says 'picture: and the other way round' 0 "$whole" '' picture E1M1 faulty.wad base.wad
    says 'picture: a linedef with one end' 1 "$(drawn 'E1M1: faults 1 notes 0' "$usual_view" "$usual_matrix" '' "$line" '' \
        "$(marked "$ring" 'F3 1 linedef vertex names none')")" '' picture E1M1 torn.wad
    cases_of_things
    cases_of_marked_warnings
    level SECTORS "$(sector)$(words 0 128)$(name8 '<&>"')$(name8 FLAT1)$(words 300 -1 7)" >marked.wad
    says 'picture: no name makes markup' 0 "$(drawn 'E1M1: faults 0 notes 0' "$usual_view" "$usual_matrix" '<path fill="#b4b4c8" d="M0 0h1v65h-1z"><title>sector 1: floor 0 &lt;&amp;&gt;&quot;, ceiling 128 FLAT1, light 300, special -1, tag 7, 65 cells</title></path>\n' \
        "$line" '' '')" '' picture E1M1 marked.wad
    lumps 10
    pack $'<A&"\\' '' "${parts[@]}" >label.wad
    # shellcheck disable=SC1003  # a backslash at the end of a word
    says 'picture: no label makes markup' 0 "$(drawn '&lt;A&amp;&quot;\\x5c: faults 0 notes 0' "$usual_view" "$usual_matrix" \
        "$(shaded 1 'M0 0h1v65h-1z' 65)" "$line" '' '')" '' picture '<a&"\' label.wad
    cases_of_frames
    cases_of_undrawn
    cases_of_picture_files
    cases_of_picture_words
}

# Things of each class, the last kind of all and one that no game has; and angles, of which the game takes whole eighths.
cases_of_things() {
    local things
    level THINGS "$(words 0 64 135 3004 7 -8 0 90 82 7 0 8 100 38 7 1 2 -50 2035 7 0 0 -32768 32767 7 0 0 359 11 0)" >kinds.wad
    things=$(thing monster '0 64' 135 '0: type 3004, angle 135, flags 7')$(thing weapon '-8 0' 90 '1: type 82, angle 90, flags 7')
    things+=$(thing key '0 8' 90 '2: type 38, angle 100, flags 7')$(thing other '1 2' -45 '3: type 2035, angle -50, flags 7')
    things+=$(thing other '0 0' -32760 '4: type 32767, angle -32768, flags 7')$(thing start '0 0' 315 '5: type 11, angle 359, flags 0')
    says 'picture: things by class' 0 "$(drawn 'E1M1: faults 0 notes 1' "$usual_view" "$usual_matrix" \
        "$(shaded 1 'M0 0h1v65h-1z' 65)" "$line" '' '')" '' picture E1M1 kinds.wad
}

# warning_mark SHAPE TEXT: the mark of a warning.
warning_mark() { printf '<path class="a" d="%s"><title>%s</title></path>\\n' "$@"; }

# Each sector of the sample has one side, from (0, 0) to (0, 64) or back: neither end is closed.
cases_of_marked_warnings() {
    local corners twins unknown things top='M0 64m-24 0a24 24 0 1 0 48 0a24 24 0 1 0-48 0'
    corners=$(for i in 0 1; do warning_mark "$ring" "W1 $i sector not closed" && warning_mark "$top" "W1 $i sector not closed"; done)
    says 'picture --map' 0 "$(drawn 'E1M1: faults 0 notes 0' "$usual_view" "$usual_matrix" "$(shaded 1 'M0 0h1v65h-1z' 65)" \
        "$line" '' "$corners")" '' picture --map E1M1 base.wad
    says 'picture --map: a code is ignored' 0 "$whole" '' picture --map --ignore W1 E1M1 base.wad
    says 'picture --map: other codes are' 0 "$(drawn 'E1M1: faults 0 notes 0' "$usual_view" "$usual_matrix" \
        "$(shaded 1 'M0 0h1v65h-1z' 65)" "$line" '' "$corners")" '' picture --map --ignore W2,W3 --ignore N3 E1M1 base.wad
    says 'picture: --ignore without --map' 0 "$whole" '' picture --ignore W1 E1M1 base.wad
    # A second linedef runs back: its sides close both sectors.
    level LINEDEFS "$(words 0 1 4 0 0 0 1 1 0 4 0 0 0 1)" >twins.wad
    twins=$(warning_mark 'M0 64L0 0' 'W6 1 linedef on another')
    says 'picture --map: a twin' 0 "$(drawn 'E1M1: faults 0 notes 0' "$usual_view" "$usual_matrix" \
        "$(shaded 1 'M0 0h1v65h-1z' 65)" "${line}M0 64L0 0" '' "$twins")" '' picture --map E1M1 twins.wad
    level THINGS "$(words 8 8 0 1 7 0 0 90 3000 7)" >unknown.wad
    unknown=$(warning_mark "$ring" 'W11 1 thing of no known type')
    things=$(thing start '8 8' 0 '0: type 1, angle 0, flags 7')$(thing other '0 0' 90 '1: type 3000, angle 90, flags 7')
    says 'picture --map: a thing of no known type' 0 "$(drawn 'E1M1: faults 0 notes 0' "$usual_view" "$usual_matrix" \
        "$(shaded 1 'M0 0h1v65h-1z' 65)" "$line" '' "$unknown")" '' picture --map --ignore W1 E1M1 unknown.wad
    things=''
    cases_of_marked_game
    says 'picture --map: none where a reference lacks' 1 "$half" '' picture --map E1M1 faulty.wad
    level THINGS "$(words 8 8 0 1 7)$(times 1001 "$(words 8 8 0 32000 7)")" >many.wad
    timeout 60 "$program" picture --map E1M1 many.wad 2>error | grep -c '<title>W11 ' >output
    printf 0 >status
    judge 'picture --map: as many marks as warnings' 0 '1001\n' ''
    mistaken 'picture: --ignore of a fault' '--ignore' picture --ignore F3 E1M1 base.wad
}

# What the released game does at a linedef is drawn there, and what it does with a thing stands in a ring about the thing. 31 sectors have tag 5.
cases_of_marked_game() {
    local code special text things
    while IFS=: read -r code special text; do
        # shellcheck disable=SC2086  # words
        level LINEDEFS "$(words 0 1 $special 0 1)" SECTORS "$(sector)$(sector)$(times 31 "$(sector_as 0 0 5)")" REJECT "$(times 137 '\x00')" >special.wad
        says "picture --map: $code" 0 "$(drawn 'E1M1: faults 0 notes 0' "$usual_view" "$usual_matrix" \
            "$(shaded 1 'M0 0h1v65h-1z' 65)" "$line" '' "$(warning_mark 'M0 0L0 64' "$code 0 $text")")" '' picture --map --ignore W1 E1M1 special.wad
        says "picture --map: $code is ignored" 0 "$whole" '' picture --map --ignore "W1,$code" E1M1 special.wad
    done <<'END'
W14:4 142 0:unknown special
W15:4 23 0:special with tag 0
W16:5 36 5:special that acts on nothing
W17:4 21 5:use ends or spoils the game
END
    level THINGS "$(words 8 8 0 1 7 0 0 90 2013 8)" >unplaced.wad
    things=$(thing start '8 8' 0 '0: type 1, angle 0, flags 7')$(thing other '0 0' 90 '1: type 2013, angle 90, flags 8')
    says 'picture --map: W21' 0 "$(drawn 'E1M1: faults 0 notes 0' "$usual_view" "$usual_matrix" "$(shaded 1 'M0 0h1v65h-1z' 65)" "$line" '' \
        "$(warning_mark "$ring" 'W21 1 thing unread, unplaced or deadly')")" '' picture --map --ignore W1 E1M1 unplaced.wad
}

cases_of_frames() {
    local framed
    framed=$(drawn 'E1M1: faults 0 notes 0' '-52 -122 184 184' '1 0 0 -1 -20 30' \
        "$(shaded 0 'M21 0h100v121h-100z' 12100)$(shaded 1 'M0 0h21v121h-21z' 2541)" "$line" '' '')
    says 'picture: a frame' 0 "$framed" '' picture --frame -20,-30,100,90 E1M1 base.wad
    says 'picture: a frame, after =' 0 "$framed" '' picture E1M1 --frame=-20,-30,100,90 base.wad
    says 'picture: a frame of one point' 0 "$(drawn 'E1M1: faults 0 notes 0' '-27 -37 64 64' '1 0 0 -1 5 -5' \
        "$(shaded 0 'M0 0h1v1h-1z' 1)" "$line" '' '')" '' picture --frame 5,5,5,5 --cells 1024 E1M1 base.wad
    # 65536 units, in cells of 64, of which those from -16384 to 16383 show something.
    says 'picture: the greatest frame' 0 "$(drawn 'E1M1: faults 0 notes 0' '-32800 -32799 65599 65599' '64 0 0 -64 -32768 32768' \
        "$(shaded 0 'M512 256h256v512h-256z' 131072)$(shaded 1 'M256 256h256v512h-256z' 131072)" "$line" '' '')" '' \
        picture --frame -32768,-32768,32767,32767 --cells 1024 E1M1 base.wad
    says 'picture: nothing to draw, in a frame' 1 "$(drawn 'E1M1: faults 1 notes 0' "$usual_view" "$usual_matrix" '' '' '' \
        "$(marked "$ring" 'F3 0 linedef vertex names none')")" '' picture --frame 0,0,0,64 E1M1 nothing.wad
}

# What is told in place of a picture.
cases_of_undrawn() {
    local tag name_first="wadlens: the level's name comes before its files: wadlens picture NAME FILE...\\n"
    says 'picture: nothing to draw' 2 '' 'wadlens: E1M1: nothing to draw\n' picture E1M1 nothing.wad
    says 'picture: the words are exchanged' 2 '' "$(told E1M1 "$missing")$name_first" picture base.wad E1M1
    says 'picture: .. in large letters' 2 '' "$(told BASE.WAD 'no level of this name')$name_first" picture BASE.WAD base.wad
    lumps 10
    pack A.WAD '' "${parts[@]}" >named.wad
    says 'picture: a level of such a name' 0 "${whole/E1M1/A.WAD}" '' picture a.wad named.wad
    says 'picture: no such level' 2 '' 'wadlens: e1m9: no level of this name\n' picture e1m9 base.wad
    says 'picture: an empty name' 2 '' 'wadlens: : no level of this name\n' picture '' base.wad
    says 'picture: no level in no entries' 2 '' 'wadlens: E1M1: no level of this name\n' picture E1M1 empty.wad
    says 'picture: incomplete' 1 '' 'wadlens: MAP01: incomplete: no BLOCKMAP where it belongs\n' picture MAP01 hole.wad
    says 'picture: no level at its label' 1 '' 'wadlens: things: incomplete: no THINGS where it belongs\n' picture things base.wad
    says 'picture: the last entry' 1 '' 'wadlens: BLOCKMAP: incomplete: no THINGS where it belongs\n' picture BLOCKMAP base.wad
    says 'picture: hexen' 2 '' 'wadlens: MAP01: hexen: not read\n' picture MAP01 hexen.wad
    says 'picture: udmf' 2 '' 'wadlens: MAP03: udmf: not read\n' picture MAP03 udmf.wad
    says 'picture: extended' 2 '' 'wadlens: E1M1: extended nodes ZNOD: not read\n' picture E1M1 extended.wad
    for tag in THINGS BLOCKMAP; do
        lumps 10
        pack MAP01 '' "${parts[@]}" >format.wad
        outside "$tag"
        says "picture: outside, $tag" 1 '' "wadlens: MAP01: outside: $tag\\n" picture MAP01 format.wad
    done
}

# Files that are refused, each with what is told of it.
refusals="no.wad can't be opened
folder can't be read
/dev/zero larger than 268435456 bytes
none.wad shorter than a WAD header
magic.wad not a WAD file: it begins with neither IWAD nor PWAD
count.wad a negative count of lumps
cut.wad its directory isn't inside the file"

cases_of_picture_files() {
    local kind text i
    while read -r kind text; do
        says "picture: $kind" 2 '' "$(told "$kind" "$text")" picture E1M1 "$kind"
        says "picture: $kind behind others" 2 '' "$(told "$kind" "$text")" picture E1M1 base.wad "$kind" base.wad
    done <<<"$refusals"
    says 'picture: the first refused file alone is told' 2 '' "$(told none.wad 'shorter than a WAD header')" \
        picture E1M1 none.wad magic.wad
    says 'picture: all files are read before their directories' 2 '' "$(told no.wad "$missing")" picture E1M1 none.wad no.wad
    says 'picture: a path that begins with -, after --' 0 "$whole" '' picture E1M1 -- -x.wad
    for ((i = 0; i < 64; i++)); do many+=(base.wad); done
    says 'picture: 64 files' 0 "$whole" '' picture E1M1 "${many[@]}"
    mistaken 'picture: 65 files' '64 files' picture E1M1 "${many[@]}" base.wad
    cp empty.wad most.wad
    truncate -s 268435456 most.wad
    says 'picture: a file of as many bytes as there may be' 0 "$whole" '' picture E1M1 base.wad most.wad
    memory=200000 says 'picture: no memory for a file' 3 '' 'wadlens: no memory left\n' picture E1M1 base.wad most.wad
    printf x >>most.wad
    says 'picture: a file of one byte more' 2 '' "$(told most.wad 'larger than 268435456 bytes')" picture E1M1 base.wad most.wad
    rm most.wad
    cases_of_picture_ends
}

# unheard NAME STATUS OUTPUT WORD...: what comes of a run where standard error takes nothing.
unheard() {
    timeout 60 "$program" "${@:4}" >output 2>/dev/full
    printf '%s' $? >status
    : >error
    judge "$1" "$2" "$3" ''
}

cases_of_picture_ends() {
    local full="wadlens: standard output can't be written\\n" pipe
    ends 'picture: a full disk' 2 "$full" picture E1M1 base.wad >/dev/full
    ends 'picture: no standard output' 2 "$full" picture E1M1 base.wad >&-
    ends 'picture: no standard output, and nothing to write' 2 "$(told no.wad "$missing")" picture E1M1 no.wad >&-
    unheard 'picture: a full standard error, and a refused file' 2 '' picture E1M1 none.wad
    unheard 'picture: a full standard error, and no level' 2 '' picture E1M9 base.wad
    unheard 'picture: a full standard error, and nothing to tell' 0 "$whole" picture E1M1 base.wad
    exec {pipe}> >(:)
    wait $!
    ends 'picture: a closed pipe' 0 '' picture E1M1 base.wad >&"$pipe"
    ends 'picture: a closed pipe, a level with a fault' 1 '' picture E1M1 faulty.wad >&"$pipe"
    lumps 10
    large_lines
    ends 'picture: a closed pipe within the text' 0 '' picture MAP04 large.wad >&"$pipe"
    ends 'picture: a closed pipe within the text, and a fault' 1 '' picture MAP05 large.wad >&"$pipe"
    exec {pipe}>&-
    ends 'picture: a full disk within the text' 2 "$full" picture MAP04 large.wad >/dev/full
}

# large.wad: levels whose pictures don't fit into the program's buffer, MAP05 with a fault.
large_lines() {
    local i lines whole
    lines=$(words 1 1 1 0 0 0 -1)
    for ((i = 1; i < 4000; i *= 2)); do lines+=$lines; done
    parts[3]=${own[LINEDEFS]}$lines
    whole=("${parts[@]}")
    parts[3]+=$(words 1 1 1 0 0 9 -1)
    pack MAP04 '' "${whole[@]}" MAP05 '' "${parts[@]}" >large.wad
}

cases_of_picture_words() {
    local word frame='error: --frame wants four numbers from -32768 to 32767, the lesser first: X0,Y0,X1,Y1'
    mistaken 'picture alone' 'NAME' picture
    mistaken 'picture: no file' 'FILE' picture E1M1
    for word in 0 1025 -1 x ''; do mistaken "picture: --cells=$word" '--cells' picture "--cells=$word" E1M1 base.wad; done
    mistaken 'picture: --cells apart' '0' picture --cells 0 E1M1 base.wad
    for word in 1,2,3 1,2,3,4,5 1,2,3,x 5,0,4,0 0,5,0,4 0,0,32768,0 -32769,0,0,0 '' 1; do
        mistaken "picture: --frame $word" "$frame" picture --frame "$word" E1M1 base.wad
    done
    mistaken 'picture: --frame twice' 'cannot be used multiple times' picture --frame 0,0,1,1 --frame 0,0,1,1 E1M1 base.wad
    mistaken 'picture: --max' "unexpected argument '--max'" picture --max 3 E1M1 base.wad
    tells '--help of picture' '--frame <X0,Y0,X1,Y1>' picture --help
}

# Pictures of Freedoom 0.12.1's levels, where these are (FREEDOOM names their folder), by the sums of what tests/plain draws, if it goes
# down the nodes at each cell.
cases_of_drawn_games() {
    local wad name sum games=${FREEDOOM:-/usr/share/games/doom}
    if [[ ! -e $games/freedoom1.wad || ! -e $games/freedoom2.wad ]]; then
        printf 'skipped, as there are no freedoom1.wad and freedoom2.wad in %s: pictures of levels\n' "$games"
        return
    fi
    while read -r wad name sum; do
        run_on '' picture "$name" "$games/$wad"
        sha256sum <output | head -c 64 >sum
        mv sum output
        judge "picture: $name" 0 "$sum" ''
    done <<'END'
freedoom1.wad E3M7 951ca80e06e470865b7380f41cab58d84cc06c3decd1465053bc9499a63a9d54
freedoom2.wad MAP01 009475c4ed8703cdb23ac52ec81bcbc529e04e56e1868f6b36b2534f6b881b7f
freedoom2.wad MAP12 c294d85b3893bb5235a2ac24362b85a890e75ca26c07066e05be82111a94e741
freedoom2.wad MAP28 f940f5db1c2e459fbe3231521b8c892099bfd6ed0eef4b78d7b4c6d5297db2ac
END
    # E3M6 has bare sides and a twin: a picture marks those that `check` tells, at the places that it tells.
    timeout 60 "$program" check --map --max 0 "$games/freedoom1.wad" 2>error |
        sed -nE 's/^.*: E3M6: (W2|W6) linedef ([0-9]+): [^,]*, from \((-?[0-9]+), (-?[0-9]+)\) to \((-?[0-9]+), (-?[0-9]+)\)$/\1 \2 M\3 \4L\5 \6/p' |
        sed -E 's/^W2 ([0-9]+) (.*)$/<path class="a" d="\2"><title>W2 \1 wall without texture<\/title><\/path>/
                s/^W6 ([0-9]+) (.*)$/<path class="a" d="\2"><title>W6 \1 linedef on another<\/title><\/path>/' >wanted
    timeout 60 "$program" picture --map E3M6 "$games/freedoom1.wad" 2>error | grep 'class="a"' >marked
    cmp wanted marked >output 2>&1
    [[ -s wanted ]] || printf 'none\n' >>output
    printf 0 >status
    judge 'picture --map: what check tells of E3M6' 0 '' ''
}

# atlas_of NAME STATUS ERROR FILES WORD...: `atlas` into the folder `atlas`. Standard output stays empty, and then the folder
# has these files.
atlas_of() {
    run_on '' atlas --out atlas "${@:5}"
    ls -A atlas >>output
    judge "$1" "$2" "${4:+${4// /\\n}\\n}" "$3"
}

# into_new NAME..: the same, where the folder isn't there.
into_new() {
    rm -rf atlas
    atlas_of "$@"
}

# has NAME FILE TEXT: a file of the folder has exactly this text.
has() {
    printf '%b' "$3" >wanted
    : >output
    : >error
    cmp wanted "atlas/$2" >>output 2>&1
    printf '%s' $? >status
    judge "$1" 0 '' ''
}

# shows NAME FILE TEXT...: a file of the folder has these texts, in this order.
shows() {
    local rest text
    rest=$(<"atlas/$2")
    : >output
    : >error
    for text in "${@:3}"; do
        [[ $rest == *"$text"* ]] || printf 'no %s\n' "$text" >>output
        rest=${rest#*"$text"}
    done
    printf 0 >status
    judge "$1" 0 '' ''
}

# lacks NAME FILE TEXT: a file of the folder hasn't this text.
lacks() {
    : >output
    : >error
    ! grep -qF -- "$3" "atlas/$2" || printf 'there is %s\n' "$3" >output
    printf 0 >status
    judge "$1" 0 '' ''
}

# map SIZE SHOWN CELLS [LEVEL]: the picture of the sample level, whose cells of this size show so many in one block.
map() {
    cat <<END
<svg xmlns="http://www.w3.org/2000/svg" viewBox="-32 -96 64 128" width="512" height="1024">
<title>${4-E1M1}: faults 0 notes 0</title>
<style>svg{background:#14161a}path{vector-effect:non-scaling-stroke}.s{shape-rendering:crispEdges}.s path:hover{fill:#fb5}.w{fill:none;stroke:#eee;stroke-width:1.5}.t{fill:none;stroke:#778;stroke-width:.7}.f{fill:none;stroke:#f33;stroke-width:4}.a{fill:none;stroke:#fb3;stroke-width:3}.p{vector-effect:none;stroke:#14161a;stroke-width:5;paint-order:stroke}.start{fill:#6f6}.monster{fill:#f7b}.weapon{fill:#5cf}.key{fill:#ff5}.other{fill:#cba}.p:hover{fill:#fff}</style>
<rect x="-32" y="-96" width="64" height="128" fill="#14161a"/>
<g class="s" transform="matrix($1 0 0 -$1 0 0)">
<path fill="#7f7f93" d="$2 floor 0 FLAT1, ceiling 128 FLAT1, light 160, special 0, tag 0, $3 cells</title></path>
</g><g transform="matrix(1 0 0 -1 0 0)">
<path class="t" d="M0 0L0 64"/>
<path class="w" d=""/>
<path class="p start" transform="translate(8 8)rotate(0)" d="M20 0L-12 14v-28z"><title>thing 0: type 1, angle 0, flags 7</title></path>
</g></svg>
END
}

# The folder is refused, and nothing in it or beside it is touched; no file is read.
cases_of_folders() {
    local text="it isn't empty"
    mkdir atlas
    cp base.wad atlas
    atlas_of 'atlas: a folder with a file' 2 "$(told atlas "$text")" base.wad no.wad
    mv atlas/base.wad atlas/.hidden
    atlas_of 'atlas: a folder with a hidden file' 2 "$(told atlas "$text")" .hidden no.wad
    rm -r atlas
    cp base.wad atlas
    atlas_of 'atlas: a file' 2 "$(told atlas "it isn't a folder")" atlas no.wad
    rm atlas
    says 'atlas: no folder above it' 2 '' "$(told none/atlas "the folder above it isn't there")" atlas --out none/atlas no.wad
    ln -s none atlas
    says 'atlas: a link to nothing' 2 '' "$(told atlas "it can't be made")" atlas --out atlas no.wad
    rm atlas
    ln -s atlas atlas
    says 'atlas: a link to itself' 2 '' "$(told atlas "it can't be read")" atlas --out atlas no.wad
    rm atlas
    cases_of_shut_folders
    mkdir atlas
    atlas_of 'atlas: an empty folder' 0 '' '1-0.svg index.html survey.jsonl' base.wad
    rm -r atlas
    mkdir inner
    ln -s inner atlas
    atlas_of 'atlas: a link to an empty folder' 0 '' '1-0.svg index.html survey.jsonl' base.wad
    rm -r inner atlas
    cases_of_refused_lists
}

# Folders that are shut to whoever runs the program, which none is to root.
cases_of_shut_folders() {
    local program=$program
    if ((EUID == 0)); then
        if ! setpriv --reuid 65534 --regid 65534 --clear-groups true 2>/dev/null; then
            printf 'skipped, as nothing is shut to root and there is no setpriv that works: folders that are shut\n'
            return
        fi
        # Whoever it runs as has to reach it.
        chmod 711 .
        install -m 755 "$program" lens
        printf '#!/bin/sh\nexec setpriv --reuid 65534 --regid 65534 --clear-groups ./lens "$@"\n' >other
        chmod 755 other
        program=./other
    fi
    mkdir -m 555 shut
    says 'atlas: a folder that takes no folder' 2 '' "$(told shut/atlas "it can't be made")" atlas --out shut/atlas base.wad
    says 'atlas: a folder that takes no file' 2 '' "$(told shut "a file in it can't be written")" atlas --out shut base.wad
    chmod 311 shut
    says 'atlas: a folder that may not be read' 2 '' "$(told shut "it can't be read")" atlas --out shut base.wad
    chmod 755 shut
    # It is empty, or it wouldn't go.
    rmdir shut
    chmod 700 .
}

# no_folder NAME: nothing stands under the name of the folder.
no_folder() {
    : >output
    : >error
    [[ ! -e atlas ]] || printf 'there is a folder\n' >output
    printf 0 >status
    judge "$1" 0 '' ''
}

cases_of_refused_lists() {
    local large='larger than 268435456 bytes'
    says 'atlas: a list that is not there' 2 '' "$(told no.list "$missing")" atlas --out atlas --files-from no.list base.wad
    says 'atlas: a list that is a folder' 2 '' "$(told folder "$unread")" atlas --out atlas --files-from folder base.wad
    says 'atlas: a list without end' 2 '' "$(told /dev/zero "$large")" atlas --out atlas --files-from /dev/zero base.wad
    timeout 60 "$program" atlas --out atlas --files-from - <folder >output 2>error
    printf '%s' $? >status
    judge 'atlas: a list that cannot be read' 2 '' "$(told 'standard input' "$unread")"
    no_folder 'atlas: lists are refused before the folder is made'
}

# A file that can't be written, a run that is killed, want of memory: no page, and no other file that isn't whole.
cases_of_no_page() {
    local memory=''
    cases_of_full_disks
    cases_of_kills
    memory=200000
    cp empty.wad most.wad
    truncate -s 268435456 most.wad
    into_new 'atlas: no memory for a file' 3 'wadlens: no memory left\n' 1-0.svg base.wad most.wad
    has 'atlas: .. and the picture before it' 1-0.svg "$(map 1 'M0 0h1v65h-1z"><title>sector 1:' 65)\n"
    memory=400000
    into_new 'atlas: memory of one file at a time' 0 '' 'index.html survey.jsonl' most.wad most.wad most.wad
    rm most.wad
}

# full_at KIB FILE...: makes an atlas where no file has room for more than so many KiB, and keeps how it ended and what stands.
full_at() {
    rm -rf atlas
    # A pipe takes what is told, as no file has room for it.
    (
        trap '' XFSZ
        ulimit -f "$1"
        exec timeout 60 "$program" atlas --out atlas "${@:2}"
    ) 2>&1 >output | cat >error
    printf '%s' "${PIPESTATUS[0]}" >status
    ls -A atlas >>output
}

# draws NAME LEVEL FILE SVG...: each of these files of the folder is what `picture` writes of that level.
draws() {
    local name
    timeout 60 "$program" picture "$2" "$3" >drawn 2>error
    printf '%s' $? >status
    for name in "${@:4}"; do cmp drawn "atlas/$name"; done >output 2>&1
    judge "$1" 0 '' ''
}

# repeated FILE COUNT: FILE with each of its entries so many times, a power of two. They share its bytes.
repeated() {
    local at count i
    count=$(($(od -An -tu4 -j4 -N4 "$1") * $2)) at=$(($(od -An -tu4 -j8 -N4 "$1")))
    tail -c +$((at + 1)) "$1" >directory
    for ((i = 1; i < $2; i *= 2)); do
        cat directory directory >twice
        mv twice directory
    done
    printf 'PWAD%b' "$(words $count $((count >> 16)) $at $((at >> 16)))"
    head -c "$at" "$1" | tail -c +13
    cat directory
}

cases_of_full_disks() {
    local text kib parts small i names=()
    text=$(told atlas "a file in it can't be written")
    for kib in 0 2; do
        full_at "$kib" faulty.wad base.wad
        # In 2048 bytes there is room for a picture and the survey of two levels, and none for the page.
        judge "atlas: a disk with room for $kib KiB" 2 "$( ((kib == 0)) || printf '%s' '1-0.svg\n2-0.svg\nsurvey.jsonl\n')" "$text"
    done
    lumps 10
    small=("${parts[@]}")
    # The lines on MAP03's 4096 linedefs without length don't fit into the program's buffer.
    large_lines
    pack MAP01 '' "${small[@]}" MAP02 '' "${small[@]}" MAP03 '' "${parts[@]}" MAP04 '' "${small[@]}" >filling.wad
    full_at 32 filling.wad
    judge 'atlas: a disk that is full within a picture' 2 '1-0.svg\n1-11.svg\n' "$text"
    draws 'atlas: .. and the first before it' MAP01 filling.wad 1-0.svg
    draws 'atlas: .. and the second' MAP02 filling.wad 1-11.svg
    # An object has 128 to 256 bytes: those of 256 levels have no room, and are held back until all pictures stand.
    level >one.wad
    repeated one.wad 256 >many.wad
    for ((i = 0; i < 256; i++)); do names+=("1-$((11 * i)).svg"); done
    full_at 32 many.wad
    judge 'atlas: a disk that is full within the survey' 2 "$(printf '%s\n' "${names[@]}" | sort)\n" "$text"
    draws 'atlas: .. and all pictures' E1M1 many.wad "${names[@]}"
    # The survey has 59 KB. The page has twice as many, and more than the program's buffer.
    full_at 60 many.wad
    judge 'atlas: a disk that is full within the page' 2 "$(printf '%s\n' "${names[@]}" survey.jsonl | sort)\n" "$text"
}

# A run that is killed leaves what is whole, and else files whose names say that they aren't.
cases_of_kills() {
    local levels=${FREEDOOM:-/usr/share/games/doom}/freedoom1.wad parts k start took killed=0
    cases_of_a_kill
    if [[ ! -f $levels ]]; then
        # Large pictures, so that most of the time goes by within one.
        lumps 10
        large_lines
        repeated large.wad 32 >many.wad
        levels=many.wad
    fi
    timeout 60 "$program" survey "$levels" >survey.told
    sed -n 's/.*"entry":\([0-9]*\),"format":"doom".*/1-\1.svg/p' survey.told | sort >pictures.told
    start=$(date +%s%N)
    killed_after 60000
    took=$((($(date +%s%N) - start) / 1000000))
    # All kills together take no half minute.
    ((took < 6000)) || took=6000
    [[ -e atlas/index.html ]] || printf 'no page\n' >>output
    judge 'atlas: a run that is not killed' 0 '' ''
    for k in {1..8}; do
        killed_after $((took * k / 8))
        judge "atlas: killed after $k of 8 parts of its time" 0 '' ''
    done
    ((killed > 0)) || printf 'none\n' >>output
    judge 'atlas: some of them were killed' 0 '' ''
}

# killed_after MILLISECONDS: kills a run over `levels` after so long, where it didn't end before, and keeps what it left that isn't
# whole.
killed_after() {
    rm -rf atlas
    # The shell tells of the kill, too.
    { timeout -s KILL "$(printf '%d.%03d' $(($1 / 1000)) $(($1 % 1000)))" "$program" atlas --out atlas "$levels"; } >output 2>told
    (($? != 137)) || killed=$((killed + 1))
    not_whole >>output 2>&1
    printf 0 >status
    : >error
}

# not_whole: what of the folder isn't whole, or stands there before its time: pictures come first, then the survey, then the page.
not_whole() {
    local name names=() pictures=()
    for name in atlas/*; do
        name=${name#atlas/}
        case $name in
            *.svg) pictures+=("atlas/$name") names+=("$name") ;;
            *.part | survey.jsonl | index.html | '*') ;;
            *) printf 'there is %s\n' "$name" ;;
        esac
    done
    ((${#names[@]} == 0)) || {
        cmp -s <(tail -q -c 11 "${pictures[@]}") <(printf '</g></svg>\n%.0s' "${pictures[@]}") || printf 'a picture has no end\n'
        printf '%s\n' "${names[@]}" | comm -23 - pictures.told
    }
    [[ ! -e atlas/survey.jsonl ]] || cmp survey.told atlas/survey.jsonl
    [[ ! -e atlas/survey.jsonl ]] || printf '%s\n' "${names[@]}" | cmp -s - pictures.told || printf 'a survey, and not all pictures\n'
    [[ ! -e atlas/index.html ]] || cmp -s <(tail -c 8 atlas/index.html) <(printf '</html>\n') || printf 'a page without an end\n'
    [[ ! -e atlas/index.html || -e atlas/survey.jsonl ]] || printf 'a page, and no survey\n'
}

# A file from a pipe holds a run up, so that it is killed behind its first picture.
cases_of_a_kill() {
    local pid _
    rm -rf atlas
    mkfifo waits
    "$program" atlas --out atlas base.wad waits &
    pid=$!
    for _ in {1..200}; do
        [[ ! -e atlas/1-0.svg ]] || break
        sleep 0.05
    done
    kill -9 $pid
    wait $pid 2>killed
    ls -A atlas >output
    printf 0 >status
    : >error
    judge 'atlas: a run that is killed' 0 '1-0.svg\nsurvey.jsonl.part\n' ''
    has 'atlas: .. and the picture before that' 1-0.svg "$(map 1 'M0 0h1v65h-1z"><title>sector 1:' 65)\n"
    rm waits
}

cases_of_atlas() {
    local parts name none='shorter than a WAD header'
    cases_of_folders
    into_new 'atlas: a level' 0 '' '1-0.svg index.html survey.jsonl' base.wad
    has 'atlas: its picture' 1-0.svg "$(map 1 'M0 0h1v65h-1z"><title>sector 1:' 65)\n"
    has 'atlas: its survey' survey.jsonl "$(sound base.wad E1M1 0)"
    shows 'atlas: its page' index.html '<title>Atlas: 1 levels in 1 files</title>' '<li class="sound">' \
        '<a class="map" href="1-0.svg"><img loading="lazy" src="1-0.svg" alt="map of E1M1"></a>' '<h2>E1M1</h2>' base.wad \
        'entry 0, doom' '<b>1</b> linedefs' '<b>2</b> sidedefs' '</html>'
    cases_of_headed_atlases
    into_new 'atlas: --cells' 0 '' '1-0.svg index.html survey.jsonl' --cells 1 base.wad
    has 'atlas: a picture of one cell' 1-0.svg "$(map 65 'M0 0h1v1h-1z"><title>sector 0:' 1)\n"
    into_new 'atlas: several files and levels' 1 "$(told none.wad "$none")$(told no.wad "$missing")" \
        '1-0.svg 1-11.svg 4-0.svg 6-0.svg index.html survey.jsonl' hidden.wad none.wad hole.wad faulty.wad no.wad base.wad
    for name in hidden none hole faulty no base; do parts+=("$name.wad"); done
    timeout 60 "$program" survey "${parts[@]}" >survey.told 2>error
    has 'atlas: the survey of refused files, too' survey.jsonl "$(<survey.told)\n"
    shows 'atlas: faults first' index.html '5 levels in 6 files' none.wad "$none" no.wad "$missing" hole.wad \
        'incomplete: no BLOCKMAP where it belongs' faulty.wad '1-0.svg' '1-11.svg' '6-0.svg'
    cases_of_refused_in_atlas
    level LINEDEFS '' >bare.wad
    into_new 'atlas: a level with nothing to draw' 1 '' 'index.html survey.jsonl' bare.wad
    shows 'atlas: its row' index.html '<p class="map">no picture</p>' '<h2>E1M1</h2>' '<b>0</b> linedefs'
    into_new 'atlas: levels that are not judged' 2 '' 'index.html survey.jsonl' hexen.wad udmf.wad extended.wad
    shows 'atlas: their rows' index.html 'hexen: not read' 'udmf: not read' 'extended nodes ZNOD: not read'
    level NODES "$(letters XNOD)" >broken.wad
    into_new 'atlas: broken nodes' 1 '' 'index.html survey.jsonl' udmf.wad broken.wad
    shows 'atlas: their row, among the faulty' index.html 'broken.wad <span>entry 0, extended' \
        'extended nodes XNOD: NODES ends within its vertexes' 'udmf: not read'
    lumps 10
    pack '<i>&"' '' "${parts[@]}" >'<b>&".wad'
    into_new 'atlas: names that are markup' 0 '' '1-0.svg index.html survey.jsonl' '<b>&".wad'
    shows 'atlas: .. on the page' index.html 'alt="map of &lt;i&gt;&amp;&quot;"' '<h2>&lt;i&gt;&amp;&quot;</h2>' \
        '&lt;b&gt;&amp;&quot;.wad'
    has 'atlas: .. and in the picture' 1-0.svg \
        "$(map 1 'M0 0h1v65h-1z"><title>sector 1:' 65 '&lt;i&gt;&amp;&quot;')\n"
    cases_of_warned_atlases
    into_new 'atlas: the wide reading' 1 '' '1-0.svg index.html survey.jsonl' --wide faulty.wad
    cases_of_lists_of_atlas
    cases_of_no_page
    cases_of_words_of_atlas
    cases_of_terminals_of_atlas
}

# The title and the day are told where they are asked for, and the same files give the same bytes.
cases_of_headed_atlases() {
    lacks 'atlas: no day unasked' index.html 'class="day"'
    cp -r atlas before
    into_new 'atlas: again' 0 '' '1-0.svg index.html survey.jsonl' base.wad
    diff -r before atlas >output 2>&1
    printf '%s' $? >status
    : >error
    judge 'atlas: .. in the same bytes' 0 '' ''
    rm -r before
    into_new 'atlas: --title and --day' 0 '' '1-0.svg index.html survey.jsonl' --title 'Two <games>' --day=2026-11-30 base.wad
    shows 'atlas: .. on the page, headed' index.html '<title>Two &lt;games&gt;: 1 levels in 1 files</title>' '<h1>Two &lt;games&gt;</h1>' \
        '<p class="day">2026-11-30</p>' '<ul class="totals">'
    into_new 'atlas: a fault' 1 '' '1-0.svg index.html survey.jsonl' faulty.wad
    shows 'atlas: its legend' index.html '<ul class="legend">' \
        '<li class="fault"><b>F9</b> a seg'"'"'s linedef has no sidedef on the seg'"'"'s side</li>' \
        '<li class="note"><b>N3</b> a linedef is two-sided, without a back sidedef</li>' '</ul>' '<main>'
    lacks 'atlas: .. without codes that are not found' index.html '<b>F3</b>'
    rm -r atlas
    says 'atlas: all files are refused' 2 '' "$(told no.wad "$missing")$(told none.wad "$none")" atlas --out atlas no.wad none.wad
    no_folder 'atlas: .. and there is no folder'
    mkdir atlas
    atlas_of 'atlas: all files are refused, into a folder' 2 "$(told no.wad "$missing")" '' no.wad
    rm -r atlas
    : | timeout 60 "$program" atlas --out atlas --files-from - >output 2>error
    printf '%s' $? >status
    ls -A atlas >>output
    judge 'atlas: no files' 0 'index.html\nsurvey.jsonl\n' ''
    mistaken 'atlas: --title twice' '--title' atlas --out atlas --title a --title b base.wad
}

cases_of_words_of_atlas() {
    rm -rf atlas
    mistaken 'atlas alone' '--out <FOLDER>' atlas
    mistaken 'atlas without a folder' '--out <FOLDER>' atlas base.wad
    mistaken 'atlas without files' 'FILE' atlas --out atlas
    mistaken 'atlas: --out without a value' '--out' atlas base.wad --out
    mistaken 'atlas: --out twice' '--out' atlas --out atlas --out other base.wad
    mistaken 'atlas: no cells' '--cells' atlas --out atlas --cells 0 base.wad
    mistaken 'atlas: too many cells' '--cells' atlas --out atlas --cells 1025 base.wad
    mistaken 'atlas: a negative number of cells' '--cells' atlas --out atlas --cells=-1 base.wad
    mistaken 'atlas: a negative number of cells, apart' '-1' atlas --out atlas --cells -1 base.wad
    mistaken 'atlas: a number of cells that is none' 'many' atlas --out atlas --cells many base.wad
    mistaken 'atlas: --null without --files-from' '--files-from' atlas --out atlas --null base.wad
    tells '--help of atlas' '--out <FOLDER>' atlas --help
    no_folder 'atlas: mistaken words make no folder'
}

cases_of_terminals_of_atlas() {
    if [[ $(script --version 2>/dev/null) != *util-linux* ]]; then
        printf 'skipped, as there is no script of util-linux: progress of atlas on a terminal\n'
        return
    fi
    rm -rf atlas
    on_terminal 'atlas: progress on a terminal' 0 '' '\r1 files, 1 levels\r\n' atlas --out atlas base.wad
    rm -rf atlas
    on_terminal 'atlas: progress on a terminal, and a refused file' 2 '' \
        "\\r1 files, 1 levels\\r\\x1b[Kwadlens: none.wad: $none\\r\\n\\r2 files, 1 levels\\r\\n" atlas --out atlas base.wad none.wad
}

# Each is told, and stands in the survey and on the page.
cases_of_refused_in_atlas() {
    local kind text
    while read -r kind text; do
        into_new "atlas: $kind" 2 "$(told "$kind" "$text")" '1-0.svg index.html survey.jsonl' base.wad "$kind"
        has "atlas: .. in its survey, $kind" survey.jsonl "$(sound base.wad E1M1 0)$(refused "$kind" "$text")"
        shows "atlas: .. on its page, $kind" index.html '1 levels in 2 files' "$kind" "$text" '<h2>E1M1</h2>'
    done <<<"$refusals"
    # Controls of paths are told by their digits there, too.
    cp base.wad $'a\e<b\xc2\x85.wad'
    into_new 'atlas: controls in a path' 2 "$(told 'n\\x09o' "$missing")" '1-0.svg index.html survey.jsonl' $'a\e<b\xc2\x85.wad' $'n\to'
    shows 'atlas: .. on its page, controls' index.html '<b>n\x09o</b>' '<p class="where">a\x1b&lt;b\xc2\x85.wad <'
}

# shows_not NAME FILE TEXT: a file of the folder doesn't have this text.
shows_not() {
    : >output
    : >error
    [[ $(<"atlas/$2") != *"$3"* ]] || printf 'there is %s\n' "$3" >output
    printf 0 >status
    judge "$1" 0 '' ''
}

# Warnings stand on the page where they are asked for, behind the findings and apart from them, and in no level with F3 to F9.
cases_of_warned_atlases() {
    local warned
    warned=$(
        printf '<li class="sound">sound</li>\n'
        printf '<li class="warning">%s</li>\n' 'W1 &times; 4' 'W7 &times; 1' 'W8 &times; 1' 'W19 &times; 1'
        printf '</ul>'
    )
    into_new 'atlas: --map' 0 '' '1-0.svg index.html survey.jsonl' --map base.wad
    timeout 60 "$program" survey --map base.wad >survey.told
    has 'atlas: its survey with warnings' survey.jsonl "$(<survey.told)\n"
    shows 'atlas: its warnings' index.html '<b>0</b> faults' '<b>0</b> notes' '<b>7</b> warnings' '<b>0</b> not judged' \
        '<li class="sound">' "$warned" '<ul class="counts">'
    into_new 'atlas: --map --strict' 1 '' '1-0.svg index.html survey.jsonl' --strict --map base.wad
    has 'atlas: its survey, strictly' survey.jsonl "$(<survey.told)\n"
    shows 'atlas: its warnings, strictly' index.html '<b>0</b> faults' '<b>7</b> warnings' '<li class="faulty">' "${warned#*$'\n'}"
    lacks 'atlas: .. and it is not called sound' index.html '<li class="sound">sound</li>'
    into_new 'atlas: warnings of some levels' 2 '' '1-0.svg 3-0.svg index.html survey.jsonl' --map base.wad udmf.wad base.wad
    timeout 60 "$program" survey --map base.wad udmf.wad base.wad >survey.told
    has 'atlas: their survey' survey.jsonl "$(<survey.told)\n"
    shows 'atlas: their warnings' index.html '<b>14</b> warnings' '<b>1</b> not judged' "$warned" 'udmf: not read' "$warned"
    into_new 'atlas: warnings are not looked for' 1 '' '1-0.svg index.html survey.jsonl' --map faulty.wad
    shows 'atlas: no warnings' index.html '<b>1</b> faults' '<b>1</b> notes' '<b>0</b> warnings' \
        $'<ul class="found">\n<li class="fault">F9 &times; 1</li>\n<li class="note">N3 &times; 1</li>\n</ul>'
    into_new 'atlas: warnings are not asked for' 0 '' '1-0.svg index.html survey.jsonl' base.wad
    shows 'atlas: .. and the notes are followed by' index.html $'<b>0</b> notes</li>\n<li><b>0</b> not judged</li>\n' \
        $'<ul class="found">\n<li class="sound">sound</li>\n</ul>'
    shows_not 'atlas: .. and no item is one' index.html '<li class="warning">'
    mistaken 'atlas: --strict alone' '--map' atlas --out atlas --strict base.wad
}

cases_of_lists_of_atlas() {
    : >empty.list
    into_new 'atlas: an empty list' 0 '' 'index.html survey.jsonl' --files-from empty.list
    shows 'atlas: its page of no level' index.html '<title>Atlas: 0 levels in 0 files</title>'
    printf 'two\nlines.wad\0' >nul.list
    into_new 'atlas: a file, and a list of NULs' 0 '' '1-0.svg 2-0.svg index.html survey.jsonl' --null --files-from nul.list base.wad
    into_new 'atlas: --progress' 2 \
        "\\r1 files, 1 levels\\r\\x1b[K$(told none.wad 'shorter than a WAD header')\\r2 files, 1 levels\\n" \
        '1-0.svg index.html survey.jsonl' --progress base.wad none.wad
    rm -rf atlas
    timeout 60 "$program" atlas --out atlas none.wad >output 2>/dev/full
    printf '%s' $? >status
    : >error
    ls -A atlas >>output
    judge 'atlas: a full standard error' 2 '' ''
}
