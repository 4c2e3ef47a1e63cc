# Cases of what the released game does with a level, W14 to W25, which tests/wadlens runs.
# shellcheck shell=bash disable=SC2034,SC2154  # what tests/wadlens sets and reads

# ---- A square -------------------------------------------------------------------------------------------------------

# A square room of sector 0, in one ssector, with player 1 in its middle. Its walls are linedefs 0 to 3.
square_walls=$(words 0 1 1 0 0 0 -1 1 2 1 0 0 1 -1 2 3 1 0 0 2 -1 3 0 1 0 0 3 -1)
square_corners=$(words 0 0 0 256 256 256 256 0)
square_start=$(words 128 128 90 1 7)
square=(THINGS "$square_start" LINEDEFS "$square_walls" SIDEDEFS "$room_sides" VERTEXES "$square_corners" SSECTORS "$(words 4 0)" NODES ''
    SEGS "$(words 0 1 16384 0 0 0 1 2 0 1 0 0 2 3 -32768 2 0 0 3 0 -16384 3 0 0)" SECTORS "$(sector)")

# lines [FLAGS SPECIAL TAG FRONT BACK]...: LINEDEFS and VERTEXES of the square with these linedefs, from number 4 on, each with two vertexes
# of its own: linedef 4 runs from (32, 32) to (96, 32), and the next ones lie above.
lines() {
    local number=0 linedefs=$square_walls vertexes=$square_corners
    for (( ; $#; number++)); do
        linedefs+=$(words $((4 + 2 * number)) $((5 + 2 * number)) "${@:1:5}")
        vertexes+=$(words 32 $((32 + number)) 96 $((32 + number)))
        shift 5
    done
    drawn=(LINEDEFS "$linedefs" VERTEXES "$vertexes")
}

# sides SECTOR...: SIDEDEFS of the square with sidedefs of these sectors, from number 4 on.
sides() {
    local number
    sided=(SIDEDEFS "$room_sides$(for number; do sidedef "$number"; done)")
}

# sector_as FLOOR SPECIAL TAG
sector_as() { printf '%s' "$(words "$1" 128)" "$(name8 FLAT1)$(name8 FLAT1)" "$(words 160 "$2" "$3")"; }

# placed [KIND OPTIONS]...: THINGS with these at (64, 64), behind the start.
placed() {
    printf '%s' "$square_start"
    for (( ; $#; )); do
        words 64 64 0 "$1" "$2"
        shift 2
    done
}

# plays NAME LINES [LUMP BYTES]...: what `check --map` tells of the square with these lumps and with what `lines` and `sides` drew, each line
# without its path and level; how many of each code a survey tells of. The codes of `untold` are left out, and `label` is the level's name.
untold=notes,W1-W13,W19,W25 drawn=() sided=()
plays() {
    local line text='' codes='' code count=0
    level "${square[@]}" "${drawn[@]}" "${sided[@]}" "${@:3}" >square.wad
    while read -r line; do
        [[ -z $line ]] || { text+="square.wad: $label: $line\\n" && count=$((count + 1)); }
    done <<<"$2"
    text+="1 levels in 1 files: 0 faults, 0 notes, $count warnings, 0 not judged\\n"
    says "$1" 0 "$text" '' check --map --max 0 --ignore "$untold" "${bases[@]}" square.wad
    for code in W{14..25}; do
        count=$(grep -c "^$code " <<<"$2")
        ((count == 0)) || codes+=",\"$code\":$count"
    done
    run_on '' survey --map --ignore "$untold" "${bases[@]}" square.wad
    [[ $(<output) != *"},\"warnings\":{${codes#,}}}" ]] || : >output
    judge "$1, surveyed" 0 '' ''
}

# The place of linedef 4.
inner='from (32, 32) to (96, 32)'

cases_of_game() {
    local label=E1M1 drawn=() sided=() bases=() behind=() untold=$untold
    plays 'the square: none' ''
    cases_of_unknown_specials
    cases_of_zero_tags
    cases_of_crossings
    cases_of_destinations
    cases_of_effects
    cases_of_donuts
    cases_of_neighbours
    cases_of_deadly_floors
    cases_of_exits
    cases_of_keys
    cases_of_ending_things
    cases_of_shooters
    cases_of_limits
    cases_of_saves
    cases_of_patches
    cases_of_flat_ends
    cases_of_game_objects
    cases_of_ended_game
}

# ---- Specials -------------------------------------------------------------------------------------------------------

cases_of_unknown_specials() {
    local special
    sides 0 0
    for special in 142 -1 85 78; do
        lines 1 "$special" 0 4 -1
        plays "unknown_special: $special" "W14 linedef 4: special $special is none of the game's, $inner"
    done
    for special in 141 79 77 86; do
        lines 4 "$special" 3 4 5
        plays "unknown_special: $special, none" '' SECTORS "$(sector_as 0 0 3)"
    done
}

cases_of_zero_tags() {
    local special
    sides 0 0
    lines 1 23 0 4 -1
    plays zero_tag "W15 linedef 4: special 23 with tag 0, which 1 sectors have, $inner"
    plays 'zero_tag: sectors of another tag' "W15 linedef 4: special 23 with tag 0, which 2 sectors have, $inner" \
        SECTORS "$(sector)$(sector_as 0 0 5)$(sector)"
    for special in 1 97 48; do
        lines 4 "$special" 0 4 5
        plays "zero_tag: special $special, none" '' THINGS "$(placed 14 7)"
    done
    lines 4 23 5 4 5
    plays 'zero_tag: a tag that no sector has, none' ''
}

cases_of_crossings() {
    local special
    sides 0 0
    lines 1 36 3 4 -1
    plays 'never_crossed: no back sidedef' "W16 linedef 4: special 36 can't be crossed: it has no back sidedef, $inner" SECTORS "$(sector_as 0 0 3)"
    lines 5 36 3 4 5
    plays 'never_crossed: flag 1' "W16 linedef 4: special 36 can't be crossed: it lets none through, $inner" SECTORS "$(sector_as 0 0 3)"
    for special in 4 10 88; do
        lines 5 "$special" 3 4 5
        plays "never_crossed: missiles cross special $special, none" '' SECTORS "$(sector_as 0 0 3)"
        lines 1 "$special" 3 4 -1
        plays "never_crossed: special $special without a back sidedef" \
            "W16 linedef 4: special $special can't be crossed: it has no back sidedef, $inner" SECTORS "$(sector_as 0 0 3)"
    done
    lines 6 36 3 4 5
    plays 'never_crossed: flag 2, none' '' SECTORS "$(sector_as 0 0 3)"
    for special in 125 126; do
        lines 6 "$special" 3 4 5
        plays "never_crossed: flag 2 of special $special, for monsters" \
            "W16 linedef 4: special $special can't be crossed: it lets none through, $inner" SECTORS "$(sector_as 0 0 3)"
    done
    lines 1 23 3 4 -1
    plays 'never_crossed: what is used, none' '' SECTORS "$(sector_as 0 0 3)"
}

cases_of_destinations() {
    local lost="W16 linedef 4: special 97 has no destination: no sector with tag 3 has a thing of type 14, $inner" inside
    inside=$(sector_as 0 0 3)
    sides 0 0
    lines 4 97 3 4 5
    plays no_destination "$lost" SECTORS "$(sector)$inside" THINGS "$(placed 14 7)"
    plays 'no_destination: there is one, none' '' SECTORS "$inside$inside" THINGS "$(placed 14 7)"
    plays 'no_destination: no thing of type 14' "$lost" SECTORS "$inside" THINGS "$(placed 15 7)"
    plays 'no_destination: in hard, none' '' SECTORS "$inside" THINGS "$(placed 14 20)"
    plays 'no_destination: in no skill' "$(two "$lost" 'W21 thing 1: appears in no skill, at (64, 64)')" SECTORS "$inside" THINGS "$(placed 14 8)"
    plays 'no_destination: out of range' "$lost" SECTORS "$inside" THINGS "$square_start$(words 16384 64 0 14 7)"
    plays 'no_destination: no sector with the tag, none' ''
    lines 5 97 3 4 5
    plays 'no_destination: the linedef lets none through' "W16 linedef 4: special 97 can't be crossed: it lets none through, $inner" SECTORS "$inside"
    # An ssector without its segs has no sector.
    lines 4 97 3 4 5
    level "${square[@]}" "${drawn[@]}" "${sided[@]}" SECTORS "$inside" SSECTORS "$(words 4 9)" >square.wad
    says 'no_destination: in a level with a fault of the nodes, not looked for' 1 "$(
        printf '%s' "square.wad: E1M1: F10 ssector 0: segs from 9, 4 of them, aren't all there (4 segs)\\n" \
            '1 levels in 1 files: 1 faults, 0 notes, 0 warnings, 0 not judged\n'
    )" '' check --map --ignore "$untold" square.wad
}

# ---- What ends or spoils the game -----------------------------------------------------------------------------------

# answering COUNT: SECTORS with so many sectors of tag 5, one with the door's special 10 and one with 14.
answering() { sector; times "$1" "$(sector_as 0 0 5)"; sector_as 0 10 5; sector_as 0 14 5; }

cases_of_effects() {
    sides 0 0
    lines 1 27 0 4 -1
    plays one_sided_door "W17 linedef 4: special 27 without a back sidedef: its use ends the game, $inner"
    lines 4 27 0 4 5
    plays 'one_sided_door: two-sided, none' ''
    lines 1 21 5 4 -1
    plays 'platforms: 30, none' '' SECTORS "$(answering 30)"
    plays 'platforms: 31' "W17 linedef 4: special 21 starts 31 platforms, 30 are the most: it ends the game, $inner" SECTORS "$(answering 31)"
    lines 1 41 5 4 -1
    plays 'ceilings: 30, none' '' SECTORS "$(answering 30)"
    plays 'ceilings: 31' "W17 linedef 4: special 41 starts 31 ceilings, 30 are the most, $inner" SECTORS "$(answering 31)"
    lines 1 23 5 4 -1
    plays 'platforms: 31 floors, none' '' SECTORS "$(answering 31)"
}

cases_of_donuts() {
    local front="W17 linedef 4: special 9:"
    lines 1 9 6 0 -1 1 0 0 4 -1
    sides 1
    plays no_ring "$front linedef 5, the first of sector 1, has no other side: its use ends the game, $inner" SECTORS "$(sector)$(sector_as 0 0 6)"
    plays 'no_ring: a door from the start, none' '' SECTORS "$(sector)$(sector_as 0 10 6)"
    plays 'no_ring: a pillar without linedefs' "$front sector 2 has no linedef: its use ends the game, $inner" \
        SECTORS "$(sector)$(sector)$(sector_as 0 0 6)"
    sides 1 0
    lines 1 9 6 0 -1 0 0 0 4 5
    plays 'no_ring: no flag 4' "$front linedef 5, the first of sector 1, has no other side: its use ends the game, $inner" \
        SECTORS "$(sector)$(sector_as 0 0 6)"
    # The pillar, sector 1, is behind linedefs of the ring, sector 2, up to the one that has no back sidedef, or sector 0 behind it.
    sides 2 1 2 1 2 0
    lines 1 9 6 0 -1 4 0 0 4 5 4 0 0 6 7 1 0 0 8 -1
    plays open_ring "$front linedef 7 of sector 2 has no back sidedef: its use ends the game, $inner" SECTORS "$(sector)$(sector_as 0 0 6)$(sector)"
    lines 1 9 6 0 -1 4 0 0 4 5 4 0 0 6 7 4 0 0 8 9 1 0 0 8 -1
    plays 'open_ring: closed before, none' '' SECTORS "$(sector)$(sector_as 0 0 6)$(sector)"
}

# around COUNT: linedef 4 with special 18, and so many linedefs between sector 1 and sector 2.
around() {
    # shellcheck disable=SC2046  # words
    lines 1 18 9 0 -1 $(for ((i = 0; i < $1; i++)); do echo 4 0 0 4 5; done)
}

cases_of_neighbours() {
    local i changed="W17 linedef 4: special 37: sector 1 finds no neighbour at -8, its new special is what memory held, $inner"
    sides 1 2
    around 21
    plays 'higher_neighbours: 21' "W17 linedef 4: special 18: sector 1 has 21 higher neighbours, 20 are the most, $inner" \
        SECTORS "$(sector)$(sector_as 0 0 9)$(sector_as 8 0 0)"
    plays 'higher_neighbours: of the same height, none' '' SECTORS "$(sector)$(sector_as 8 0 9)$(sector_as 8 0 0)"
    around 20
    plays 'higher_neighbours: 20, none' '' SECTORS "$(sector)$(sector_as 0 0 9)$(sector_as 8 0 0)"
    # Sector 1 lies beside sector 2, which has one linedef, and then beside sector 3.
    sides 0 0 1 2 1 3
    lines 4 37 9 4 5 4 0 0 6 7 4 0 0 8 9
    plays no_neighbour "$changed" SECTORS "$(sector)$(sector_as 8 0 9)$(sector_as 0 0 0)$(sector_as -8 0 0)"
    plays 'no_neighbour: the lowest comes first, none' '' SECTORS "$(sector)$(sector_as 8 0 9)$(sector_as -8 0 0)$(sector_as 0 0 0)"
    plays 'no_neighbour: a door from the start, none' '' SECTORS "$(sector)$(sector_as 8 14 9)$(sector_as 0 0 0)$(sector_as -8 0 0)"
    lines 4 84 9 4 5 4 0 0 6 7 4 0 0 8 9
    plays 'no_neighbour: special 84' "${changed/37/84}" SECTORS "$(sector)$(sector_as 8 0 9)$(sector_as 0 0 0)$(sector_as -8 0 0)"
    # With a second linedef of sector 2 the search goes on to the lowest.
    sides 0 0 1 2 1 3 2
    lines 4 37 9 4 5 4 0 0 6 7 4 0 0 8 9 1 0 0 10 -1
    plays 'no_neighbour: two linedefs of the other, none' '' SECTORS "$(sector)$(sector_as 8 0 9)$(sector_as 0 0 0)$(sector_as -8 0 0)"
}

cases_of_deadly_floors() {
    local special survived=''
    drawn=() sided=()
    plays deadly_floor "$(two 'W18 sector 1: special 15: a player on its floor ends the game' \
        'W18 sector 3: special -1: a player on its floor ends the game')" \
        SECTORS "$(for special in 16 15 17 -1; do sector_as 0 $special 0; done)"
    plays 'deadly_floor: 6 and 18' "$(two 'W18 sector 0: special 6: a player on its floor ends the game' \
        'W18 sector 1: special 18: a player on its floor ends the game')" SECTORS "$(sector_as 0 6 0)$(sector_as 0 18 0)"
    for special in {0..5} {7..14} 16 17; do survived+=$(sector_as 0 "$special" 0); done
    plays 'deadly_floor: the others, none' '' SECTORS "$survived" REJECT "$(times 32 '\x00')"
}

# ---- Exits and keys -------------------------------------------------------------------------------------------------

cases_of_exits() {
    local untold=notes,W1-W13,W25 none='W19 level: no exit'
    drawn=() sided=()
    plays no_exit "$none"
    sides 0 0
    lines 1 52 0 4 -1
    plays 'no_exit: special 52 in a wall' "$(two "W16 linedef 4: special 52 can't be crossed: it has no back sidedef, $inner" "$none")"
    lines 5 124 0 4 5
    plays 'no_exit: special 124 with flag 1' "$(two "W16 linedef 4: special 124 can't be crossed: it lets none through, $inner" "$none")"
    lines 4 52 0 4 5
    plays 'no_exit: special 52, none' ''
    lines 1 51 0 4 -1
    plays 'no_exit: special 51, none' ''
    drawn=() sided=()
    plays 'no_exit: a floor with special 11, none' '' SECTORS "$(sector_as 0 11 0)"
    plays 'no_exit: type 16 elsewhere' "$none" THINGS "$(placed 16 7)"
    label=E2M8
    plays 'no_exit: type 16 in E2M8, none' '' THINGS "$(placed 16 4)"
    plays 'no_exit: type 7 in E2M8' "$none" THINGS "$(placed 7 7)"
    label=E3M8
    plays 'no_exit: type 7 in E3M8, none' '' THINGS "$(placed 7 7)"
    label=MAP30
    plays 'no_exit: type 88, none' '' THINGS "$(placed 88 1)"
    plays 'no_exit: type 88 in no skill' "$(two "$none" 'W21 thing 1: appears in no skill, at (64, 64)')" THINGS "$(placed 88 8)"
    label=E1M1
}

# Linedef 4 and linedef 5 want a key, and linedef 6 ends the level.
cases_of_keys() {
    local untold=notes,W1-W13,W25 level='W19 level: 2 linedefs want a'
    sides 0 0
    lines 4 26 0 4 5 1 133 3 4 -1 1 11 0 4 -1
    plays locked "$level blue key, which isn't there in easy, medium" THINGS "$(placed 40 4 5 23)"
    plays 'locked: no key' "$level blue key, which isn't there in easy, medium, hard"
    plays 'locked: the keys of other colours' "$level blue key, which isn't there in easy, medium, hard" THINGS "$(placed 6 7 39 7 13 7 38 7)"
    plays 'locked: one of each kind, none' '' THINGS "$(placed 5 3 40 4)"
    lines 4 27 0 4 5 1 136 3 4 -1 1 11 0 4 -1
    plays 'locked: yellow' "$level yellow key, which isn't there in hard" THINGS "$(placed 6 1 39 2)"
    lines 4 33 0 4 5 1 135 3 4 -1 1 11 0 4 -1
    plays 'locked: red' "$level red key, which isn't there in medium" THINGS "$(placed 13 4 38 1)"
    lines 4 28 0 4 5 1 99 3 4 -1 1 11 0 4 -1 1 137 3 4 -1
    plays 'locked: all colours in order' "$(two "W19 level: 1 linedefs want a blue key, which isn't there in easy, medium, hard" \
        "W19 level: 1 linedefs want a yellow key, which isn't there in easy, hard" \
        "W19 level: 1 linedefs want a red key, which isn't there in easy, medium, hard")" THINGS "$(placed 6 2)"
}

# ---- Things ---------------------------------------------------------------------------------------------------------

cases_of_ending_things() {
    drawn=() sided=()
    plays ends_things 'W21 thing 1: type 64 ends the reading of things, 2 follow, at (64, 64)' THINGS "$(placed 64 7 3001 7 2001 7)"
    plays 'ends_things: the first alone' 'W21 thing 2: type 71 ends the reading of things, 1 follow, at (64, 64)' THINGS "$(placed 3001 7 71 7 69 7)"
    plays 'ends_things: types of the first game, none' '' THINGS "$(placed 63 7 70 7 72 7 83 7 85 7 87 7)"
    plays 'ends_things: in no skill, too' "$(two 'W21 thing 1: type 84 ends the reading of things, 0 follow, at (64, 64)' \
        'W21 thing 1: appears in no skill, at (64, 64)')" THINGS "$(placed 84 0)"
    for label in MAP01 E1M E1M10 E1N1 EAM1; do
        plays "ends_things: in $label, none" '' THINGS "$(placed 64 7 3001 7 2001 7)"
    done
    label=E1M1
    plays no_skill 'W21 thing 1: appears in no skill, at (64, 64)' THINGS "$(placed 2013 8)"
    plays 'no_skill: type 32000, none' '' THINGS "$(placed 32000 8)"
    plays 'no_skill: a start, none' '' THINGS "$(placed 2 0 11 0)"
}

# targets COUNT: so many targets in all skills.
targets() { times "$1" "$(words 64 64 0 87 7)"; }

cases_of_shooters() {
    local label=MAP30 shooter none='has no target (type 87)' many='has more than 32 targets'
    local ends='its shot ends the game, at (64, 64)'
    shooter=$square_start$(words 64 64 0 89 7)
    plays no_target "W21 thing 1: $none in medium: $ends" THINGS "$(placed 89 7 87 5)"
    plays 'no_target: at all' "W21 thing 1: $none in easy, medium, hard: $ends" THINGS "$shooter"
    plays 'no_target: for several players alone' "W21 thing 1: $none in easy, medium, hard: $ends" THINGS "$(placed 89 7 87 23)"
    plays 'no_target: the shooter is for several players, none' '' THINGS "$(placed 89 23)"
    plays 'no_target: the shooter is in medium alone, none' '' THINGS "$(placed 89 2 87 2)"
    plays 'many_targets: 32, none' '' THINGS "$shooter$(targets 32)"
    plays 'many_targets: one more in easy' "W21 thing 1: $many in easy: $ends" THINGS "$shooter$(targets 32)$(words 64 64 0 87 1)"
    plays 'many_targets: one more for several players, none' '' THINGS "$shooter$(targets 32)$(words 64 64 0 87 17)"
    plays 'many_targets: 33, and none in hard' "$(two "W21 thing 1: $none in hard: $ends" "W21 thing 1: $many in easy, medium: $ends")" \
        THINGS "$shooter$(times 33 "$(words 64 64 0 87 3)")"
}

# ---- Limits ---------------------------------------------------------------------------------------------------------

# scrolled COUNT: the square with so many linedefs that scroll, as its west wall.
scrolled() { drawn=(LINEDEFS "$square_walls$(times "$1" "$(words 0 1 1 48 0 0 -1)")"); }

cases_of_limits() {
    sided=()
    scrolled 65
    plays 'scrolling: 65' 'W22 level: 65 scrolling linedefs, 64 are the most'
    scrolled 64
    plays 'scrolling: 64, none' ''
    # What goes by tag 4 and by tag 5, each counted once, though two linedefs go by tag 5.
    sides 0 0
    lines 4 53 4 4 5 4 87 5 4 5 4 53 5 4 5
    plays 'perpetual: 31' 'W22 level: 31 perpetual platforms, 30 are the most' \
        SECTORS "$(sector)$(times 16 "$(sector_as 0 0 4)")$(times 15 "$(sector_as 0 0 5)")"
    plays 'perpetual: 30, none' '' SECTORS "$(sector)$(times 15 "$(sector_as 0 0 4)")$(times 15 "$(sector_as 0 0 5)")"
    drawn=() sided=()
    plays 'starts: 11' 'W22 level: 11 deathmatch starts, 10 are the most' THINGS "$square_start$(times 11 "$(words 64 64 0 11 0)")"
    plays 'starts: 10, none' '' THINGS "$square_start$(times 10 "$(words 64 64 0 11 7)")"
}

# barrels COUNT OPTIONS: things behind the start.
barrels() { printf '%s' "$square_start" && times "$1" "$(words 64 64 0 2035 "$2")"; }

cases_of_saves() {
    local text='bytes to save at its start, 180224 are the most'
    drawn=() sided=()
    plays 'long_save: 1152 barrels' "W22 level: 180281 $text" THINGS "$(barrels 1152 7)"
    plays 'long_save: 1151 barrels, none' '' THINGS "$(barrels 1151 7)"
    plays 'long_save: in hard alone' "W22 level: 180281 $text" THINGS "$(barrels 1152 4)"
    plays 'long_save: for several players, none' '' THINGS "$(barrels 1152 23)"
    plays 'long_save: behind the end of the reading, none' 'W21 thing 1: type 64 ends the reading of things, 1152 follow, at (64, 64)' \
        THINGS "$(placed 64 7)$(times 1152 "$(words 64 64 0 2035 7)")"
    # With two sectors it is 180139 bytes up to what the sectors do: a light takes 36 more, and a door 40, each from a multiple of 4 on.
    plays 'long_save: a light, none' '' THINGS "$(barrels 1151 7)" SECTORS "$(sector_as 0 1 0)"
    plays 'long_save: two lights, none' '' THINGS "$(barrels 1151 7)" SECTORS "$(sector_as 0 1 0)$(sector_as 0 12 0)"
    plays 'long_save: two doors' "W22 level: 180226 $text" THINGS "$(barrels 1151 7)" SECTORS "$(sector_as 0 10 0)$(sector_as 0 14 0)"
    plays 'long_save: a light that takes 28, and a door, none' '' THINGS "$(barrels 1151 7)" SECTORS "$(sector_as 0 8 0)$(sector_as 0 14 0)"
    plays 'long_save: three lights' "W22 level: 180270 $text" THINGS "$(barrels 1151 7)" SECTORS "$(sector_as 0 2 0)$(sector_as 0 3 0)$(sector_as 0 13 0)" \
        REJECT "$(bytes 0 0)"
}

# ---- Textures and flats ---------------------------------------------------------------------------------------------

# textured NUMBER...: a TEXTURE1 with the texture WALL, of these patches.
textured() {
    local number
    printf '%s' "$(words 1 0 8 0)" "$(name8 WALL)" "$(words 0 0 64 128 0 0 $#)"
    for number; do words 0 0 "$number" 1 0; done
}

cases_of_patches() {
    local lacks="W22 level: texture WALL lacks a patch: the game doesn't start" names behind
    names=$(words 2 0)$(name8 plank)$(name8 BRICK)
    drawn=() sided=()
    behind=(TEXTURE1 "$(textured 0 1)" PNAMES "$names" PLANK '' BRICK '')
    plays 'lacks_patch: all are there, none' ''
    behind=(TEXTURE1 "$(textured 0 1)" PNAMES "$names" PLANK '')
    plays 'lacks_patch: no entry' "$lacks"
    behind=(TEXTURE1 "$(textured 0 2)" PNAMES "$names" PLANK '' BRICK '')
    plays 'lacks_patch: not listed' "$lacks"
    behind=(TEXTURE1 "$(textured -1)" PNAMES "$names" PLANK '' BRICK '')
    plays 'lacks_patch: a number below 0' "$lacks"
    behind=(TEXTURE1 "$(textured 1)" PNAMES "$(words 1 0)$(name8 plank)$(name8 BRICK)" PLANK '' BRICK '')
    plays 'lacks_patch: behind the count of PNAMES' "$lacks"
    behind=(TEXTURE1 "$(textured 1)" PNAMES "$(words -1 32767)$(name8 plank)$(name8 BRICK)" PLANK '' BRICK '')
    plays 'lacks_patch: the greatest count, none' ''
    behind=(TEXTURE1 "$(textured 0 1)" PLANK '')
    plays 'lacks_patch: no PNAMES, none' ''
    behind=(TEXTURE2 "$(textured 0 1)" PNAMES "$names" PLANK '')
    plays 'lacks_patch: no TEXTURE1, none' ''
    behind=(TEXTURE1 "$(textured 0)" TEXTURE2 "$(textured 1)" PNAMES "$names" PLANK '')
    plays 'lacks_patch: of TEXTURE2' "$lacks"
    behind=(TEXTURE1 "$(textured 1)" TEXTURE1 "$(textured 0)" PNAMES "$names" PLANK '')
    plays 'lacks_patch: of the winner, none' ''
    behind=(TEXTURE1 "$(textured)" PNAMES "$names")
    plays 'lacks_patch: a texture without patches, none' ''
    behind=(TEXTURE1 "$(words 1 0 8 0)$(name8 WALL)$(words 0 0 64 128 0 0 2 0 0 1 1 0)" PNAMES "$names" PLANK '')
    plays 'lacks_patch: a record across the end, none' ''
    behind=(TEXTURE1 "$(words 1 0 8 0)$(name8 '')$(words 0 0 64 128 0 0 1 0 0 1 1 0)" PNAMES "$names" PLANK '')
    plays 'lacks_patch: a texture without a name' "${lacks/WALL/(empty)}"
    behind=()
}

cases_of_flat_ends() {
    local untold=notes,W1-W19 floor="W25 sector 0: floor flat FLAT1 isn't between F_START and F_END" behind bases=(--base game.wad)
    drawn=() sided=()
    behind=(F_START '' MINE '' F_END '')
    plays misplaced_flat "$(two "$floor" "${floor/floor/ceiling}")"
    plays 'misplaced_flat: the ceiling alone' "${floor/floor/ceiling}" SECTORS "$(words 0 128)$(name8 MINE)$(name8 FLAT1)$(words 160 0 0)"
    behind=(MINE '' F_END '')
    plays 'misplaced_flat: an end alone, none' ''
    behind=(F_START '' MINE '')
    plays 'misplaced_flat: a start behind the end' "$(two "$floor" "${floor/floor/ceiling}")"
    behind=(F_START '' FLAT1 '' F_END '')
    plays 'misplaced_flat: another of its name, none' ''
    behind=(FLAT1 '')
    plays 'misplaced_flat: another of its name, behind the end' "$(two "$floor" "${floor/floor/ceiling}")"
    behind=(F_END '')
    plays 'misplaced_flat: a flat that is not there, none' '' SECTORS "$(words 0 128)$(name8 OTHER)$(name8 FLAT1)$(words 160 0 0)"
    behind=() bases=()
}

# ---- Objects --------------------------------------------------------------------------------------------------------

# told_as MEMBERS: an object of square.wad.
told_as() { printf '{"file":"square.wad","level":"%s","entry":0,%s}\\n' "$label" "$1"; }

# What each kind has for its index and place.
cases_of_game_objects() {
    local label=MAP30 bases=(--base game.wad) behind=(F_START '' F_END '') place='"place":{"from":[32,32],"to":[96,32]}'
    sides 0 0
    lines 1 27 0 4 -1 1 142 0 4 -1
    level "${square[@]}" "${drawn[@]}" "${sided[@]}" THINGS "$(placed 89 7 87 7)$(times 11 "$(words 64 64 0 11 7)")" \
        SECTORS "$(sector_as 0 15 0)" >square.wad
    says 'game: objects' 0 "$(
        told_as '"code":"W14","kind":"linedef","index":5,"message":"special 142 is none of the game'"'"'s","place":{"from":[32,33],"to":[96,33]}'
        told_as '"code":"W17","kind":"linedef","index":4,"message":"special 27 without a back sidedef: its use ends the game",'"$place"
        told_as '"code":"W18","kind":"sector","index":0,"message":"special 15: a player on its floor ends the game"'
        told_as '"code":"W19","kind":"level","message":"no exit"'
        told_as '"code":"W19","more":1'
        told_as '"code":"W22","kind":"level","message":"11 deathmatch starts, 10 are the most"'
        told_as '"code":"W25","kind":"sector","index":0,"message":"floor flat FLAT1 isn'"'"'t between F_START and F_END"'
        told_as '"code":"W25","more":1'
        printf '{"levels":1,"files":1,"faults":0,"notes":0,"warnings":8,"not_judged":0}\\n'
    )" '' check --json --map --max 1 --ignore W1-W13 "${bases[@]}" square.wad
    level "${square[@]}" THINGS "$(placed 89 7)" >square.wad
    says 'game: an object of a thing' 0 "$(
        told_as '"code":"W21","kind":"thing","index":1,"message":"has no target (type 87) in easy, medium, hard: its shot ends the game","place":{"at":[64,64]}'
        printf '{"levels":1,"files":1,"faults":0,"notes":0,"warnings":1,"not_judged":0}\\n'
    )" '' check --json --map --ignore notes,W1-W19,W22-W25 square.wad
}

# ---- What fails -----------------------------------------------------------------------------------------------------

# ends_with_game NAME STATUS CODES [LUMP BYTES]...: what `check --fail game` ends with at the square with these lumps and with what `lines` and
# `sides` drew, of which these codes alone are told.
ends_with_game() {
    level "${square[@]}" "${drawn[@]}" "${sided[@]}" "${@:4}" >square.wad
    run_on '' survey --map --ignore "$untold" "${bases[@]}" square.wad
    sed 's/.*"warnings":{\([^}]*\)}.*/\1/; s/:[0-9]*//g; s/"//g' output >codes
    says "fail: $1" "$2" '' '' check --quiet --map --fail game --ignore "$untold" "${bases[@]}" square.wad
    mv codes output
    printf 0 >status
    judge "fail: $1: its codes" 0 "$3\\n" ''
}

# W17, W18 and W22 end the game, but for W22's deathmatch starts.
cases_of_ended_game() {
    local label=MAP30 drawn=() sided=() behind=() bases=() many untold=notes,W1-W13,W19,W25
    sides 0 0
    many=$(sector)$(times 31 "$(sector_as 0 0 5)")
    lines 1 142 0 4 -1
    ends_with_game 'an unknown special' 0 W14
    lines 1 23 0 4 -1
    ends_with_game 'tag 0' 0 W15
    lines 5 36 5 4 5
    ends_with_game 'what is never crossed' 0 W16
    lines 1 41 5 4 -1
    ends_with_game 'a ceiling too many' 1 W17 SECTORS "$many"
    lines 1 9 5 4 -1
    ends_with_game 'a donut' 1 W17 SECTORS "$(sector)$(sector_as 0 0 5)"
    drawn=()
    ends_with_game 'a floor' 1 W18 SECTORS "$(sector_as 0 15 0)"
    ends_with_game 'a shooter without a target' 0 W21 THINGS "$(placed 89 7)"
    ends_with_game 'a deathmatch start too many' 0 W22 THINGS "$square_start$(times 11 "$(words 64 64 0 11 7)")"
    ends_with_game 'a long savegame' 1 W22 THINGS "$(barrels 1152 7)"
    ends_with_game 'a long savegame, and a deathmatch start too many' 1 W22 THINGS "$(barrels 1152 7)$(times 11 "$(words 64 64 0 11 7)")"
    lines 4 53 4 4 5 4 87 5 4 5
    ends_with_game 'a perpetual platform too many' 1 W22 SECTORS "$(sector)$(times 16 "$(sector_as 0 0 4)")$(times 15 "$(sector_as 0 0 5)")"
    drawn=()
    behind=(TEXTURE1 "$(textured 0)" PNAMES "$(words 1 0)$(name8 PLANK)")
    ends_with_game 'a patch that lacks' 1 W22
    behind=() untold=notes,W1-W18,W20-W25
    ends_with_game 'no exit' 0 W19
    untold=notes,W1-W24 behind=(FLAT1 '' F_START '' F_END '')
    ends_with_game 'a flat before F_START' 0 W25
}
