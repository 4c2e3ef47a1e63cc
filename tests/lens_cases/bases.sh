# Cases of codes that are ignored or fail, of base files, and of warnings that aren't looked for, which tests/wadlens runs.
# shellcheck shell=bash disable=SC2034,SC2154  # what tests/wadlens sets and reads

# found FAULTS NOTES: the totals of one level in one file.
found() { printf '1 levels in 1 files: %s faults, %s notes, 0 not judged\\n' "$@"; }

# warned WARNINGS [LEVELS]: the totals with --map of one level without findings, in so many levels of which some warnings weren't looked
# for; warned_of_two: of two such levels in two files. in_part WARNINGS: of one level that wasn't looked at for all.
partly() { [[ -z ${1-} ]] || printf ', %s with warnings not looked for' "$1"; }
warned() { printf '1 levels in 1 files: 0 faults, 0 notes, %s warnings, 0 not judged%s\\n' "$1" "$(partly "${2-}")"; }
warned_of_two() { printf '2 levels in 2 files: 0 faults, 0 notes, %s warnings, 0 not judged%s\\n' "$1" "$(partly "${2-}")"; }
in_part() { warned "$1" 1; }

# told_in PATH LINE...: the lines of the level E1M1.
told_in() {
    local line
    for line in "${@:2}"; do printf '%s: E1M1: %s\\n' "$1" "$line"; done
}

# The wads that these cases use. room.wad has a closed room, whose walls are WALL and whose flats are FLAT1: nothing but W9, W10 and
# W25 can be told of it.
level "${closed[@]}" >room.wad
pack TEXTURE1 "$(textures WALL)" F_START '' FLAT1 '' F_END '' >game.wad
pack TEXTURE1 "$(textures DOOR)" F_START '' FLAT2 '' F_END '' >doors.wad
pack TEXTURE1 "$(textures DOOR)" TEXTURE2 "$(textures WALL)" >second.wad
pack F_START '' FLAT1 '' F_END '' >flats.wad
pack F_START '' FLAT1 '' >endless.wad
behind=(TEXTURE1 "$(textures DOOR)")
level "${closed[@]}" >walled.wad
behind=(TEXTURE1 "$(textures WALL)" F_START '' FLAT1 '' F_END '')
level "${closed[@]}" >whole.wad
behind=(F_START '' FLAT1 '' F_END '')
level "${closed[@]}" SECTORS "$(sector_of 0 128 FLAT2)" THINGS "$starts$(words 32 32 0 90 7)" >stranger.wad
behind=()

level "${closed[@]}" LINEDEFS "$(words 0 1 1 26 0 0 -1 1 2 1 0 0 1 -1 2 3 1 11 0 2 -1 3 0 1 0 0 3 -1)" >doored.wad
level "${closed[@]}" SECTORS "$(words 0 128)$(name8 FLAT1)$(name8 FLAT1)$(words 160 6 0)" >deadly.wad
crowd=$starts$(for _ in {1..7}; do words 32 32 0 11 7; done)
scrolling=$(for _ in {1..65}; do words 3 0 1 48 0 3 -1; done)
level "${closed[@]}" LINEDEFS "$walls$scrolling" >scrolling.wad
level "${closed[@]}" THINGS "$crowd" >crowded.wad
level "${closed[@]}" THINGS "$crowd" LINEDEFS "$walls$scrolling" >both.wad

# What is told of stranger.wad.
no_flat2="W10 sector 0: ceiling flat FLAT2 isn't there" strange="W11 thing 8: type 90 is none of the game's, at (32, 32)"

# ---- Codes that are ignored -----------------------------------------------------------------------------------------

cases_of_ignore() {
    local fault="F9 seg 1: linedef 0 has no sidedef on side 1, from (0, 64) to (0, 0)"
    local outside='N12 vertex 2: (16384, 0) is outside -16384 to 16383'
    says 'a note that is ignored' 1 "$(told_in faulty.wad "$fault")$(found 1 0)" '' check --ignore N3 faulty.wad
    says 'a note that is ignored, surveyed' 1 \
        '{"file":"faulty.wad","level":"E1M1","entry":0,"format":"doom",'"$counts"',"sound":false,"faults":1,"notes":0,"findings":{"F9":1}}\n' \
        '' survey --ignore=N3 faulty.wad
    says 'a note that is ignored, as objects' 1 "$(
        told_of faulty.wad E1M1 '"code":"F9","kind":"seg","index":1,"message":"linedef 0 has no sidedef on side 1","place":{"from":[0,64],"to":[0,0]}'
        totals_of 1 1 1 0 0
    )" '' check faulty.wad --json --ignore N3
    says 'other notes are told' 1 "$faults_of_faulty$(found 1 1)" '' check --ignore N2,N4,N11 faulty.wad
    level THINGS '' VERTEXES "$(words 0 0 0 64 16384 0)" LINEDEFS "${own[LINEDEFS]}$(words 1 1 1 0 0 0 -1 1 1 1 0 0 0 -1)" >noted.wad
    says 'N1 is neither N11 nor N12' 0 \
        "$(told_in noted.wad 'N5 linedef 1: without length, from (0, 64) to (0, 64)' 'N5: 1 more' 'N11 level: no player 1 start' "$outside")$(found 0 4)" \
        '' check --max 1 --ignore N1 noted.wad
    says 'what --max leaves out is ignored, too' 0 "$(told_in noted.wad 'N11 level: no player 1 start' "$outside")$(found 0 2)" '' \
        check --max 1 --ignore N5 noted.wad
    says 'several notes, one of them twice' 0 "$(found 0 0)" '' check --ignore N11,N5 --ignore N12,N5 noted.wad
    says 'in an object the others stay' 0 '{"file":"noted.wad","level":"E1M1","entry":0,"format":"doom",'"$(
        sed 's/"linedefs":1/"linedefs":3/; s/"vertexes":2/"vertexes":3/; s/"things":1/"things":0/' <<<"$counts"
    )"',"sound":true,"faults":0,"notes":3,"findings":{"N5":2,"N12":1}}\n' '' survey --ignore N11 noted.wad
    says 'a level that is not judged stays' 2 'udmf.wad: MAP03: udmf: not read\n1 levels in 1 files: 0 faults, 0 notes, 1 not judged\n' '' \
        check --ignore N1,N2,N3 udmf.wad
    cases_of_ignored_warnings
    cases_of_ignored_words
}

# The sample has W1 four times, W7, W8 and W19.
cases_of_ignored_warnings() {
    local seven='W7 level: no player 2 start' eight='W8 level: 0 deathmatch starts' none='W19 level: no exit' all outside='N12 vertex 2: (16384, 0) is outside -16384 to 16383'
    says 'a warning that is ignored, without --map' 1 "$faults_of_faulty$(found 1 1)" '' check --ignore W7 faulty.wad
    says 'a warning that is ignored' 0 "$(told_in base.wad "$seven" "$eight" "$none")$(in_part 3)" "$neither" check --map --ignore W1 base.wad
    says 'of a warning, what --max leaves out' 0 "$(told_in base.wad "$seven" "$eight" "$none")$(in_part 3)" "$neither" \
        check --map --max 2 --ignore W1 base.wad
    says 'one is left, strictly' 1 "$(told_in base.wad "$eight")$(in_part 1)" "$neither" check --map --strict --ignore W7,W1,W19 base.wad
    says 'none is left, strictly' 0 "$(in_part 0)" "$neither" check --ignore W1 --map --ignore W7,W1 --strict --ignore=W8,W19 base.wad
    says 'none is left, surveyed strictly' 0 \
        '{"file":"base.wad","level":"E1M1","entry":0,"format":"doom",'"$counts"',"sound":true,"faults":0,"notes":0,"findings":{},"warnings":{},"unlooked":["W9","W10","W25"]}\n' \
        '' survey --map --strict --ignore W1,W7,W8,W19 base.wad
    says 'none is left, quietly' 0 '' "$neither" check --quiet --map --strict --ignore W1,W7,W8,W19 base.wad
    says 'W1 is neither W10 nor W11' 0 "$(told_in stranger.wad "$no_flat2" "$strange")$(in_part 2)" "$no_textures" \
        check --map --ignore W1 stranger.wad
    all=$(printf ',N%s' {1..12})$(printf ',W%s' {1..25})
    says 'all codes' 0 "$(warned 0)" '' check --map --strict --ignore "${all#,}" noted.wad
    says 'all codes, as objects' 0 '{"levels":1,"files":1,"faults":0,"notes":0,"warnings":0,"not_judged":0}\n' '' \
        check --json --map --strict --ignore "${all#,}" noted.wad
    says 'a range that is ignored' 0 "$(told_in noted.wad 'N11 level: no player 1 start')$(found 0 1)" '' check --ignore N2-N5,N12-N12 noted.wad
    says 'codes in small letters' 0 "$(told_in noted.wad "$outside")$(found 0 1)" '' check --ignore n5,n11-N11 noted.wad
    says 'all notes, by their name' 0 "$(found 0 0)" '' check --ignore notes noted.wad
    says 'all warnings, by their name' 0 "$(warned 0)" '' check --map --ignore Warnings base.wad
    says 'what ends the game' 0 "$(told_in noted.wad 'N5 linedef 1: without length, from (0, 64) to (0, 64)' 'N5: 1 more' "$outside")$(found 0 3)" '' \
        check --max 1 --ignore game noted.wad
    says 'all codes, of a fault' 1 "$(told_in faulty.wad "F9 seg 1: linedef 0 has no sidedef on side 1, from (0, 64) to (0, 0)")$(found 1 0)" \
        '' check --ignore "${all#,}" faulty.wad
}

cases_of_ignored_words() {
    local codes command
    for codes in F3 F18 N0 N13 W0 W26 N02 N 2 X1 '' ',' 'N2,' ',W7' 'N2,,W7' 'N2, W7' 'N2,F3,W7' \
        N9-N2 N12-W1 N2- -N2 N2-N3-N4 F3-F9 F18-N2 'N2 -N3' faults gam; do
        mistaken "--ignore '$codes'" 'Usage: wadlens check' check "--ignore=$codes" base.wad
    done
    mistaken '--ignore of an empty list, with =' 'Usage: wadlens check' check --ignore= base.wad
    mistaken '--ignore: the second list is wrong' 'Usage: wadlens check' check --ignore N2 --ignore W26 base.wad
    mistaken '--ignore of a survey: an unknown code' 'Usage: wadlens survey' survey --ignore W26 base.wad
    mistaken '--ignore without codes' '--ignore' check base.wad --ignore
    for command in demos 'cut --entry 0'; do
        # shellcheck disable=SC2086  # words
        mistaken "--ignore of $command" "unexpected argument '--ignore'" $command --ignore N2 base.wad
    done
}

# ---- Codes that fail ------------------------------------------------------------------------------------------------

# ends_quietly NAME STATUS ERROR WORD...: a check that writes nothing to standard output ends so.
ends_quietly() { says "fail: $1" "$2" '' "$3" check --quiet "${@:4}"; }

# noted.wad has N5 twice, N11 and N12; frontless.wad has N4.
cases_of_fail() {
    level THINGS '' VERTEXES "$(words 0 0 0 64 16384 0)" LINEDEFS "${own[LINEDEFS]}$(words 1 1 1 0 0 0 -1 1 1 1 0 0 0 -1)" >noted.wad
    level LINEDEFS "${own[LINEDEFS]}$(words 0 1 1 0 0 -1 -1)" >frontless.wad
    local four='N4 linedef 1: without a front sidedef, from (0, 0) to (0, 64)'
    says 'fail: the same lines' 1 "$(told_in frontless.wad "$four")$(found 0 1)" '' check --fail N4 frontless.wad
    says 'fail: the same lines, of another code' 0 "$(told_in frontless.wad "$four")$(found 0 1)" '' check --fail N5 frontless.wad
    ends_quietly 'a note' 1 '' --fail N12 noted.wad
    ends_quietly 'other notes' 0 '' --fail N1-N4,N6-N10 noted.wad
    ends_quietly 'in small letters' 1 '' --fail=n12 noted.wad
    ends_quietly 'a range has its first code' 1 '' --fail N5-N6 noted.wad
    ends_quietly 'a range has its last code' 1 '' --fail N10-n11 noted.wad
    ends_quietly 'a range of one code' 1 '' --fail N12-N12 noted.wad
    ends_quietly 'several lists' 1 '' --fail N1 --fail N2,N12 noted.wad
    ends_quietly 'what --max leaves out' 1 '' --max 1 --fail N5 noted.wad
    ends_quietly 'all notes' 1 '' --fail notes noted.wad
    ends_quietly 'all notes, of a level without' 0 '' --fail NOTES room.wad
    ends_quietly 'a level that is not judged' 2 '' --fail notes udmf.wad
    ends_quietly '1 goes before 2' 1 '' --fail N12 udmf.wad noted.wad
    ends_quietly '1 goes before 2, the other way round' 1 '' --fail N12 noted.wad udmf.wad
    ends_quietly 'beside a fault' 1 '' --fail N1 faulty.wad
    cases_of_failing_warnings
    cases_of_failing_and_ignored
    cases_of_failing_words
    says 'fail: surveyed' 1 '{"file":"frontless.wad","level":"E1M1","entry":0,"format":"doom",'"${counts/\"linedefs\":1/\"linedefs\":2}"',"sound":true,"faults":0,"notes":1,"findings":{"N4":1}}\n' \
        '' survey --fail N4 frontless.wad
    into_new 'atlas: a note that fails' 1 '' '1-0.svg index.html survey.jsonl' --fail N4 frontless.wad
    shows 'atlas: .. on its page' index.html '<li class="faulty">' $'<ul class="found">\n<li class="note">N4 &times; 1</li>\n</ul>'
    lacks 'atlas: .. and it is not called sound' index.html '<li class="sound">'
    rm -rf atlas
    into_new 'atlas: a note that is ignored' 0 '' '1-0.svg index.html survey.jsonl' --fail N5 --ignore N4 frontless.wad
    has 'atlas: .. in its survey' survey.jsonl '{"file":"frontless.wad","level":"E1M1","entry":0,"format":"doom",'"${counts/\"linedefs\":1/\"linedefs\":2}"',"sound":true,"faults":0,"notes":0,"findings":{}}\n'
    shows 'atlas: .. and it is called sound' index.html $'<ul class="found">\n<li class="sound">sound</li>\n</ul>'
    rm -rf atlas
}

# The sample has W1 four times, W7, W8 and W19; stranger.wad has W10 and W11, and with doors.wad W9 besides.
cases_of_failing_warnings() {
    ends_quietly 'a warning' 1 "$neither" --map --fail W7 base.wad
    ends_quietly 'other warnings' 0 "$neither" --map --fail W2-W6 base.wad
    ends_quietly 'all warnings' 1 "$neither" --map --fail warnings base.wad
    ends_quietly 'all warnings, of a level without' 0 '' --map --fail warnings --base game.wad room.wad
    ends_quietly 'with --strict' 1 "$neither" --map --strict --fail N1 base.wad
    ends_quietly 'game: no player 1 start' 1 "$neither" --map --fail game noted.wad
    ends_quietly 'game: no front sidedef' 1 "$neither" --map --fail game frontless.wad
    ends_quietly 'game: a texture' 1 '' --map --fail Game --base game.wad --base doors.wad room.wad
    ends_quietly 'game: a flat' 1 '' --map --fail game --base second.wad --base game.wad --ignore W9,W11 stranger.wad
    ends_quietly 'game: a thing' 1 '' --map --fail game --base second.wad --base game.wad --ignore W9-W10 stranger.wad
    ends_quietly 'game: a door in a wall' 1 "$neither" --map --fail game doored.wad
    ends_quietly 'game: a floor that ends it' 1 "$neither" --map --fail game deadly.wad
    ends_quietly 'game: too many scrolling linedefs' 1 "$neither" --map --fail game scrolling.wad
    ends_quietly 'game: deathmatch starts that are too many end nothing' 0 "$neither" --map --fail game crowded.wad
    ends_quietly 'W22, of such starts' 1 "$neither" --map --fail W22 crowded.wad
    ends_quietly 'game: such starts, and too many scrolling linedefs' 1 "$neither" --map --fail game both.wad
    ends_quietly 'game: what ends it is ignored' 0 "$neither" --map --fail game --ignore W22 both.wad
    ends_quietly 'game: nothing of it' 0 "$neither" --map --fail game base.wad
    ends_quietly 'game: nothing of it, with notes' 0 "$neither" --map --fail game --ignore N11 noted.wad
}

cases_of_failing_and_ignored() {
    ends_quietly 'all that fails is ignored' 0 '' --fail notes --ignore N5,N11-N12 noted.wad
    ends_quietly 'one is left' 1 '' --fail notes --ignore N5,N11 noted.wad
    ends_quietly 'a code whose class is ignored' 0 '' --fail N11 --ignore notes noted.wad
    ends_quietly 'a code that ends the game, and is ignored so' 0 '' --map --fail N11 --ignore game,W25 noted.wad
    ends_quietly 'a fault stays' 1 '' --fail N1 --ignore notes faulty.wad
}

cases_of_failing_words() {
    local codes command
    for codes in F3 N0 W26 N 2 '' ',' 'N2,' N9-N2 N12-W1 F18-N2 faults; do
        mistaken "--fail '$codes'" '--fail wants notes and warnings' check --map "--fail=$codes" base.wad
    done
    for codes in W7 game warnings N2,w9-w11 Game; do
        mistaken "--fail $codes without --map" '--fail wants --map for a warning' check --fail "$codes" base.wad
    done
    mistaken '--fail of a code that is ignored' '--fail and --ignore name the same code' check --fail N2 --ignore N2 base.wad
    mistaken '--fail of a range that is ignored in part' '--fail and --ignore name the same code' survey --ignore n3 --fail N2-N4 base.wad
    mistaken '--fail of a warning that is ignored' '--fail and --ignore name the same code' \
        atlas --out atlas --map --fail notes,W7 --ignore game,W6-W8 base.wad
    mistaken '--fail without codes' '--fail' check base.wad --fail
    for command in demos 'picture E1M1' 'cut --entry 0'; do
        # shellcheck disable=SC2086  # words
        mistaken "--fail of $command" "unexpected argument '--fail'" $command --fail N2 base.wad
    done
    for command in check survey atlas; do
        tells "--help of $command has --fail" '--fail <CODES>' "$command" --help
        tells "--help of $command has --ignore" '--ignore <CODES>' "$command" --help
    done
}

# ---- Base files -----------------------------------------------------------------------------------------------------

# walls_of PATH: what is told of the room where no texture is WALL; floors_of PATH: where no flat is FLAT1.
walls_of() {
    local i
    for i in 0 1 2 3; do told_in "$1" "W9 sidedef $i: middle texture WALL isn't there, of linedef $i"; done
}

floors_of() { told_in "$1" "W10 sector 0: floor flat FLAT1 isn't there" "W10 sector 0: ceiling flat FLAT1 isn't there"; }

# beside_ends_of PATH: where FLAT1 isn't between the last F_START and F_END.
beside_ends_of() {
    told_in "$1" "W25 sector 0: floor flat FLAT1 isn't between F_START and F_END" "W25 sector 0: ceiling flat FLAT1 isn't between F_START and F_END"
}

# room_of PATH MEMBERS: the object of the closed room, behind its findings.
room_of() {
    printf '{"file":"%s","level":"E1M1","entry":0,"format":"doom","things":8,"linedefs":4,"sidedefs":4,"vertexes":4,"segs":4,"ssectors":1' "$1"
    printf ',"nodes":0,"sectors":1,"reject":1,"blockmap":16,"sound":true,"faults":0,"notes":0,"findings":{},%s}\\n' "$2"
}

cases_of_bases() {
    says 'a base: its textures and its flats' 0 "$(warned 0)" '' check --map --base game.wad room.wad
    says 'a base: surveyed' 0 "$(room_of room.wad '"warnings":{}')" '' survey --map --base game.wad room.wad
    says 'a base: others than those of the level' 0 "$(walls_of room.wad)$(floors_of room.wad)$(warned 6)" '' check room.wad --map --base=doors.wad
    says 'a base: strictly' 1 "$(walls_of room.wad)$(floors_of room.wad)$(warned 6)" '' check --strict --base doors.wad --map room.wad
    says 'a base: others, surveyed' 0 "$(room_of room.wad '"warnings":{"W9":4,"W10":2}')" '' survey --map --base doors.wad room.wad
    says 'a base: the TEXTURE1 of the file wins' 0 "$(walls_of walled.wad)$(warned 4)" '' check --map --base game.wad walled.wad
    says 'a base: its TEXTURE2' 0 "$(warned 0)" '' check --map --base flats.wad --base second.wad room.wad
    says 'a base: its TEXTURE2, beside the TEXTURE1 of the file' 0 "$(in_part 0)" "$no_flats" check --map --base second.wad walled.wad
    says 'a base: a flat of it, which isn'"'"'t between the ends of the file, and one of the file' 0 \
        "$(told_in stranger.wad "$strange" "W25 sector 0: ceiling flat FLAT2 isn't between F_START and F_END")$(warned 2)" '' \
        check --map --ignore W9 --base doors.wad stranger.wad
    says 'a base: flats alone' 0 "$(in_part 0)" "$no_textures" check --map --base flats.wad room.wad
    says 'a base: a file without entries' 0 "$(in_part 0)" "$neither" check --map --base empty.wad room.wad
    says 'two bases: the later one wins' 0 "$(walls_of room.wad)$(beside_ends_of room.wad)$(warned 6)" '' check --map --base game.wad --base doors.wad room.wad
    says 'two bases: the other way round' 0 "$(warned 0)" '' check --map --base doors.wad --base game.wad room.wad
    says 'two files: each stands on the base alone' 0 \
        "$(walls_of walled.wad)$(warned_of_two 4)" '' check --map --base game.wad walled.wad room.wad
    says 'the totals do not count a base' 0 "$(warned 0)" '' check --map --base whole.wad --base game.wad room.wad
    says 'progress does not count it either' 0 "$(warned 0)" '\r1 files, 1 levels\n' check --progress --map --base whole.wad room.wad
    says 'a base is a file, too' 0 "$(warned_of_two 0)" '' check --map --base whole.wad whole.wad room.wad
    says 'a base from a pipe' 0 "$(warned 0)" '' check --map --base <(cat game.wad) room.wad
    says_on 'a base, and a list' 'room.wad\n' 0 "$(warned 0)" '' check --map --files-from - --base game.wad
    cases_of_many_bases
    cases_of_refused_bases
    cases_of_atlas_bases
}

cases_of_many_bases() {
    local bases=() i command
    for ((i = 0; i < 63; i++)); do bases+=(--base flats.wad); done
    says '63 bases' 0 "$(in_part 0)" "$no_textures" check --map "${bases[@]}" room.wad
    says '63 bases: the last counts' 0 "$(warned 0)" '' check --map "${bases[@]:2}" --base game.wad room.wad
    mistaken '64 bases' 'Usage: wadlens check' check --map "${bases[@]}" --base game.wad room.wad
    mistaken '64 bases of a survey' 'Usage: wadlens survey' survey --map "${bases[@]}" --base game.wad room.wad
    mistaken '--base without --map' '--map' check --base game.wad room.wad
    mistaken '--base without --map, of a survey' '--map' survey --base game.wad room.wad
    mistaken '--base without a file' '--base' check --map room.wad --base
    for command in demos 'picture E1M1' 'cut --entry 0'; do
        # shellcheck disable=SC2086  # words
        mistaken "--base of $command" "unexpected argument '--base'" $command --base game.wad room.wad
    done
    for command in check survey atlas; do tells "--help of $command has --base" '--base <FILE>' "$command" --help; done
}

# A base that is refused ends the run before any file is read.
cases_of_refused_bases() {
    local kind text memory=''
    while read -r kind text; do
        says "a refused base: $kind" 2 '' "$(told "$kind" "$text")" check --map --base "$kind" faulty.wad
        says "a refused base of a survey: $kind" 2 '' "$(told "$kind" "$text")" survey --map --base "$kind" faulty.wad
    done <<<"$refusals"
    says 'a refused base, as objects' 2 '' "$(told no.wad "$missing")" check --json --map --base no.wad faulty.wad
    says 'a refused base, quietly' 2 '' "$(told no.wad "$missing")" check --quiet --map --strict --base no.wad faulty.wad
    says 'a refused base, before a refused file' 2 '' "$(told no.wad "$missing")" check --map --base no.wad none.wad
    says 'a refused base, behind one that is taken' 2 '' "$(told magic.wad 'not a WAD file: it begins with neither IWAD nor PWAD')" \
        survey --map --base game.wad --base magic.wad room.wad
    says 'two refused bases: a directory is judged before the next is read' 2 '' "$(told cut.wad "its directory isn't inside the file")" \
        check --map --base cut.wad --base no.wad room.wad
    says 'two refused bases, the other way round' 2 '' "$(told no.wad "$missing")" check --map --base no.wad --base cut.wad room.wad
    says 'a refused base, behind the list' 2 '' "$(told no.list "$missing")" check --map --base no.wad --files-from no.list room.wad
    says_on 'a refused base, and an empty list' '' 2 '' "$(told no.wad "$missing")" check --map --base no.wad --files-from -
    says 'a refused base with controls in its path' 2 '' "$(told 'no\\x0a' "$missing")" check --map --base $'no\n' room.wad
    cp empty.wad most.wad
    truncate -s 268435456 most.wad
    says 'a base of as many bytes as there may be' 0 "$(in_part 0)" "$neither" check --map --base most.wad room.wad
    memory=200000
    says 'no memory for a base' 3 '' 'wadlens: no memory left\n' check --map --base most.wad faulty.wad
    rm most.wad
}

# not_filled NAME: nothing stands in the folder, where it is there.
not_filled() {
    ls -A atlas >output 2>/dev/null
    : >error
    printf 0 >status
    judge "$1" 0 '' ''
}

cases_of_atlas_bases() {
    into_new 'atlas: a base' 0 '' '1-0.svg index.html survey.jsonl' --map --base game.wad room.wad
    has 'atlas: .. its survey' survey.jsonl "$(room_of room.wad '"warnings":{}')"
    shows 'atlas: .. its page' index.html '1 levels in 1 files' '<b>0</b> warnings' '<li class="sound">'
    into_new 'atlas: a base, strictly' 1 '' '1-0.svg index.html survey.jsonl' --map --strict --base doors.wad room.wad
    has 'atlas: .. its survey, strictly' survey.jsonl "$(room_of room.wad '"warnings":{"W9":4,"W10":2}')"
    shows 'atlas: .. its page, strictly' index.html '<b>6</b> warnings' '<li class="warning">W9 &times; 4</li>' '<li class="warning">W10 &times; 2</li>'
    rm -rf atlas
    says 'atlas: a refused base' 2 '' "$(told no.wad "$missing")" atlas --out atlas --map --base game.wad --base no.wad room.wad none.wad
    not_filled 'atlas: .. leaves nothing'
    rm -rf atlas
    says 'atlas: a refused base, behind the list' 2 '' "$(told no.list "$missing")" atlas --out atlas --map --base no.wad --files-from no.list room.wad
    no_folder 'atlas: .. makes no folder'
    mkdir atlas
    : >atlas/own
    says 'atlas: a refused base, behind the folder' 2 '' "$(told atlas "it isn't empty")" atlas --out atlas --map --base no.wad room.wad
    mistaken 'atlas: --base without --map' '--map' atlas --out atlas --base game.wad room.wad
    rm -r atlas
}

# ---- Warnings that aren't looked for --------------------------------------------------------------------------------

# ended WARNINGS MEMBERS: the last object of a check with --map of one level without findings, and what follows in it.
ended() { printf '{"levels":1,"files":1,"faults":0,"notes":0,"warnings":%s,"not_judged":0%s}\\n' "$1" "$2"; }

# note_of LINE: what the page of an atlas says for such a line on standard error.
note_of() {
    local note=${1#wadlens: }
    printf '%s' "${note%'\n'}"
}

cases_of_unlooked() {
    local behind
    says 'neither textures nor flats' 0 "$(in_part 0)" "$neither" check --map room.wad
    says 'neither, strictly' 0 "$(in_part 0)" "$neither" check --map --strict room.wad
    says 'neither, quietly' 0 '' "$neither" check --map --quiet room.wad
    says 'neither, as objects' 0 "$(ended 0 ',"unlooked_levels":1,"unlooked":["W9","W10","W25"]')" "$neither" check --map --json room.wad
    says 'neither, surveyed' 0 "$(room_of room.wad '"warnings":{},"unlooked":["W9","W10","W25"]')" '' survey --map room.wad
    says 'no textures' 0 "$(told_in stranger.wad "$no_flat2" "$strange")$(in_part 2)" "$no_textures" check --map stranger.wad
    says 'no textures, surveyed' 0 "$(room_of stranger.wad '"warnings":{"W10":1,"W11":1},"unlooked":["W9"]' | sed 's/"things":8/"things":9/')" '' \
        survey --map stranger.wad
    says 'no flats' 0 "$(walls_of walled.wad)$(in_part 4)" "$no_flats" check --map walled.wad
    says 'no flats, quietly' 0 '' "$no_flats" check --quiet --map walled.wad
    says 'no flats, as objects' 0 "$(
        told_of walled.wad E1M1 '"code":"W9","kind":"sidedef","index":0,"message":"middle texture WALL isn'\''t there","place":{"linedef":0}'
        told_of walled.wad E1M1 '"code":"W9","more":3'
        ended 4 ',"unlooked_levels":1,"unlooked":["W10","W25"]'
    )" "$no_flats" check --json --max 1 --map walled.wad
    says 'both are there' 0 "$(warned 0)" '' check --map whole.wad
    says 'both are there, as objects' 0 "$(ended 0 '')" '' check --map --json whole.wad
    says 'both are there, surveyed' 0 "$(room_of whole.wad '"warnings":{}')" '' survey --map whole.wad
    says 'warnings are not asked for' 0 "$(found 0 0)" '' check room.wad
    says 'warnings are not asked for, as objects' 0 "$(totals_of 1 1 0 0 0)" '' check --json room.wad
    cases_of_refused_textures
    cases_of_unlooked_levels
    cases_of_silencing_faults
    cases_of_unlooked_and_ignored
    into_new 'atlas: neither textures nor flats' 0 '' '1-0.svg index.html survey.jsonl' --map room.wad
    has 'atlas: .. in its survey' survey.jsonl "$(room_of room.wad '"warnings":{},"unlooked":["W9","W10","W25"]')"
    shows 'atlas: .. on its page' index.html "<p class=\"unlooked\">$(note_of "$neither")</p>"
    rm -rf atlas
    into_new 'atlas: no textures' 0 '' '1-0.svg index.html survey.jsonl' --map stranger.wad
    shows 'atlas: .. on its page' index.html "<p class=\"unlooked\">$(note_of "$no_textures")</p>"
    rm -rf atlas
    into_new 'atlas: both are there' 0 '' '1-0.svg index.html survey.jsonl' --map whole.wad
    lacks 'atlas: .. on its page' index.html '<p class="unlooked">'
    rm -rf atlas
}

# A lump of TEXTURE1 that isn't in its file, the winner of the set.
cases_of_refused_textures() {
    local behind=(TEXTURE1 "$(textures WALL)" F_START '' FLAT1 '' F_END '')
    level "${closed[@]}" >format.wad
    entry_outside 11
    says 'TEXTURE1 is refused' 0 "$(in_part 0)" "$no_textures" check --map format.wad
    says 'TEXTURE1 is refused, and hides that of a base' 0 "$(room_of format.wad '"warnings":{},"unlooked":["W9"]')" '' \
        survey --map --base game.wad format.wad
    behind=(TEXTURE1 "$(textures WALL)" TEXTURE2 "$(textures DOOR)" F_START '' FLAT1 '' F_END '')
    level "${closed[@]}" >format.wad
    entry_outside 12
    says 'TEXTURE2 is refused, and lists nothing' 0 "$(warned 0)" '' check --map format.wad
    behind=(F_START '\x01' FLAT1 '' F_END '')
    level "${closed[@]}" >format.wad
    entry_outside 11
    says 'F_START is an entry, whatever its lump' 0 "$(in_part 0)" "$no_textures" check --map format.wad
}

cases_of_unlooked_levels() {
    says 'two levels: once' 0 "$(warned_of_two 0 2)" "$neither" check --map room.wad ./room.wad
    says 'two levels: one of them' 0 "$(warned_of_two 0 1)" "$neither" check --map room.wad whole.wad
    says 'two levels: each something else' 0 "$(walls_of walled.wad)$(told_in stranger.wad "$no_flat2" "$strange")$(warned_of_two 6 2)" \
        "$neither" check --map walled.wad stranger.wad
    says 'a level with a fault that warnings are not looked for in' 1 \
        "$faults_of_faulty$unlooked_in_faulty" "$no_textures" check --map --base flats.wad faulty.wad
    says 'a level with such a fault, surveyed' 1 \
        '{"file":"faulty.wad","level":"E1M1","entry":0,"format":"doom",'"$counts"',"sound":false,"faults":1,"notes":1,"findings":{"F9":1,"N3":1},"warnings":{},"unlooked":['"$(unlooked_names)"']}\n' \
        '' survey --map --base flats.wad faulty.wad
    says 'a level that is not judged' 2 'udmf.wad: MAP03: udmf: not read\n1 levels in 1 files: 0 faults, 0 notes, 0 warnings, 1 not judged\n' '' \
        check --map udmf.wad
    says 'a level that is not judged, surveyed' 2 '{"file":"udmf.wad","level":"MAP03","entry":0,"format":"udmf"}\n' '' survey --map udmf.wad
    says 'no level' 0 '{"levels":0,"files":1,"faults":0,"notes":0,"warnings":0,"not_judged":0}\n' '' check --json --map empty.wad
    says 'a refused file is told first' 2 '1 levels in 2 files: 0 faults, 0 notes, 0 warnings, 0 not judged, 1 with warnings not looked for\n' \
        "$(told no.wad "$missing")$neither" check --map room.wad no.wad
}

# has_line NAME LINE WORD...: the line is one of the output, and the status is 1.
has_line() {
    run_on '' "${@:3}"
    if grep -qxF -- "${2%'\n'}" output; then
        : >output
    fi
    : >error
    judge "$1" 1 '' ''
}

# names_of LETTER FROM TO: names of codes, as an object has them.
names_of() {
    local i
    for ((i = $2; i <= $3; i++)); do
        ((i == $2)) || printf ,
        printf '"%s%s"' "$1" "$i"
    done
}

# unlooked_names: the warnings that a fault keeps from being looked for.
unlooked_names() { printf '%s,%s,%s,%s' "$(names_of W 1 11)" "$(names_of W 14 19)" "$(names_of W 21 22)" "$(names_of W 25 25)"; }

# Levels whose faults keep warnings from being looked for: lost.wad has F4, F5 and F10, and apart.wad F10 alone.
cases_of_silencing_faults() {
    level LINEDEFS "$(words 0 1 4 0 0 0 9)" SIDEDEFS "$(sidedef 7)" SEGS "$(words 0 1 16384 0 0 0 0 1 16384 0 0 0)" SSECTORS "$(words 1 0 1 7)" >lost.wad
    level SSECTORS "$(words 1 0 1 7)" >apart.wad
    local few="W1 sector 0: isn't closed, at (0, 0)" more='W1: 3 more' seven='W7 level: no player 2 start' eight='W8 level: 0 deathmatch starts'
    local none='W19 level: no exit' fault="F10 ssector 1: segs from 7, 1 of them, aren't all there (2 segs)" both
    both=$(told_in apart.wad "$fault" "$few" "$more" "$seven" "$eight" "$none")
    says 'a fault of the nodes' 1 "$both$(told_in apart.wad 'warnings W3, W5 not looked for: F10')$(faulty_with 1 7 1)" "$neither" \
        check --map --max 1 apart.wad
    says 'a fault of the nodes, W3 is ignored' 1 "$both$(told_in apart.wad 'warnings W5 not looked for: F10')$(faulty_with 1 7 1)" "$neither" \
        check --map --max 1 --ignore W3 apart.wad
    says 'a fault of the nodes, both are ignored' 1 "$both$(faulty_with 1 7 1)" "$neither" check --map --max 1 --ignore W3,W5 apart.wad
    says 'a fault of the nodes, all that lacks is ignored' 1 "$both$(faulty_with 1 7 '')" '' \
        check --map --max 1 --ignore W3,W5,W9,W10,W25 apart.wad
    says 'a fault of the nodes, as objects' 1 "$(
        told_of apart.wad E1M1 '"code":"F10","kind":"ssector","index":1,"message":"segs from 7, 1 of them, aren'\''t all there (2 segs)"'
        told_of apart.wad E1M1 '"unlooked":["W3","W5","W9","W10","W25"]'
        printf '{"levels":1,"files":1,"faults":1,"notes":0,"warnings":0,"not_judged":0,"unlooked_levels":1,"unlooked":["W3","W5","W9","W10","W25"]}\\n'
    )" "$neither" check --json --map --ignore W1,W7,W8,W19 apart.wad
    says 'a fault of the nodes, surveyed' 1 \
        '{"file":"apart.wad","level":"E1M1","entry":0,"format":"doom",'"$counts"',"sound":false,"faults":1,"notes":0,"findings":{"F10":1},"warnings":{"W1":4,"W7":1,"W8":1,"W19":1},"unlooked":["W3","W5","W9","W10","W25"]}\n' \
        '' survey --map apart.wad
    has_line 'no references' 'lost.wad: E1M1: warnings not looked for: F4, F5' check --map --ignore W1-W8 lost.wad
    has_line 'no references, as objects' "$(told_of lost.wad E1M1 "\"unlooked\":[$(names_of W 9 11),$(names_of W 14 19)]")" \
        check --json --map --ignore W1-W8,W20-W25 lost.wad
    says 'a fault of the nodes, warnings are not asked for' 1 "$(told_in apart.wad "$fault")$(found 1 0)" '' check apart.wad
}

# faulty_with FAULTS WARNINGS LEVELS: the totals of a level with faults, in so many levels of which some warnings weren't looked for.
faulty_with() { printf '1 levels in 1 files: %s faults, 0 notes, %s warnings, 0 not judged%s\\n' "$1" "$2" "$(partly "$3")"; }

cases_of_unlooked_and_ignored() {
    says 'W9 is ignored' 0 "$(in_part 0)" "$no_flats" check --map --ignore W9 room.wad
    says 'W10 is ignored' 0 "$(in_part 0)" "wadlens: W9, W25 weren't looked for: no file has TEXTURE1, F_START, F_END; name the game's with --base\\n" \
        check --map --ignore W10 room.wad
    says 'W10 and W25 are ignored' 0 "$(in_part 0)" "$no_textures" check --map --ignore W10,W25 room.wad
    says 'an end of the flats alone lacks' 0 "$(in_part 0)" "wadlens: W25 weren't looked for: no file has F_END; name the game's with --base\\n" \
        check --map --ignore W9 --base endless.wad room.wad
    says 'all are ignored' 0 "$(warned 0)" '' check --map --ignore W10,W9,W25 room.wad
    says 'W9 is ignored, as objects' 0 "$(ended 0 ',"unlooked_levels":1,"unlooked":["W10","W25"]')" "$no_flats" check --json --map --ignore W9 room.wad
    says 'all are ignored, as objects' 0 "$(ended 0 '')" '' check --json --map --ignore W9 --ignore W10,W25 room.wad
    says 'two are ignored, surveyed' 0 "$(room_of room.wad '"warnings":{},"unlooked":["W9"]')" '' survey --map --ignore W10,W25 room.wad
    says 'all are ignored, surveyed' 0 "$(room_of room.wad '"warnings":{}')" '' survey --map --ignore W10,W9,W25 room.wad
    says 'what is looked for is ignored' 0 "$(in_part 0)" "$no_flats" check --map --ignore W9 walled.wad
}
