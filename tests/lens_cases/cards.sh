# The messages on the cards of an atlas, each linked to its place in the level's picture, which tests/wadlens runs.
# shellcheck shell=bash disable=SC2034,SC2154  # what tests/wadlens sets and reads

# card_of CLASS TEXT: a message without a link; linked CLASS PICTURE VIEW TEXT: one with a link to a part of a picture.
card_of() { printf '<li class="%s">%s</li>\n' "$@"; }

linked() { printf '<li class="%s"><a href="%s#svgView(viewBox(%s))">%s</a></li>\n' "$@"; }

# The linedef of the sample level goes from (0, 0) to (0, 64). Each end, and all of it, has 256 units around it.
at_start=-256,-256,512,512
at_end=-256,-320,512,512
along=-256,-320,512,576

# What is told of the sample level's open corners, one by one.
corners() {
    local sector
    for sector in 0 1; do
        linked warning "$1" "$at_start" "W1 sector $sector: isn't closed, at (0, 0)"
        linked warning "$1" "$at_end" "W1 sector $sector: isn't closed, at (0, 64)"
    done
}

# The messages that follow.
no_starts=$(
    card_of warning 'W7 level: no player 2 start'
    card_of warning 'W8 level: 0 deathmatch starts'
    card_of warning 'W19 level: no exit'
)

# list_of MESSAGES: the list of a card, and what follows it.
list_of() { printf '<ul class="messages">\n%s\n</ul>\n<ul class="counts">' "$1"; }

cases_of_cards() {
    local fault note
    fault=$(linked fault 1-0.svg "$along" 'F9 seg 1: linedef 0 has no sidedef on side 1, from (0, 64) to (0, 0)')
    note=$(linked note 1-0.svg "$along" 'N3 linedef 0: two-sided, without a back sidedef, from (0, 0) to (0, 64)')
    into_new 'card: a fault and a note' 1 '' '1-0.svg index.html survey.jsonl' faulty.wad
    shows 'card: .. its messages' index.html "$(list_of "$fault"$'\n'"$note")"
    into_new 'card: an ignored note' 1 '' '1-0.svg index.html survey.jsonl' --ignore N3 faulty.wad
    shows 'card: .. its message' index.html "$(list_of "$fault")"
    into_new 'card: nothing is found' 0 '' '1-0.svg index.html survey.jsonl' base.wad
    lacks 'card: .. and nothing is told' index.html '<ul class="messages">'
    into_new 'card: a level that is not judged' 2 '' 'index.html survey.jsonl' udmf.wad
    lacks 'card: .. has no messages' index.html '<ul class="messages">'
    cases_of_cut_cards
    cases_of_linked_cards
    cases_of_words_of_cards
}

# Three of a code are told by themselves, and how many more there are.
cases_of_cut_cards() {
    local left
    left=$(corners 1-0.svg | head -n 3)$'\n'$(card_of warning 'W1: 1 more')$'\n'$no_starts
    into_new 'card: --map' 0 '' '1-0.svg index.html survey.jsonl' --map base.wad
    shows 'card: .. three of a code' index.html "$(list_of "$left")"
    into_new 'card: --max 3' 0 '' '1-0.svg index.html survey.jsonl' --max 3 --map base.wad
    shows 'card: .. the same three' index.html "$(list_of "$left")"
    left=$(corners 1-0.svg | head -n 1)$'\n'$(card_of warning 'W1: 3 more')$'\n'$no_starts
    into_new 'card: --max 1' 0 '' '1-0.svg index.html survey.jsonl' --max=1 --map base.wad
    shows 'card: .. one of a code' index.html "$(list_of "$left")"
    into_new 'card: --max 0' 0 '' '1-0.svg index.html survey.jsonl' --map base.wad --max 0
    shows 'card: .. all of a code' index.html "$(list_of "$(corners 1-0.svg)"$'\n'"$no_starts")"
    into_new 'card: --max 4' 0 '' '1-0.svg index.html survey.jsonl' --map base.wad --max 4
    shows 'card: .. as many as there are' index.html "$(list_of "$(corners 1-0.svg)"$'\n'"$no_starts")"
}

# A link goes to the level's own picture, if it has one, and to no other part of the page.
cases_of_linked_cards() {
    local note behind text
    into_new 'card: two levels' 0 '' '1-0.svg 1-11.svg index.html survey.jsonl' --map hidden.wad
    shows 'card: .. each linked to its own picture' index.html '<a class="map" href="1-0.svg">' "$(corners 1-0.svg | head -n 3)" \
        '<a class="map" href="1-11.svg">' "$(corners 1-11.svg | head -n 3)"
    into_new 'card: a second file' 0 '' '1-0.svg 2-0.svg index.html survey.jsonl' --map base.wad base.wad
    shows 'card: .. linked to its picture' index.html "$(corners 2-0.svg | head -n 3)"
    level LINEDEFS '' >bare.wad
    into_new 'card: a level without a picture' 1 '' 'index.html survey.jsonl' bare.wad
    shows 'card: .. has no link' index.html "$(card_of fault 'F7 seg 0: linedef 0 isn'"'"'t there (0 linedefs), from (0, 0) to (0, 64)')"
    level THINGS '' >startless.wad
    note=$(card_of note 'N11 level: no player 1 start')
    into_new 'card: a note and warnings' 0 '' '1-0.svg index.html survey.jsonl' --map startless.wad
    shows 'card: .. the note before them' index.html "$(printf '<ul class="messages">\n%s\n%s' "$note" "$(corners 1-0.svg | head -n 1)")"
    behind=(TEXTURE1 "$(textures DOOR)")
    level SIDEDEFS "$(words 0 0)$(name8 -)$(name8 -)$(name8 '<i>&"')$(words 0)$(sidedef 1)" >markup.wad
    text="W9 sidedef 0: middle texture &lt;i&gt;&amp;&quot; isn't there, of linedef 0"
    into_new 'card: a texture whose name is markup' 0 '' '1-0.svg index.html survey.jsonl' --map markup.wad
    shows 'card: .. told as its linedef, without markup' index.html "$(linked warning 1-0.svg "$along" "$text")"
}

cases_of_words_of_cards() {
    rm -rf atlas
    mistaken 'card: --max without a value' '--max' atlas base.wad --out atlas --max
    mistaken 'card: --max of a negative number' '-1' atlas --out atlas --max -1 base.wad
    mistaken 'card: --max that is none' 'many' atlas --out atlas --max many base.wad
    mistaken 'card: --max twice' '--max' atlas --out atlas --max 1 --max 2 base.wad
    tells '--help of atlas: --max' '[default: 3]' atlas --help
}
