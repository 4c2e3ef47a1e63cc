# Cases of demos of Boom, MBF, PrBoom and MBF21, and of wrappers, which tests/wadlens runs.
# shellcheck shell=bash disable=SC2034,SC2154  # what tests/wadlens sets and reads

crafted=$root/tests/crafted_demos
recorded=$root/tests/recorded_demos

# raw DIGITS: the bytes of hexadecimal digits.
raw() { basenc --base16 --decode <<<"${1^^}"; }

# as_escaped TEXT: a text as `says` takes it.
as_escaped() { printf '%s\n' "${1//\\/\\\\}"; }

# columns ROW: the columns of a table's row, as `column`. Some may be empty, and `read` would take several tabs as one.
columns() { mapfile -t -d $'\t' column < <(printf '%s' "$1"); }

# digits NUMBER: the digits of a crafted demo.
digits() { awk -F '\t' -v number="$1" '$1 == number { print $2 }' "$crafted/lines.tsv"; }

cases_of_later_demos() {
    local row column number line a b
    while read -r row; do
        columns "$row"
        number=${column[0]} line=${column[2]}
        raw "${column[1]}" >D
        case $line in
            refused:*)
                says "later demo $number" 2 '' "wadlens: D: ${line#refused: }\n" demos D
                says "later demo $number, the listing" 2 '' "wadlens: D: ${line#refused: }\n" listing D
                ;;
            *) says "later demo $number" 0 "$line\n" '' demos D ;;
        esac
    done <"$crafted/lines.tsv"
    while IFS=$'\t' read -r number a b line; do
        raw "$a" >A
        raw "$b" >B
        if [[ $line == nothing ]]; then
            says "later compare $number" 0 '' '' compare A B
        else
            says "later compare $number" 1 "$line\n" '' compare A B
        fi
    done <"$crafted/compared.tsv"
    cases_of_later_objects
    cases_of_later_listings
    cases_of_recorded_demos
    cases_of_footers
    cases_of_compared_commands_alone
    cases_of_ends_of_listings
    cases_of_hostile_demos
}

cases_of_later_objects() {
    local row column number lump object why
    while read -r row; do
        columns "$row"
        number=${column[0]} lump=${column[1]} object=${column[2]}
        if [[ $lump ]]; then
            pack "$lump" "$(digits "$number" | sed 's/../\\x&/g')" >D
        else
            raw "$(digits "$number")" >D
        fi
        if [[ $object == *'"refused":"'* ]]; then
            why=${object#*'"refused":"'}
            says "later object $number" 2 "$(as_escaped "$object")\n" "wadlens: D: ${why%\"\}}\n" demos --json D
        else
            says "later object $number" 0 "$(as_escaped "$object")\n" '' demos --json D
        fi
    done <"$crafted/objects.tsv"
}

# listed_as NAME FILE LISTING: the listing of a file.
listed_as() {
    run_on '' listing "$2"
    if cmp -s output "$3"; then
        : >output
    fi
    judge "$1" 0 '' ''
}

cases_of_later_listings() {
    local file number
    for file in "$crafted"/*.listing; do
        number=$(basename "$file" .listing)
        raw "$(digits "$((10#$number))")" >D
        listed_as "listing of crafted demo $number" D "$file"
    done
    for file in "$recorded"/*.listing; do
        listed_as "listing of $(basename "$file" .listing)" "${file%.listing}.lmp" "$file"
    done
    # A listing of another engine is no text to put a demo together from.
    says_on 'assemble: a listing of Boom' "$(<"$crafted/01.listing")\n" 2 '' \
        "wadlens: standard input: line 1 is no line of a listing: a demo's header is wanted\n" assemble
    mistaken 'listing alone' '<DEMO>' listing
    mistaken 'listing of two' "unexpected argument 'B'" listing A B
    mistaken '--json of listing' "unexpected argument '--json'" listing --json A
    tells '--help of listing' 'Usage: wadlens listing <DEMO>' listing --help
}

# What two engines recorded.
cases_of_recorded_demos() {
    local file line
    while IFS=$'\t' read -r file line; do
        cp "$recorded/$file" .
        case $line in
            refused:*) says "recorded $file" 2 '' "wadlens: $file: ${line#refused: }\n" demos "$file" ;;
            *) says "recorded $file" 0 "$line\n" '' demos "$file" ;;
        esac
    done <"$recorded/lines.tsv"
    # The listing of a demo that wadlook reads is the one of `wadlook lmp`.
    for file in s109w s111 s111w; do
        if [[ -x $WADLOOK ]] && "$WADLOOK" lmp "$file.lmp" >"$file.want"; then
            listed_as "listing of $file, as wadlook's" "$file.lmp" "$file.want"
        fi
    done
}

# with_footer TEXT: a demo of a command, and a text behind its marker, as `%b` takes it.
with_footer() { printf '%b' "$(bytes "${header[@]}" 25 0 0 0 128)$1" >D; }

# footer_told NAME AFTER MEMBERS: the object of a demo with so many bytes behind its marker.
footer_told() {
    says "footer: $1" 0 "$(listed D "\"players\":1,\"tics\":1,\"odd\":0,\"after\":$2$3")" '' demos --json D
}

# footer_lumps NAME TEXT...: a WAD file of these lumps behind the marker of a demo.
footer_lumps() {
    local told=()
    for (( ; $#; )); do
        told+=("$1" "$([[ -z $2 ]] || bytes_of <(printf '%b' "$2"))")
        shift 2
    done
    with_footer ''
    pack "${told[@]}" >footer.wad
    cat footer.wad >>D
}

cases_of_footers() {
    local many
    footer_lumps PORTNAME 'dsda-doom 0.25.6' CMDLINE '-iwad "a b.wad" \x0a'
    footer_told 'of dsda-doom' "$(stat -c %s footer.wad)" ',"port":"dsda-doom 0.25.6","words":"-iwad \\"a b.wad\\""'
    footer_lumps PORTNAME '' CMDLINE '  '
    footer_told 'empty texts' "$(stat -c %s footer.wad)" ',"port":"","words":""'
    footer_lumps CMDLINE one CMDLINE two portname three
    footer_told 'the last of a name, and no other name' "$(stat -c %s footer.wad)" ',"words":"two"'
    footer_lumps PORTNAME 'one\x0a\x0a' FEATURES x
    footer_told 'one line feed goes' "$(stat -c %s footer.wad)" ',"port":"one\\u000a"'
    footer_lumps PORTNAME one CMDLINE two
    printf '\xff\xff\xff\x7f' | dd of=D bs=1 seek=$((18 + $(stat -c %s footer.wad) - 32)) conv=notrunc status=none
    footer_told 'a lump outside its file' "$(stat -c %s footer.wad)" ',"words":"two"'
    with_footer 'PWAD'
    footer_told 'four bytes of a WAD file' 4 ''
    with_footer 'Woof 10.5.1'
    footer_told 'of Woof, without an end' 11 ',"port":"Woof 10.5.1"'
    with_footer 'Woof 10.5.1\x0a-iwad x  \x0amore'
    footer_told 'of Woof' 26 ',"port":"Woof 10.5.1","words":"-iwad x"'
    with_footer 'Woof 1 \x0a\x0a'
    footer_told 'of Woof, without words' 9 ',"port":"Woof 1 ","words":""'
    with_footer 'Woof'
    footer_told 'four bytes of Woof' 4 ''
    with_footer 'woof 1\x0a'
    footer_told 'small letters' 7 ''
    many=$(head -c 4095 /dev/zero | tr '\0' w)
    with_footer "Woof 1\\x0a$many\\xc3\\xa9"
    footer_told 'as many bytes as are told' 4104 ",\"port\":\"Woof 1\",\"words\":\"$many\xef\xbf\xbd\""
    says 'footer: not in the line' 0 'D: version 109, skill 3, episode 1, map 1, 1 player, 1 tics, 0:00.02, after 4104\n' '' demos D
}

# alone NAME STATUS LINE A B: what is told of the commands of two crafted demos alone.
alone() {
    raw "$4" >A
    raw "$5" >B
    says "compare --commands: $1" "$2" "$3" '' compare --commands A B
}

cases_of_compared_commands_alone() {
    local boom doom long
    boom=$(digits 1) doom=$(digits 34)
    long=6f0301010000000000010000001900000000ceff0000ff8080
    alone 'another engine' 0 '' "$boom" "$doom"
    alone 'another seed' 0 '' "$boom" "${boom/5d0000/5e0000}"
    alone 'the commands of a wrapped demo' 1 'tic 1 player 1: -50 -128 255 80, 0 0 0 00 06 5 5\n' "$boom" "$(digits 35)"
    alone 'a turn of one byte is the high one' 1 'tic 1 player 1: -50 -128 255 80, -50 -1 0 ff\n' "$boom" "$long"
    alone 'other players' 1 'players 1, 2\n' "$boom" "$(digits 6)"
    alone 'an end' 1 'B ends at tic 0\n' "$boom" "$(digits 5)"
    raw "$(digits 8)" >B
    says 'compare --commands: a refused demo' 2 '' 'wadlens: B: no player in the game\n' compare A B --commands
    mistaken '--commands twice' "'--commands' cannot be used multiple times" compare --commands --commands A B
}

cases_of_ends_of_listings() {
    local one
    raw "$(digits 1)" >D
    says 'listing: no file' 2 '' "$(told no.lmp "$missing")" listing no.lmp
    says 'listing: a FIFO' 0 "$(sed 's/$/\\n/' "$crafted/01.listing" | tr -d '\n')" '' listing <(cat D)
    ends 'listing: a full disk' 2 "wadlens: standard output can't be written\\n" listing D >/dev/full
    exec {one}> >(:)
    wait $!
    ends 'listing: a closed pipe' 0 '' listing D >&"$one"
    exec {one}>&-
}

# last_line NAME LINE WORD...: the last line of an answer that is too long to be kept, within so much memory as `memory` says.
last_line() {
    timeout 60 bash -c "$limited" "$memory" "$program" "${@:3}" 2>error | tail -n 1 >output
    printf '%s' "${PIPESTATUS[0]}" >status
    judge "$1" 0 "$2\n" ''
}

# Numbers in a demo that are above what is there take no memory, and 64 MB of commands no more than their files.
cases_of_hostile_demos() {
    local number row column memory=20000 front
    while read -r row; do
        columns "$row"
        number=${column[0]}
        [[ " 24 25 27 44 45 " == *" $number "* ]] || continue
        raw "${column[1]}" >D
        says "hostile demo $number, in little memory" 2 '' "wadlens: D: ${column[2]#refused: }\n" demos D
        says "hostile demo $number, in little memory, the listing" 2 '' "wadlens: D: ${column[2]#refused: }\n" listing D
    done <"$crafted/lines.tsv"
    memory=80000 front=$(digits 45)
    { raw "${front%%aabbcc*}"; head -c 67108800 /dev/zero; } >D
    says 'a key frame of 4 GB, of which 64 MB are there' 2 '' "wadlens: D: its key frame isn't whole\n" demos D
    front=$(digits 22)
    { raw "${front:0:180}"; head -c $((5 * 13421754)) /dev/zero; printf '\200'; } >D
    says '64 MB of commands' 0 'D: version 221 (MBF21), skill 3, episode 1, map 30, 1 player, 13421754 tics, 6391:18.68\n' '' demos D
    last_line '64 MB of commands, the listing' 'tics 13421754 odd 0 after 0' listing D
    cp D E
    printf '\1' | dd of=E bs=1 seek=$((90 + 5 * 13421754 - 1)) conv=notrunc status=none
    memory=150000
    says '64 MB of commands, compared' 1 'tic 13421753 player 1: 0 0 0 00, 0 0 0 01\n' '' compare D E
    says '64 MB of commands, their commands alone' 1 'tic 13421753 player 1: 0 0 0 00, 0 0 0 01\n' '' compare --commands D E
    rm E
}
