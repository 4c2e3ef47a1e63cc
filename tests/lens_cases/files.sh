# Cases of words, paths, lists, refused files, surveys, where levels start, levels cut out, progress, failed ends and memory, which
# tests/wadlens runs.
# shellcheck shell=bash disable=SC2034,SC2154  # what tests/wadlens sets and reads

cases_of_words() {
    mistaken 'no words' 'requires a subcommand'
    mistaken 'a command alone' 'FILE' survey
    mistaken 'check alone' 'FILE' check
    mistaken 'no such command' 'unrecognized subcommand' look base.wad
    mistaken 'a hint at a mistyped word' "similar subcommand exists: 'survey'" survy base.wad
    mistaken 'a flag that there is not' "unexpected argument '--tall'" survey --tall base.wad
    mistaken '--max of a survey' "unexpected argument '--max'" survey --max 3 base.wad
    mistaken '--null without --files-from' '--files-from' survey --null base.wad
    mistaken '--strict without --map' '--map' check --strict base.wad
    mistaken '--strict of a survey, without --map' '--map' survey --strict base.wad
    mistaken '--map of demos' "unexpected argument '--map'" demos --map base.wad
    mistaken '--json with --quiet' '--quiet' check --json --quiet base.wad
    mistaken '--json of a survey' "unexpected argument '--json'" survey --json base.wad
    mistaken '--quiet of demos' "unexpected argument '--quiet'" demos --quiet base.wad
    mistaken 'the usage of check' 'Usage: wadlens check' check --max three base.wad
    mistaken 'the usage of picture' 'Usage: wadlens picture' picture --cells 5000 E1M1 base.wad
    mistaken 'the usage of picture, of a frame' 'Usage: wadlens picture' picture --frame 1,2 E1M1 base.wad
    mistaken 'the usage of cut' 'Usage: wadlens cut' cut --entry x base.wad
    mistaken 'the usage of atlas' 'Usage: wadlens atlas' atlas --out new --cells 0 base.wad
    mistaken 'a negative --max' '-1' check --max=-1 base.wad
    mistaken 'a negative --max, apart' '-1' check --max -1 base.wad
    mistaken 'a --max that is no number' 'three' check --max three base.wad
    mistaken 'a path that begins with -' "unexpected argument '-x'" survey -x
    cases_of_missing_lists
    tells '--help' 'Usage: wadlens' --help
    tells '-h' 'Usage: wadlens' -h
    tells '--version' 'wadlens 0.1.0' --version
    tells '--help of survey' 'Usage: wadlens survey' survey --help
    tells '--help of check' '--max <N>' check --help
    tells '--help of check names the codes' 'F1 to F18 are faults, N1 to N12 notes, and W1 to W25 warnings' check --help
    tells '--help of check names the statuses' 'and 3 if memory ran out.' check --help
    tells '--help of cut' '--entry <G>' cut --help
    tells '--help of atlas' '--out <FOLDER>' atlas --help
    tells '--help of demos' '--json' demos --help
    # The file is there, so it's the word that is refused.
    cp base.wad $'\xff.wad'
    local no_text="wadlens: a word isn't UTF-8, so the whole run is refused: hand such a file over as /dev/stdin <FILE\\n"
    says 'a word that is not UTF-8' 2 '' "$no_text" survey $'\xff.wad'
    timeout 60 "$program" survey /dev/stdin <$'\xff.wad' >output 2>error
    printf '%s' $? >status
    judge 'a path that is not UTF-8, on standard input' 0 "$(sound /dev/stdin E1M1 0)" ''
    says 'a word that is not UTF-8, behind others' 2 '' "$no_text" check base.wad --max 3 $'a\xc0\xaf'
}

# The words end behind --files-from, or go on with another option. The usage is that of the command.
cases_of_missing_lists() {
    local command said="a value is required for '--files-from <LIST>' but none was supplied"
    said+=$'\n\n'"For more information, try '--help'."$'\n\n'
    for command in check survey demos 'atlas --out new'; do
        # shellcheck disable=SC2086  # words
        mistaken "$command: --files-from without a list" "${said}Usage: wadlens ${command%% *} [OPTIONS]" $command --files-from
    done
    mistaken '--files-from and --null' "${said}Usage: wadlens survey [OPTIONS]" survey --files-from --null
    mistaken 'demos: --files-from and --json' "${said}Usage: wadlens demos [OPTIONS]" demos --files-from --json
    mistaken 'demos: --files-from and a file behind --' "${said}Usage: wadlens demos [OPTIONS]" demos --files-from -- two.lmp
}

cases_of_paths() {
    says 'a file' 0 "$(sound base.wad E1M1 0)" '' survey base.wad
    says 'two files, in order' 0 "$(sound base.wad E1M1 0)$(sound ./base.wad E1M1 0)" '' survey base.wad ./base.wad
    says 'a path that begins with -, after --' 0 "$(sound -x.wad E1M1 0)" '' survey -- -x.wad
    says '- is a path' 2 "$(refused - "$missing")" "$(told - "$missing")" survey -
    cp base.wad -- -
    says '- is a path, and its file is there' 0 "$(sound - E1M1 0)" '' survey -
    says 'an empty path' 2 "$(refused '' "$missing")" "$(told '' "$missing")" survey ''
    says 'a file from a pipe' 0 '' '' survey <(cat empty.wad)
    mkfifo fifo
    cat base.wad >fifo &
    says 'a FIFO' 0 "$(sound fifo E1M1 0)" '' survey fifo
    says 'a device without end' 2 "$(refused /dev/zero 'larger than 268435456 bytes')" \
        "$(told /dev/zero 'larger than 268435456 bytes')" survey /dev/zero
    cp base.wad $'a"b\\c\x1f.wad'
    says 'a path with what JSON escapes' 0 "$(sound 'a\\"b\\\\c\\u001f.wad' E1M1 0)" '' survey $'a"b\\c\x1f.wad'
    cp base.wad ü.wad
    says 'a path with a line break' 0 "$(sound 'two\\u000alines.wad' E1M1 0)" '' survey $'two\nlines.wad'
    # A copy of another level lies under the path without its last byte.
    cp base.wad 'blank.wad '
    cp base.wad $'blank.wad\t'
    cp faulty.wad blank.wad
    says 'a path that ends in a blank' 0 "$(sound 'blank.wad ' E1M1 0)" '' survey 'blank.wad '
    says 'a path that ends in a tab' 0 "$(sound 'blank.wad\\u0009' E1M1 0)" '' survey $'blank.wad\t'
    cp base.wad ' blank.wad'
    says 'a path that begins with a blank' 0 "$(sound ' blank.wad' E1M1 0)" '' survey ' blank.wad'
    says_on 'a path of a list that ends in a blank' 'blank.wad \n' 0 "$(sound 'blank.wad ' E1M1 0)" '' survey --files-from -
    says 'a path that is not ASCII' 0 "$(sound 'ü.wad' E1M1 0)" '' survey ü.wad
}

# A line's end, an escape, a control of eight bits and 127 are told by their digits; a backslash and other letters stand as they are.
cases_of_controls() {
    local path=$'a\n\e[31m\xc2\x85\x7f\\ü\xc2\xa0.wad' shown='a\\x0a\\x1b[31m\\xc2\\x85\\x7f\\ü\xc2\xa0.wad'
    cp faulty.wad "$path"
    says 'controls in a path: findings' 1 "${faults_of_faulty//faulty.wad/"$shown"}1 levels in 1 files: 1 faults, 1 notes, 0 not judged\\n" '' check "$path"
    says 'controls in a path: cut' 2 '' "$(told "$shown" 'no level starts at entry 7')" cut --entry 7 "$path"
    says 'controls in a path: refused' 2 '0 levels in 1 files: 0 faults, 0 notes, 0 not judged\n' "$(told 'no\\x0a\\x1f' "$missing")" check $'no\n\x1f'
    says_on 'controls in paths of a list' 'x\xc2\ny\xc2\x9f\xff\n' 2 '0 levels in 2 files: 0 faults, 0 notes, 0 not judged\n' \
        "$(told 'x\xc2' "$missing")$(told 'y\\xc2\\x9f\xff' "$missing")" check --files-from -
    says 'controls in a name' 2 '' "$(told 'E\\x07' 'no level of this name')" picture $'E\a' base.wad
    mkdir $'full\r' && touch $'full\r/file'
    says 'controls in a folder' 2 '' "$(told 'full\\x0d' "it isn't empty")" atlas --out $'full\r' base.wad
}

cases_of_lists() {
    local one two
    one=$(sound base.wad E1M1 0) two=$(sound ./base.wad E1M1 0)
    says_on 'a list' 'base.wad\n./base.wad\n' 0 "$one$two" '' survey --files-from -
    says_on 'a list whose last path has no end' 'base.wad\n./base.wad' 0 "$one$two" '' survey --files-from -
    says_on 'empty paths of a list' '\n\nbase.wad\n\n' 0 "$one" '' survey --files-from -
    says_on 'a list of NULs' 'base.wad\0./base.wad\0' 0 "$one$two" '' survey --files-from - --null
    says_on 'a list of NULs has paths of several lines' 'two\nlines.wad\0' 0 "$(sound 'two\\u000alines.wad' E1M1 0)" '' \
        survey --files-from - --null
    says_on 'an empty list' '' 0 '' '' survey --files-from -
    says_on 'files, and then those of a list' './base.wad\n' 0 "$one$two" '' survey base.wad --files-from -
    says_on 'a path of a list begins with -' '-x.wad\n' 0 "$(sound -x.wad E1M1 0)" '' survey --files-from -
    printf 'base.wad\n' >list
    says 'a list in a file' 0 "$one" '' survey --files-from list
    says 'a list that is not there' 2 '' "$(told no.list "$missing")" survey --files-from no.list base.wad
    says 'an empty path of a list' 2 '' "$(told '' "$missing")" survey --files-from= base.wad
    says 'a list that is a folder' 2 '' "$(told folder "$unread")" survey --files-from folder base.wad
    timeout 60 "$program" survey --files-from - <folder >output 2>error
    printf '%s' $? >status
    judge 'a list that cannot be read' 2 '' "$(told 'standard input' "$unread")"
    # The file is there, and isn't taken.
    cp base.wad $'\xff.wad'
    says_on 'a path of a list that is not UTF-8' '\0377.wad\n' 2 \
        '{"file":"\0357\0277\0275.wad","refused":"'"$missing"'"}\n' "wadlens: \\0377.wad: $missing\\n" survey --files-from -
    cases_of_long_lists
    cases_of_many_paths
    says_on 'an empty list of check' '' 0 '0 levels in 0 files: 0 faults, 0 notes, 0 not judged\n' '' check --files-from -
    says_on 'a list of check' 'faulty.wad\n\nno.wad\nbase.wad\n' 1 "$faults_of_faulty"'3 levels in 4 files: 1 faults, 1 notes, 0 not judged\n' \
        "$(told no.wad "$missing")" check base.wad --files-from -
}

# hundred TEXT: a hundred times this, which is more than the files that a set may have.
hundred() {
    local i
    for ((i = 0; i < 100; i++)); do printf '%s' "$1"; done
}

# Files that are no set may be as many as one likes.
cases_of_many_paths() {
    local totals='100 levels in 100 files: 0 faults, 0 notes, 0 not judged\n' many
    says_on 'a list of 100 paths, survey' "$(hundred 'base.wad\n')" 0 "$(hundred "$(sound base.wad E1M1 0)")" '' survey --files-from -
    says_on 'a list of 100 paths, check' "$(hundred 'base.wad\0')" 0 "$totals" '' check --files-from - --null
    demo 128 >still.lmp
    says_on 'a list of 100 paths, demos' "$(hundred 'still.lmp\n')" 0 \
        "$(hundred 'still.lmp: version 109, skill 3, episode 1, map 1, 1 player, 0 tics, 0:00.00\n')" '' demos --files-from -
    read -r -a many < <(hundred 'base.wad ')
    says '100 words, check' 0 "$totals" '' check "${many[@]}"
}

# on_zeros NAME COUNT STATUS OUTPUT ERROR WORD...: what is said where standard input has so many NULs.
on_zeros() {
    local within=()
    [[ -z $memory ]] || within=(bash -c "$limited" "$memory")
    head -c "$2" /dev/zero | timeout 60 "${within[@]}" "$program" "${@:6}" >output 2>error
    printf '%s' "${PIPESTATUS[1]}" >status
    judge "$1" "$3" "$4" "$5"
}

# The most bytes that a list may have, and more.
cases_of_long_lists() {
    local large='larger than 268435456 bytes' memory=''
    says 'a list without end' 2 '' "$(told /dev/zero "$large")" survey --files-from /dev/zero base.wad
    on_zeros 'a list of one byte more' 268435457 2 '' "$(told 'standard input' "$large")" survey --files-from - --null base.wad
    on_zeros 'a list of as many bytes as there may be' 268435456 0 "$(sound base.wad E1M1 0)" '' survey --files-from - --null base.wad
    memory=200000
    on_zeros 'no memory for a list' 268435456 3 '' 'wadlens: no memory left\n' survey --files-from - --null base.wad
}

cases_of_refused() {
    local kind text
    while read -r kind text; do
        says "survey: $kind" 2 "$(refused "$kind" "$text")" "$(told "$kind" "$text")" survey "$kind"
        says "check: $kind" 2 '0 levels in 1 files: 0 faults, 0 notes, 0 not judged\n' "$(told "$kind" "$text")" check "$kind"
    done <<END
no.wad can't be opened
folder can't be read
none.wad shorter than a WAD header
magic.wad not a WAD file: it begins with neither IWAD nor PWAD
count.wad a negative count of lumps
cut.wad its directory isn't inside the file
END
    cases_of_unread_files
    says 'a refused file does not stop the run' 2 \
        "$(refused none.wad 'shorter than a WAD header')$(sound base.wad E1M1 0)" \
        "$(told none.wad 'shorter than a WAD header')" survey none.wad base.wad
    cp empty.wad most.wad
    truncate -s 268435456 most.wad
    says 'a file of as many bytes as there may be' 0 '' '' survey most.wad
    says 'two of them: one is let go before the next' 0 '' '' survey most.wad most.wad
    printf x >>most.wad
    says 'a file of one byte more' 2 "$(refused most.wad 'larger than 268435456 bytes')" \
        "$(told most.wad 'larger than 268435456 bytes')" survey most.wad
    rm most.wad
    cases_of_refused_objects
}

# refused_as NAME TEXT: the file a"b is refused so.
refused_as() { says "$1" 2 "$(refused 'a\\"b' "$2")" "$(told 'a"b' "$2")" survey 'a"b'; }

# Refused files under a path that JSON escapes, and two more that are no WAD file.
cases_of_refused_objects() {
    local kind text
    refused_as 'refusals: a file that is not there' "$missing"
    mkdir 'a"b'
    refused_as 'refusals: a folder' "$unread"
    rmdir 'a"b'
    ln -s /dev/zero 'a"b'
    refused_as 'refusals: a file without end' 'larger than 268435456 bytes'
    rm 'a"b'
    printf PWAD >four.wad
    while read -r kind text; do
        cp "$kind" 'a"b'
        refused_as "refused_directories: $kind" "$text"
    done <<END
four.wad shorter than a WAD header
magic.wad not a WAD file: it begins with neither IWAD nor PWAD
count.wad a negative count of lumps
cut.wad its directory isn't inside the file
END
    rm 'a"b'
    says 'refused: four bytes' 2 '0 levels in 1 files: 0 faults, 0 notes, 0 not judged\n' "$(told four.wad 'shorter than a WAD header')" \
        check four.wad
    printf 'PWAX%b' "$(words 0 0 0 0)" >pwax.wad
    says 'refused: PWAX' 2 '0 levels in 1 files: 0 faults, 0 notes, 0 not judged\n' \
        "$(told pwax.wad 'not a WAD file: it begins with neither IWAD nor PWAD')" check pwax.wad
}

# Files that are there, and can't be opened or read.
cases_of_unread_files() {
    ln -s loop loop
    says 'a link to itself' 2 "$(refused loop "$missing")" "$(told loop "$missing")" survey loop
    # The program's own memory, which has nothing at place 0.
    if (exec </proc/self/mem && ! head -c 1) >output 2>&1; then
        says 'a file whose read fails' 2 "$(refused /proc/self/mem "$unread")" "$(told /proc/self/mem "$unread")" survey /proc/self/mem
    else
        printf 'skipped, as /proc/self/mem is not one: a file whose read fails\n'
    fi
    local as=()
    # Root reads every file, so it asks as nobody.
    ((EUID)) || as=(setpriv --reuid 65534 --clear-groups)
    chmod 711 .
    chmod 644 base.wad
    if ! "${as[@]}" "$program" survey base.wad >output 2>&1; then
        printf 'skipped, as root cannot run the program as nobody: a file that may not be read\n'
        return
    fi
    cp base.wad closed.wad
    chmod 0 closed.wad
    timeout 60 "${as[@]}" "$program" survey closed.wad >output 2>error
    printf '%s' $? >status
    judge 'a file that may not be read' 2 "$(refused closed.wad "$missing")" "$(told closed.wad "$missing")"
}

cases_of_survey() {
    local faulty='{"file":"faulty.wad","level":"E1M1","entry":0,"format":"doom",'$counts
    faulty+=',"sound":false,"faults":1,"notes":1,"findings":{"F9":1,"N3":1}}\n'
    says 'a level with a fault' 1 "$faulty" '' survey faulty.wad
    says 'incomplete' 1 '{"file":"hole.wad","level":"MAP01","entry":0,"format":"incomplete","lump":"BLOCKMAP"}\n' '' \
        survey hole.wad
    says 'hexen' 2 '{"file":"hexen.wad","level":"MAP01","entry":0,"format":"hexen"}\n' '' survey hexen.wad
    says 'udmf' 2 '{"file":"udmf.wad","level":"MAP03","entry":0,"format":"udmf"}\n' '' survey udmf.wad
    says 'extended' 2 '{"file":"extended.wad","level":"E1M1","entry":0,"format":"extended","tag":"ZNOD"}\n' '' \
        survey extended.wad
    says 'a hidden label' 0 "$(sound hidden.wad MAP02 0)$(sound hidden.wad MAP02 11)" '' survey hidden.wad
    says '1 goes before 2' 1 '{"file":"udmf.wad","level":"MAP03","entry":0,"format":"udmf"}\n'"$faulty" '' \
        survey udmf.wad faulty.wad
    says '1 goes before 2, of a refused file too' 1 "$faulty$(refused no.wad "$missing")" "$(told no.wad "$missing")" \
        survey faulty.wad no.wad
    says 'wide' 0 "$(sound base.wad E1M1 0)" '' survey --wide base.wad
    says 'a name as it is shown' 0 "$(sound odd.wad 'a\\"\\\\x5c\\\\x20\\\\x01b' 0)" '' survey odd.wad
    several_formats
    says 'formats, surveyed' 1 "$(
        printf '{"file":"several.wad","level":%s}\\n' '"MAP01","entry":0,"format":"udmf"' '"E1M1","entry":3,"format":"hexen"' \
            '"E1M2","entry":15,"format":"incomplete","lump":"LINEDEFS"'
    )" '' survey several.wad
    level >starts.wad
    before_byte_0 7
    says lump_outside 1 '{"file":"starts.wad","level":"E1M1","entry":0,"format":"outside","lump":"NODES"}\n' '' survey starts.wad
    cases_of_starts
}

# letters TEXT: its bytes.
letters() {
    local i
    for ((i = 0; i < ${#1}; i++)); do bytes "'${1:i:1}"; done
}

# before_byte_0 ENTRY: in starts.wad the lump of this entry begins at -1.
before_byte_0() {
    local at
    at=$(od -An -tu4 -j8 -N4 starts.wad)
    printf '\xff\xff\xff\xff' | dd of=starts.wad bs=1 seek=$((at + 16 * $1)) conv=notrunc status=none
}

# starts NAME STATUS [TEXT...]: the levels that start in starts.wad, each by its entry, its format, and what its format tells of it.
starts() {
    local member='"entry":([0-9]+),"format":"([a-z]+)"(,"(lump|tag)":"([^"]*)")?' text=''
    run_on '' survey starts.wad
    sed -E 's/^\{"file":"starts.wad","level":"[^"]*",'"$member"'.*\}$/\1 \2 \5/; s/ $//' output >levels
    mv levels output
    (($# < 3)) || text=$(printf '%s\\n' "${@:3}")
    judge "$1" "$2" "$text" ''
}

# starts_with NAME STATUS TEXT [LUMP BYTES]...: how the one level of the sample with these lumps starts.
starts_with() {
    level "${@:4}" >starts.wad
    starts "${@:1:3}"
}

cases_of_starts() {
    local parts behind=()
    pack >starts.wad
    starts 'files_without_starts: no entries' 0
    pack E1M1 '' >starts.wad
    starts 'files_without_starts: a label alone' 0
    lumps 10
    pack "${parts[@]}" >starts.wad
    starts 'files_without_starts: no label before THINGS' 0
    pack MAP01 '' things '' >starts.wad
    starts 'files_without_starts: small letters' 0
    behind=(E1M2 '')
    starts_with label_as_last_entry 0 '0 doom'
    behind=(E1M1 '' "${parts[@]}")
    level >starts.wad
    starts hidden_label 0 '0 doom' '11 doom'
    behind=()
    # The second THINGS is the first lump of a level whose label is the first.
    pack E1M1 '' "${parts[@]:0:2}" "${parts[@]}" >starts.wad
    starts two_things_in_a_row 1 '0 incomplete LINEDEFS' '1 doom'
    cases_of_formats_by_names
    cases_of_formats_by_places
    cases_of_tagged_nodes
    cases_of_tagged_ssectors
}

# in_parts NAME STATUS TEXT [NAME BYTES]...: how the level E1M1 of `parts` starts, with these lumps behind it.
in_parts() {
    pack E1M1 '' "${parts[@]}" "${@:4}" >starts.wad
    starts "${@:1:3}"
}

cases_of_formats_by_names() {
    local parts behind=()
    pack MAP01 '' TEXTMAP '\x78' ENDMAP '' >starts.wad
    starts udmf 2 '0 udmf'
    pack MAP01 '' TEXTMAP '\x78' >starts.wad
    starts 'udmf: no ENDMAP' 2 '0 udmf'
    lumps 10
    parts[0]=TEXTMAP parts[1]=''
    in_parts 'udmf: TEXTMAP in place of THINGS' 2 '0 udmf'
    lumps 1
    in_parts 'incomplete: THINGS alone' 1 '0 incomplete LINEDEFS'
    lumps 9
    in_parts 'incomplete: all but BLOCKMAP' 1 '0 incomplete BLOCKMAP'
    lumps 10
    parts[4]=sidedefs parts[5]='' parts[16]=REJECTS parts[17]=''
    in_parts incomplete_by_names 1 '0 incomplete SIDEDEFS'
    # If an entry isn't there, and one before it has another name, the latter is told.
    lumps 4
    parts[4]=sidedefs parts[5]=''
    in_parts incomplete_by_the_first 1 '0 incomplete SIDEDEFS'
    behind=(BEHAVIOR '')
    starts_with hexen 2 '0 hexen'
    behind=(SCRIPTS '' BEHAVIOR '')
    starts_with 'hexen: BEHAVIOR in another place' 0 '0 doom'
    lumps 10
    parts[18]=BEHAVIOR parts[19]=''
    in_parts hexen_without_a_blockmap 1 '0 incomplete BLOCKMAP'
    in_parts 'hexen_without_a_blockmap: more of them' 1 '0 incomplete BLOCKMAP' BEHAVIOR '' BEHAVIOR ''
}

# Names decide before places, and places before what lumps hold.
cases_of_formats_by_places() {
    local parts behind=()
    level >starts.wad
    before_byte_0 7
    starts 'outside: NODES' 1 '0 outside NODES'
    before_byte_0 4
    starts 'outside: VERTEXES before it' 1 '0 outside VERTEXES'
    before_byte_0 1
    starts 'outside: THINGS before both' 1 '0 outside THINGS'
    level >starts.wad
    before_byte_0 0
    starts 'outside: the label: not told' 0 '0 doom'
    behind=(BEHAVIOR '')
    level >starts.wad
    before_byte_0 7
    starts 'outside_and_other_formats: hexen' 2 '0 hexen'
    lumps 10
    renamed BLOCKMAP BLOCKMAQ
    pack E1M1 '' "${parts[@]}" >starts.wad
    before_byte_0 7
    starts 'outside_and_other_formats: incomplete' 1 '0 incomplete BLOCKMAP'
    behind=()
    starts_with 'outside_and_extended_nodes: inside' 2 '0 extended ZNOD' NODES "$(letters ZNOD)${own[NODES]:16}"
    before_byte_0 1
    starts outside_and_extended_nodes 1 '0 outside THINGS'
}

# A level of Doom's format has no node here, and so a fault. A tag alone is one of broken nodes, where these are read.
cases_of_tagged_nodes() {
    local name=nodes_of_later_formats tag
    starts_with "$name: XNOD" 1 '0 extended XNOD' NODES "$(letters XNOD)"
    starts_with "$name: ZNOD" 2 '0 extended ZNOD' NODES "$(letters ZNOD)$(bytes 120 156)"
    starts_with "$name: xNd4" 2 '0 extended xNd4' NODES "$(letters xNd4)$(bytes 0 0 0 0 1)"
    starts_with "$name: xNd4 and no zero" 1 '0 doom' NODES "$(letters xNd4)"
    starts_with "$name: xNd4 and three zeros" 1 '0 doom' NODES "$(letters xNd4)$(bytes 0 0 0)"
    starts_with "$name: xNd4 and a 1 behind three zeros" 1 '0 doom' NODES "$(letters xNd4)$(bytes 0 0 0 1)"
    for tag in XNO XGLN ''; do starts_with "$name: '$tag'" 1 '0 doom' NODES "$(letters "$tag")"; done
}

# A level of Doom's format has no such segs here, and so a fault. So has one whose nodes are read, and broken.
cases_of_tagged_ssectors() {
    local name=ssectors_of_later_formats tag
    for tag in XGLN XGL2; do starts_with "$name: $tag" 1 "0 extended $tag" SSECTORS "$(letters "$tag")"; done
    for tag in ZGLN ZGL2 XGL3 ZGL3; do starts_with "$name: $tag" 2 "0 extended $tag" SSECTORS "$(letters "$tag")"; done
    starts_with "$name: a byte behind the tag" 2 '0 extended ZGLN' SSECTORS "$(letters ZGLN)$(bytes 0)"
    for tag in XGL4 XNOD; do starts_with "$name: $tag" 1 '0 doom' SSECTORS "$(letters "$tag")"; done
    starts_with "$name: a tag of NODES goes first" 2 '0 extended ZNOD' SSECTORS "$(letters XGLN)" NODES "$(letters ZNOD)"
    starts_with "$name: NODES without the zeros" 2 '0 extended ZGL2' SSECTORS "$(letters ZGL2)" NODES "$(letters xNd4)"
}

# cuts NAME FILE WORD...: `cut` writes the bytes of that file, and nothing else.
cuts() {
    timeout 60 "$program" cut "${@:3}" >output 2>error
    printf '%s' $? >status
    if cmp -s output "$2"; then : >output; fi
    judge "$1" 0 '' ''
}

cases_of_cut() {
    local parts tag
    lumps 10
    pack MAP02 '' "${parts[@]}" >one.wad
    cuts 'a hidden level' one.wad --entry 0 hidden.wad
    cuts 'the one that hides it' one.wad hidden.wad --entry 11
    pack E1M1 '' "${parts[@]}" >first.wad
    pack JUNK '\x01\x02' E1M1 '\x03' "${parts[@]}" MORE '\x04' >between.wad
    cuts 'between other lumps, and a label with bytes' first.wad --entry=1 between.wad
    cases_of_cut_formats
    says 'cut: incomplete' 1 '' 'wadlens: hole.wad: MAP01: incomplete: no BLOCKMAP where it belongs\n' cut --entry 0 hole.wad
    lumps 10
    renamed NODES NODEZ
    pack map07 '' "${parts[@]}" >renamed.wad
    says 'cut: a lump under another name, of a label that is not found' 1 '' \
        'wadlens: renamed.wad: map07 (entry 0): incomplete: no NODES where it belongs\n' cut --entry 0 renamed.wad
    for tag in THINGS BLOCKMAP; do
        lumps 10
        pack MAP01 '' "${parts[@]}" >format.wad
        outside "$tag"
        says "cut: outside, $tag" 1 '' "wadlens: format.wad: MAP01: outside: $tag\\n" cut --entry 0 format.wad
    done
    says 'cut: the last entry' 2 '' 'wadlens: hole.wad: no level starts at entry 9\n' cut --entry 9 hole.wad
    says 'cut: no such entry' 2 '' 'wadlens: hole.wad: no level starts at entry 10\n' cut --entry 10 hole.wad
    says 'cut: an entry before a level' 2 '' 'wadlens: between.wad: no level starts at entry 0\n' cut --entry 0 between.wad
    says 'cut: no entry of a file without any' 2 '' 'wadlens: empty.wad: no level starts at entry 0\n' cut --entry 0 empty.wad
    says 'cut: the greatest number' 2 '' 'wadlens: hole.wad: no level starts at entry 18446744073709551615\n' \
        cut --entry 18446744073709551615 hole.wad
    says 'cut: no file' 2 '' "$(told no.wad "$missing")" cut --entry 0 no.wad
    says 'cut: a folder' 2 '' "$(told folder "$unread")" cut --entry 0 folder
    says 'cut: no WAD file' 2 '' "$(told magic.wad 'not a WAD file: it begins with neither IWAD nor PWAD')" cut --entry 0 magic.wad
    cuts 'by its name' first.wad --level E1M1 between.wad
    cuts 'by its name in small letters' one.wad hidden.wad --level=map02
    pack E1M1 '' "${parts[@]}" E1M1 '' THINGS '\x01' >later.wad
    says 'cut: a name whose last label starts no whole level' 1 '' \
        'wadlens: later.wad: E1M1: incomplete: no LINEDEFS where it belongs\n' cut --level E1M1 later.wad
    says 'cut: no level of a name' 2 '' 'wadlens: hidden.wad: MAP09: no level of this name\n' cut --level MAP09 hidden.wad
    says 'cut: controls in a name' 2 '' 'wadlens: hidden.wad: a\\x1bb: no level of this name\n' cut --level $'a\eb' hidden.wad
    says 'cut: a name of another lump' 2 '' 'wadlens: hidden.wad: no level starts at entry 12\n' cut --level THINGS hidden.wad
    says 'cut: a name, and no file' 2 '' "$(told no.wad "$missing")" cut --level MAP01 no.wad
    says 'cut: a name, and no WAD file' 2 '' "$(told magic.wad 'not a WAD file: it begins with neither IWAD nor PWAD')" \
        cut --level MAP01 magic.wad
    mistaken 'cut by an entry and a name' '--entry' cut --entry 0 --level MAP02 hidden.wad
    cases_of_cut_ends
    mistaken 'cut without an entry' '--entry <G>' cut base.wad
    mistaken 'cut without a file' 'FILE' cut --entry 0
    mistaken 'cut of two files' "unexpected argument 'base.wad'" cut --entry 0 base.wad base.wad
    mistaken 'a negative entry' '-1' cut --entry=-1 base.wad
    mistaken 'an entry that is no number' 'E1M1' cut --entry E1M1 base.wad
    mistaken 'an entry of more than 64 bits' '18446744073709551616' cut --entry 18446744073709551616 base.wad
    mistaken '--wide of cut' "unexpected argument '--wide'" cut --wide --entry 0 base.wad
}

# Levels of other formats are cut out whole, and none takes what belongs to the next.
cases_of_cut_formats() {
    local parts text=(TEXTMAP '\x7b\x7d' BLOCKMAP '' ZNODES '\x58\x47\x4c\x33' ENDMAP '')
    lumps 10
    begins NODES '\x58\x4e\x4f\x44'
    pack MAP04 '' "${parts[@]}" >alone.wad
    pack MAP04 '\x09' "${parts[@]}" BEHAVIOR '\x01' >format.wad
    says 'cut: the format of a test, hexen' 2 'format.wad: MAP04: hexen: not read\n1 levels in 1 files: 0 faults, 0 notes, 1 not judged\n' '' \
        check format.wad
    pack MAP04 '' "${parts[@]}" BEHAVIOR '\x01' >alone.wad
    cuts 'hexen' alone.wad --entry 0 format.wad
    pack MAP04 '' "${parts[@]}" BEHAVIOR '\x01' MAP05 '' "${parts[@]}" SCRIPTS '\x02' >format.wad
    cuts 'hexen, and a level behind it' alone.wad --entry 0 format.wad
    pack MAP05 '' "${parts[@]}" >alone.wad
    cuts 'extended nodes' alone.wad --entry 12 format.wad
    pack MAP04 '' "${parts[@]}" BEHAVIOR '\x01' SCRIPTS '\x02' DIALOGUE '\x03' >format.wad
    pack MAP04 '' "${parts[@]}" BEHAVIOR '\x01' SCRIPTS '\x02' >alone.wad
    cuts 'hexen with SCRIPTS' alone.wad --entry 0 format.wad
    pack MAP06 '' "${text[@]}" >alone.wad
    pack MAP06 '\x01' "${text[@]}" MAP07 '' "${text[@]}" >format.wad
    cuts 'UDMF to its first ENDMAP' alone.wad --entry 0 format.wad
    pack MAP06 '' TEXTMAP '\x01' MAP07 '' TEXTMAP '\x02' ENDMAP '' >format.wad
    pack MAP06 '' TEXTMAP '\x01' MAP07 '' TEXTMAP '\x02' ENDMAP '' >alone.wad
    cuts 'UDMF, to an ENDMAP behind the next label' alone.wad --entry 0 format.wad
    says 'cut: no ENDMAP' 2 '' 'wadlens: udmf.wad: MAP03: udmf: no ENDMAP\n' cut --entry 0 udmf.wad
    lumps 10
    pack MAP01 '' "${parts[@]}" BEHAVIOR '\x01' >format.wad
    entry_outside 11
    says 'cut: hexen, outside' 1 '' 'wadlens: format.wad: MAP01: outside: BEHAVIOR\n' cut --entry 0 format.wad
    pack MAP01 '' TEXTMAP '\x01' ENDMAP '' >format.wad
    entry_outside 1
    says 'cut: UDMF, outside' 1 '' 'wadlens: format.wad: MAP01: outside: TEXTMAP\n' cut --entry 0 format.wad
    pack MAP01 '' TEXTMAP '\x01' MAP01 '' TEXTMAP '\x02' >format.wad
    says 'cut: a hidden level is told with its entry' 2 '' 'wadlens: format.wad: MAP01 (entry 0): udmf: no ENDMAP\n' \
        cut --entry 0 format.wad
    cases_of_whole_cuts
    cases_of_uncut_levels
}

# What follows a level belongs to the next one, or to none.
cases_of_whole_cuts() {
    local parts behavior scripts text=(MAP01 '' TEXTMAP '\x78' ENDMAP '')
    lumps 10
    behavior=(BEHAVIOR "$(letters ACS)") scripts=(SCRIPTS "$(letters 'script 1')")
    pack E1M1 '' "${parts[@]}" "${behavior[@]}" >alone.wad
    cuts hexen_whole alone.wad --entry 0 alone.wad
    pack E1M1 '' "${parts[@]}" "${behavior[@]}" "${text[@]}" >format.wad
    cuts 'hexen_whole: a level in UDMF behind it' alone.wad --entry 0 format.wad
    pack E1M1 '' "${parts[@]}" "${behavior[@]}" "${scripts[@]}" >alone.wad
    pack E1M1 '' "${parts[@]}" "${behavior[@]}" "${scripts[@]}" DIALOGUE '\x78' >format.wad
    cuts 'hexen_whole: SCRIPTS' alone.wad --entry 0 format.wad
    pack "${text[@]}" >alone.wad
    pack "${text[@]}" ENDMAP '\x78' E1M1 '' "${parts[@]}" >format.wad
    cuts udmf_whole alone.wad --entry 0 format.wad
    cuts 'udmf_whole: the level behind it' base.wad --entry 4 format.wad
}

# uncut NAME STATUS TEXT WORD...: why no level of starts.wad is cut out.
uncut() { says "uncut: $1" "$2" '' "wadlens: starts.wad: $3\\n" cut "${@:4}" starts.wad; }

cases_of_uncut_levels() {
    pack MAP01 '' TEXTMAP '\x78' MAP02 '' >starts.wad
    uncut 'no ENDMAP' 2 'MAP01: udmf: no ENDMAP' --entry 0
    pack MAP01 '' TEXTMAP '\x78' MAP01 '' >starts.wad
    uncut 'no ENDMAP, of a hidden label' 2 'MAP01 (entry 0): udmf: no ENDMAP' --entry 0
    pack MAP01 '' THINGS '' >starts.wad
    uncut incomplete 1 'MAP01: incomplete: no LINEDEFS where it belongs' --entry 0
    uncut 'an entry behind the label' 2 'no level starts at entry 1' --entry 1
    uncut 'no such entry' 2 'no level starts at entry 2' --entry 2
    pack MAP01 '' TEXTMAP '\x07' ENDMAP '' >starts.wad
    before_byte_0 1
    uncut outside 1 'MAP01: outside: TEXTMAP' --entry 0
}

cases_of_cut_ends() {
    local pipe name size=214748346 directory
    ends 'cut: a full disk' 2 "wadlens: standard output can't be written\\n" cut --entry 0 base.wad >/dev/full
    exec {pipe}> >(:)
    wait $!
    ends 'cut: a closed pipe' 0 '' cut --entry 0 base.wad >&"$pipe"
    exec {pipe}>&-
    timeout 60 "$program" cut --entry 0 none.wad >output 2>/dev/full
    printf '%s' $? >status
    : >error
    judge 'cut: a full standard error' 2 '' ''
    timeout 60 "$program" cut --entry 0 hole.wad >output 2>/dev/full
    printf '%s' $? >status
    judge 'cut: a full standard error, and a lump that is not there' 1 '' ''

    # Ten lumps over the same bytes, a hole, which come to one byte more than a file may have. That is told before room is
    # made for them.
    directory=$(words 0 0 0 0)$(name8 E1M1)
    for name in "${usual[@]}"; do directory+=$(words 0 0 "$size" $((size >> 16)))$(name8 "$name"); done
    printf 'PWAD%b' "$(words 11 0 12 0)$directory" >large.wad
    truncate -s "$size" large.wad
    memory=1048576 says 'cut: a level that is too large' 2 '' \
        'wadlens: large.wad: E1M1: larger than 2147483647 bytes\n' cut --entry 0 large.wad
    rm large.wad
}

cases_of_progress() {
    local none='shorter than a WAD header' gone='\r\x1b[K'
    says '--progress' 0 "$(sound base.wad E1M1 0)" '\r1 files, 1 levels\n' survey --progress base.wad
    says '--progress of check' 0 '2 levels in 2 files: 0 faults, 0 notes, 0 not judged\n' \
        '\r1 files, 1 levels\r2 files, 2 levels\n' check base.wad --progress base.wad
    says '--progress counts levels that are not judged' 1 "$(
        printf '%s' 'udmf.wad: MAP03: udmf: not read\n' 'hole.wad: MAP01: incomplete: no BLOCKMAP where it belongs\n' \
            '2 levels in 3 files: 0 faults, 0 notes, 2 not judged\n'
    )" '\r1 files, 1 levels\r2 files, 1 levels\r3 files, 2 levels\n' check --progress udmf.wad empty.wad hole.wad
    says '--progress counts hidden levels' 0 "$(sound hidden.wad MAP02 0)$(sound hidden.wad MAP02 11)" \
        '\r1 files, 2 levels\n' survey --progress hidden.wad
    says '--progress and a refused file' 2 '2 levels in 3 files: 0 faults, 0 notes, 0 not judged\n' \
        "\\r1 files, 1 levels$gone$(told none.wad "$none")\\r2 files, 1 levels\\r3 files, 2 levels\\n" \
        check --progress base.wad none.wad base.wad
    says_on '--progress of no file' '' 0 '' '' survey --progress --files-from -
    says_on 'no progress unasked' 'base.wad' 0 "$(sound base.wad E1M1 0)" '' survey --files-from -
    cases_of_terminals
}

# on_terminal NAME STATUS OUTPUT ERROR WORD...: what is said where standard error is a terminal, which ends a line by two bytes.
on_terminal() {
    timeout 60 script -qec "$(printf '%q ' "$program" "${@:5}") >output" /dev/null </dev/null >error
    printf '%s' $? >status
    judge "$1" "$2" "$3" "$4"
}

cases_of_terminals() {
    if [[ $(script --version 2>/dev/null) != *util-linux* ]]; then
        printf 'skipped, as there is no script of util-linux: progress on a terminal\n'
        return
    fi
    on_terminal 'progress on a terminal' 0 "$(sound base.wad E1M1 0)" '\r1 files, 1 levels\r\n' survey base.wad
    on_terminal 'progress on a terminal, and a refused file' 2 '1 levels in 2 files: 0 faults, 0 notes, 0 not judged\n' \
        "\\r1 files, 1 levels${gone}wadlens: none.wad: $none\\r\\n\\r2 files, 1 levels\\r\\n" check base.wad none.wad
}

# many.wad: a level in UDMF, and one with 4000 linedefs without length, whose lines don't fit into the program's buffer.
many_lines() {
    local i parts lines
    lines=$(words 1 1 1 0 0 0 -1)
    for ((i = 1; i < 4000; i *= 2)); do lines+=$lines; done
    lumps 10
    parts[3]+=$lines
    pack MAP03 '' TEXTMAP '' MAP04 '' "${parts[@]}" >many.wad
}

cases_of_ends() {
    local pipe file full="wadlens: standard output can't be written\\n"
    many_lines
    for file in base.wad faulty.wad; do
        ends "a full disk, survey $file" 2 "$full" survey "$file" >/dev/full
        ends "a full disk, check $file" 2 "$full" check "$file" >/dev/full
    done
    ends 'a full disk, and a refused file' 2 "$(told none.wad 'shorter than a WAD header')$full" check none.wad >/dev/full
    ends 'no standard output' 2 "$full" survey faulty.wad >&-
    ends 'a full disk, and the help' 2 "$full" --help >/dev/full
    exec {pipe}> >(:)
    wait $!
    ends 'a closed pipe, a sound level' 0 '' survey base.wad >&"$pipe"
    ends 'a closed pipe, a faulty level' 1 '' survey faulty.wad >&"$pipe"
    ends 'a closed pipe, the lines of a faulty level' 1 '' check faulty.wad >&"$pipe"
    ends 'a closed pipe, a level that is not judged' 2 '' check udmf.wad >&"$pipe"
    ends 'a closed pipe, and a refused file' 2 "$(told none.wad 'shorter than a WAD header')" survey none.wad >&"$pipe"
    ends 'a closed pipe within a file: what was found in its levels so far' 2 '' check --max 0 many.wad faulty.wad >&"$pipe"
    ends 'a closed pipe within a file: and in those before' 1 '' check --max 0 faulty.wad many.wad >&"$pipe"
    exec {pipe}>&-
    ends 'a full disk within a file' 2 "$full" check --max 0 many.wad >/dev/full
    timeout 60 "$program" survey none.wad >output 2>/dev/full
    printf '%s' $? >status
    : >error
    judge 'a full standard error' 2 '' ''
    timeout 60 "$program" check faulty.wad none.wad base.wad >output 2>/dev/full
    printf '%s' $? >status
    judge 'a full standard error, check: the run ends there' 2 "$faults_of_faulty" ''
}

cases_of_memory() {
    local memory=200000
    cp empty.wad most.wad
    truncate -s 268435456 most.wad
    says 'no memory for a file' 3 '' 'wadlens: no memory left\n' survey most.wad
    says 'no memory for a file, after a fault' 3 "$faults_of_faulty" 'wadlens: no memory left\n' check faulty.wad most.wad
    says 'no memory for a file, cut' 3 '' 'wadlens: no memory left\n' cut --entry 0 most.wad
    demo 128 >still.lmp
    says 'no memory for a file, demos' 3 'still.lmp: version 109, skill 3, episode 1, map 1, 1 player, 0 tics, 0:00.00\n' \
        'wadlens: no memory left\n' demos still.lmp most.wad
    memory=400000
    says 'memory of one file at a time' 0 '0 levels in 3 files: 0 faults, 0 notes, 0 not judged\n' '' check most.wad most.wad most.wad
    rm most.wad
}
