# Cases of the sample, words, files, failed ends, `lumps`, `levels` and `extract`, which tests/wadlook runs.
# shellcheck shell=bash disable=SC2034,SC2059,SC2154  # what tests/wadlook sets and reads; texts are as printf takes them

cases_of_sample() {
    level >output
    judge_output 'the sample level is packed from its table' "$(bytes_of base.wad)"
}

cases_of_words() {
    local empties
    read -r -a empties < <(times 63 'empty.wad ')
    prints 'no words' 'wadlook CMD [NAME] FILE...\n'
    prints 'lumps of 64 files' "$(printf 'file %s PWAD 0\\n' {1..64})" lumps empty.wad "${empties[@]}"
    refuses 'lumps of 65 files' usage lumps empty.wad empty.wad "${empties[@]}"
    answers 'points in 64 files' '0 5\n' '0 5 sector 1 ssector 1\n' points E1M1 "${empties[@]}" base.wad
    answers 'wide points in 64 files' '0 5\n' '0 5 sector 1 ssector 1\n' points --wide E1M1 "${empties[@]}" base.wad
    refuses 'points in 65 files' usage points E1M1 base.wad base.wad "${empties[@]}"
    refuses 'jobs: a NAME and no file' usage points E1M1
    refuses 'jobs: a capital letter' usage Points E1M1 base.wad
    refuses 'jobs: two demo files' usage lmp base.wad base.wad
    refuses 'jobs: a file that begins with -' usage lumps -x
    refuses 'jobs: sight is never wide' usage sight --wide E1M1 base.wad
    refuses 'jobs: --wide after NAME' usage points E1M1 --wide base.wad
    refuses 'a command alone' usage lumps
    refuses 'no such command' usage look base.wad
    refuses 'an empty command' usage '' base.wad
    refuses 'an empty word' usage ''
    refuses 'a command that begins with -' usage --lumps base.wad
    refuses 'a second file that begins with -' usage lumps base.wad -
    refuses 'a NAME that begins with -' usage points -E1M1 base.wad
    refuses '--wide twice' usage points --wide --wide E1M1 base.wad
    refuses '--wide before the command' usage --wide points E1M1 base.wad
    refuses '--wide with no file' usage points --wide E1M1
    refuses '--wide twice, and a file' usage points --wide --wide base.wad
    refuses 'lumps is never wide' usage lumps --wide base.wad
    refuses 'words that are no form, before a file that is not there' usage lumps no.wad -x
    refuses 'a word that is not UTF-8' usage points $'\xff' base.wad
    # The file is there, so it's the word that is refused.
    cp base.wad $'\xff.wad'
    refuses 'a path that is not UTF-8' usage lumps $'\xff.wad'
}

cases_of_files() {
    refuses 'no such file' 'file 1: read' lumps no.wad
    refuses 'an empty path' 'file 1: read' lumps ''
    refuses 'a folder' 'file 1: read' lumps folder
    cases_of_unread_files
    refuses 'a second file that is not there' 'file 2: read' lumps base.wad no.wad
    refuses 'an unreadable file before a faulty first one' 'file 3: read' points E1M1 none.wad base.wad folder
    refuses 'a file that is not there, before a NAME that is not there' 'file 1: read' points E2M9 no.wad
    prints 'a file from a pipe' 'file 1 PWAD 0\n' lumps <(cat empty.wad)
    # A file of other bytes lies under the path without its last byte.
    cp empty.wad 'base.wad '
    cp empty.wad $'base.wad\t'
    prints 'a path that ends in a blank' 'file 1 PWAD 0\n' lumps 'base.wad '
    prints 'a path that ends in a tab' 'file 1 PWAD 0\n' lumps $'base.wad\t'
    cp empty.wad ' base.wad'
    prints 'a path that begins with a blank' 'file 1 PWAD 0\n' lumps ' base.wad'
    local size fault said cuts=''
    : >output
    for ((size = 0; size < 409; size++)); do
        head -c "$size" base.wad >cut.wad
        said=$("$program" lumps cut.wad 2>&1 <none.wad)
        printf '%s bytes, status %s: %s\n' "$size" $? "$said" >>output
        fault='1 short'
        ((size < 12)) || fault='4 directory'
        cuts+="$size bytes, status 2: refused: file 1: $fault\n"
    done
    judge_output 'wad_cut' "$cuts"
    printf 'XWAD%b' "$(words -1 -1 0 0)" >magic.wad
    printf 'PWAD%b' "$(words -1 -1 0 0)" >count.wad
    refuses 'refused_directories: magic' 'file 1: 2 magic' lumps magic.wad
    refuses 'refused_directories: count' 'file 1: 3 count' lumps count.wad
    head -c 11 empty.wad >eleven.wad
    refuses 'refused_directories: a second file' 'file 2: 1 short' lumps base.wad eleven.wad
    refuses 'refused_directories: a second file of no bytes' 'file 2: 1 short' lumps base.wad none.wad
    refuses 'a third file' 'file 3: 3 count' lumps base.wad empty.wad count.wad
    # shellcheck disable=SC2046  # words
    refuses 'the last of 64 files' 'file 64: 4 directory' lumps $(times 63 'empty.wad ') cut.wad
    refuses 'the first refused file of two' 'file 2: 3 count' points E1M1 base.wad count.wad magic.wad
    refuses 'a refused file before a NAME that is not there' 'file 2: 2 magic' points E2M9 base.wad magic.wad
    cases_of_large_files
}

# Files of many bytes: a directory of no entries, and then a hole.
cases_of_large_files() {
    local most=268435456
    cp empty.wad most.wad
    truncate -s "$most" most.wad
    prints 'a file of as many bytes as there may be' 'file 1 PWAD 0\n' lumps most.wad
    refuses 'a file of one byte more' 'file 1: too long' lumps <(cat most.wad none.wad <(printf x))
    refuses 'a second file with no byte left for it' 'file 2: too long' lumps most.wad empty.wad
    refuses 'a second file that has no bytes, with none left' 'file 2: 1 short' lumps most.wad none.wad
    refuses 'files that are too long, before a faulty first one' 'file 3: too long' lumps none.wad most.wad empty.wad
    wants_memory 'a file that there is no memory for' 65536 lumps most.wad
    wants_memory 'a second file that there is no memory for' 65536 points E1M1 empty.wad most.wad
    cp empty.wad half.wad
    truncate -s $((most / 2)) half.wad
    prints 'a file twice, as many bytes as there may be' 'file 1 PWAD 0\nfile 2 PWAD 0\n' lumps half.wad half.wad
    truncate -s $((most / 2 + 1)) half.wad
    refuses 'a file twice, counted twice' 'file 2: too long' lumps half.wad half.wad
    refuses 'a file that is too long, before one that is not there' 'file 2: too long' lumps half.wad half.wad no.wad
    truncate -s $((most / 3 + 1)) half.wad
    refuses 'a file three times, counted three times' 'file 3: too long' lumps half.wad half.wad half.wad
    rm most.wad half.wad
}

# Files that are there, and can't be opened or read.
cases_of_unread_files() {
    ln -s loop loop
    refuses 'a link to itself' 'file 1: read' lumps loop
    refuses 'a link to itself, of a demo' 'file 1: read' lmp loop
    # The program's own memory, which has nothing at place 0.
    if (exec </proc/self/mem && ! head -c 1) >output 2>&1; then
        refuses 'a file whose read fails' 'file 1: read' lumps /proc/self/mem
        refuses 'a demo whose read fails' read lmp /proc/self/mem
    else
        printf 'skipped, as /proc/self/mem is not one: files whose read fails\n'
    fi
    local as=() command
    # Root reads every file, so it asks as nobody.
    ((EUID)) || as=(setpriv --reuid 65534 --clear-groups)
    chmod 711 .
    chmod 644 base.wad
    if ! "${as[@]}" "$program" lumps base.wad >output 2>&1; then
        printf 'skipped, as root cannot run the program as nobody: a file that may not be read\n'
        return
    fi
    cp base.wad closed.wad
    chmod 0 closed.wad
    for command in lumps lmp; do
        timeout 60 "${as[@]}" "$program" "$command" closed.wad >output 2>error <none.wad
        printf '%s' $? >status
        : >left
        judge "a file that may not be read, $command" 2 '' 'refused: file 1: read\n' ''
    done
}

# The input and the output of a run: how much is read, what a run that stops has written, and when.
cases_of_ends() {
    local form='refused: form\n'
    cannot_write 'no words' ''
    cannot_write 'lumps' '' lumps base.wad
    cannot_write 'points' '0 5\n' points E1M1 base.wad
    answers 'line_forms: no input' '' '' points E1M1 base.wad
    stops 'an input that cannot be read' '' read points E1M1 base.wad <folder
    cases_of_a_write_that_fails_once
    refuses 'an input is left where the file is refused' 'file 1: 1 short' points E1M1 none.wad
    refuses 'an input is left where the NAME is not there' '8 no label' points E2M9 base.wad

    # A first line, and a second one up to the end of what may be read.
    {
        printf '0 5\n'
        head -c 16777211 /dev/zero | tr '\0' x
    } >long
    { cat long; printf '\n'; } >input
    timeout 60 "$program" points E1M1 base.wad <input >output 2>error
    printf '%s' $? >status
    : >left
    judge 'an input of as many bytes as there may be' 0 "0 5 sector 1 ssector 1\n$form" '' ''
    stops 'an input of one byte more' "0 5 sector 1 ssector 1\n$form" 'too long' points E1M1 base.wad < <(cat long <(printf '\nx'))
    stops 'a census of one byte more' "$form$form" 'too long' census E1M1 base.wad < <(cat long <(printf '\nx'))
    stops 'a line that ends past the limit' '0 5 sector 1 ssector 1\n' 'too long' points E1M1 base.wad < <(cat long <(printf 'x\n'))
    stops 'endless_reader' '' 'too long' points E1M1 base.wad < <(tr '\0' 1 </dev/zero)
    rm long input

    # Each answer is there before the next line is asked for, and none before its line has ended. (A subshell writes, so
    # that a program that is gone doesn't end this script.)
    local first='' second='' third=''
    mkfifo to from
    timeout 60 "$program" points E1M1 base.wad <to >from 2>error &
    exec 8>to 9<from
    (printf '1 5\n' >&8)
    IFS= read -r -t 20 first <&9
    (printf '0' >&8)
    IFS= read -r -t 0.2 second <&9
    (printf ' 5\n' >&8)
    IFS= read -r -t 20 third <&9
    exec 8>&-
    printf '%s;' "$first" "$second" "$third" >output
    wait $!
    printf '%s' $? >status
    cat <&9 >left
    exec 9<&-
    judge 'answers in a pipe' 0 '1 5 sector 0 ssector 0;;0 5 sector 1 ssector 1;' '' ''
}

# The answers are flushed before the second read. If that write fails, the run ends with it, though the next write would go.
cases_of_a_write_that_fails_once() {
    local compiler=${CC:-cc}
    wants "$compiler" 'a write that fails once' || return
    check 'what fails a write' "$compiler" -O2 -shared -fPIC -o failing.so "$root/tests/failing_write.c"
    printf '0 5\n1 5\n' >input
    timeout 60 env LD_PRELOAD="$PWD/failing.so" FAILING=1 "$program" points E1M1 base.wad <input >output 2>error
    printf '%s' $? >status
    # What the buffer still had may come behind it.
    : >output
    : >left
    judge 'a write before a read that fails once' 2 '' 'refused: write\n' ''
}

# listing FILE FIRST: what `lumps` tells of the sample as file FILE, with entries from FIRST.
listing() {
    local entry places=('12 0 E1M1' '12 10 THINGS' '22 14 LINEDEFS' '36 60 SIDEDEFS' '96 8 VERTEXES' '104 24 SEGS'
        '128 8 SSECTORS' '136 28 NODES' '164 52 SECTORS' '216 1 REJECT' '217 16 BLOCKMAP')
    printf 'file %s PWAD 11\\n' "$1"
    for entry in "${!places[@]}"; do printf '%s %s\\n' $(($2 + entry)) "${places[entry]}"; done
}

cases_of_lumps() {
    prints lumps_text "$(listing 1 0)" lumps base.wad
    wants_memory_at_first 'a listing that there is no memory for' "$(listing 1 0)" lumps base.wad
    prints empty_directory 'file 1 PWAD 0\n' lumps empty.wad
    prints 'entries are numbered on' "$(listing 1 0)file 2 PWAD 0\n$(listing 3 11)" lumps base.wad empty.wad base.wad
    printf 'IWAD%b' "$(words 0 0 0 0)" >iwad.wad
    prints 'an IWAD' 'file 1 IWAD 0\nfile 2 PWAD 0\n' lumps iwad.wad empty.wad
    printf "PWAD$(words 1 0 13 0)!$(words 12 0 1 0)$(bytes 97 92 32 255 0 0 0 0)" >names.wad
    prints a_name_is_shown 'file 1 PWAD 1\n0 12 1 a\\x5c\\x20\\xff\n' lumps names.wad
    printf 'PWAD%b' "$(words 3 0 12 0)$(words -5 -1 0 0)$(bytes 65 92 32 0 66 0 0 0)" >names.wad
    printf "$(words 0 -32768 -1 -1)$(name8 '')$(words -1 32767 -1 32767)$(bytes 101 49 109 49 127 255 33 126)" >>names.wad
    prints 'name_shown, numbers and names as they stand' \
        'file 1 PWAD 3\n0 -5 0 A\\x5c\\x20\n1 -2147483648 -1 \n2 2147483647 2147483647 e1m1\\x7f\\xff!~\n' lumps names.wad
}

# so_many_labels COUNT: the directory of levels named A0000000 and on, of which the last lacks its lumps.
so_many_labels() {
    local name none=~~~~~~~~ lumps=''
    for name in "${usual[@]}"; do lumps+=$none$name${none:${#name}}; done
    seq -f "${none}A%07.0f" -s "$lumps" 0 $(($1 - 1)) | tr '~' '\0'
}

cases_of_levels() {
    local count=131072 entries=8388607 lines
    prints 'the level of the sample' '0 E1M1\n' levels base.wad
    prints levels_hidden '0 E1M1 hidden\n11 E1M1\n' levels base.wad base.wad
    prints 'a level that goes on in a second file' '0 E1M1\n' levels label.wad ten_lumps.wad
    prints 'a lump missing' '' levels nine_lumps.wad
    prints 'no entries' '' levels empty.wad
    patched base.wad $(($(entry 7) + 8)) "$(name8 NODEZ)" >level.wad
    prints 'a lump of another name' '' levels level.wad
    patched base.wad $(($(entry 10) + 8)) "$(name8 BLOCKMAQ)" >level.wad
    prints 'labels_with_ten_lumps: a last lump of another name' '' levels level.wad
    level BLOCKMAP '' >level.wad
    prints 'labels_with_ten_lumps: a last lump of no bytes' '0 E1M1\n' levels level.wad
    patched base.wad $(($(entry 0) + 8)) "$(name8 e1m1)" >level.wad
    prints 'a label with small letters' '0 e1m1 hidden\n11 E1M1\n' levels level.wad base.wad
    prints small_letters_and_lumps '0 e1m1 hidden\n11 E1M1 hidden\n' levels level.wad base.wad label.wad
    patched base.wad $(($(entry 7))) "$(words -1 -1 -1 -1)" >level.wad
    prints 'places are not looked at' '0 E1M1\n' levels level.wad
    refuses 'refused_directories: a second file' 'file 2: 1 short' levels base.wad none.wad

    # Behind the levels, a hole of entries: a look-up from the last entry back for each label would take many minutes.
    {
        printf "PWAD$(words "$entries" $((entries >> 16)) 12 0)"
        so_many_labels "$count"
    } >many.wad
    truncate -s $((12 + 16 * entries)) many.wad
    lines=$(paste -d ' ' <(seq 0 11 $((11 * (count - 2)))) <(seq -f 'A%07.0f' 0 $((count - 2))))
    prints 'many levels of many entries' "$lines\n" levels many.wad
    rm many.wad
    cannot_write levels '' levels base.wad
}

cases_of_extract() {
    printf 'IWAD' >iwad.wad
    tail -c +5 base.wad >>iwad.wad
    prints packed "$(bytes_of base.wad)" extract E1M1 base.wad
    prints 'packed, of an IWAD' "$(bytes_of base.wad)" extract e1m1 iwad.wad
    prints 'the last file wins' "$(bytes_of no_direction.wad)" extract E1M1 base.wad no_direction.wad
    prints 'a level that goes on in a second file' "$(bytes_of base.wad)" extract E1M1 label.wad ten_lumps.wad
    prints extract_keeps_rest "$(bytes_of bytes_left_over.wad)" extract E1M1 bytes_left_over.wad
    cp output level.wad
    finds 'extract_keeps_rest, audited' 'N2 8' E1M1 level.wad
    patched base.wad $(($(entry 7) + 8)) "$(name8 NODEZ)" >level.wad
    prints 'names are those of the entries' "$(bytes_of level.wad)" extract E1M1 level.wad
    refuses lump_places 'F2 7' extract E1M1 nodes_outside.wad
    refuses 'a NAME that is not there' '8 no label' extract E2M9 base.wad

    # Ten lumps over the same bytes, a hole, which come to one byte more than a file may have. That is told before room is
    # made for them.
    local name size=214748346
    {
        printf "PWAD$(words 11 0 12 0 0 0 0 0)$(name8 E1M1)"
        for name in "${usual[@]}"; do printf "$(words 0 0 "$size" $((size >> 16)))$(name8 "$name")"; done
    } >large.wad
    truncate -s "$size" large.wad
    memory=1048576 refuses pack_is_too_large '7 too large' extract E1M1 large.wad
    rm large.wad
    cases_of_little_memory
    refuses 'extract is never wide' usage extract --wide E1M1 base.wad
    cannot_write extract '' extract E1M1 base.wad
}

# Ten lumps over the same 20 MB: there is memory for the file, and none for the 200 MB that are packed.
cases_of_little_memory() {
    local name size=20000000
    {
        printf "PWAD$(words 11 0 12 0 0 0 0 0)$(name8 E1M1)"
        for name in "${usual[@]}"; do printf "$(words 0 0 "$size" $((size >> 16)))$(name8 "$name")"; done
    } >large.wad
    truncate -s "$size" large.wad
    wants_memory 'texts: no memory for what is packed' 131072 extract E1M1 large.wad
    rm large.wad
}
