# Completes the words of wadlens in fish. Install it as /usr/share/fish/vendor_completions.d/wadlens.fish or ~/.config/fish/completions/wadlens.fish.

# Whether the command is one of these.
function __wadlens_is
    set -l words (commandline -opc)
    contains -- "$words[2]" $argv
end

# What --ignore and --fail take, beside ranges, and the codes that explain takes, each with what it says.
# tools/tables writes from here
set -g __wadlens_codes \
    game 'what ends the game' \
    notes 'all notes' \
    warnings 'all warnings' \
    N1 'lump name differs' \
    N2 'bytes left over' \
    N3 'two-sided flag without side 1' \
    N4 'no side 0' \
    N5 'linedef of no length' \
    N6 'ssector without segs' \
    N7 'partition without direction' \
    N8 'REJECT size' \
    N9 'BLOCKMAP short' \
    N10 'block list faulty' \
    N11 'no player 1 start' \
    N12 'vertex out of range' \
    W1 'sector not closed' \
    W2 'wall without texture' \
    W3 'thing in the void' \
    W4 'tag of no sector' \
    W5 'segs face several sectors' \
    W6 'linedef on another' \
    W7 'no start of players 2 to 4' \
    W8 'fewer than 4 deathmatch starts' \
    W9 'texture not there' \
    W10 'flat not there' \
    W11 'thing of no known type' \
    W12 'reserved' \
    W13 'reserved' \
    W14 'unknown special' \
    W15 'special with tag 0' \
    W16 'special that acts on nothing' \
    W17 'use ends or spoils the game' \
    W18 'floor that ends the game' \
    W19 'no exit, or a key missing' \
    W20 'reserved' \
    W21 'thing unread, unplaced or deadly' \
    W22 'limit of the game passed' \
    W23 'reserved' \
    W24 'reserved' \
    W25 'flat not between its ends'
set -g __wadlens_explained \
    F1 'lump missing after the label' \
    F2 'lump outside its file' \
    F3 'linedef vertex names none' \
    F4 'linedef side names none' \
    F5 'sidedef sector names none' \
    F6 'seg vertex names none' \
    F7 'seg linedef names none' \
    F8 'seg side is not 0 or 1' \
    F9 'seg\'s linedef has no side there' \
    F10 'ssector\'s segs out of range' \
    F11 'child names nothing' \
    F12 'node origin out of range' \
    F13 'node named twice or root named' \
    F14 'node not reached' \
    F15 'ssector named more than once' \
    F16 'ssector not reached' \
    F17 'no ssector' \
    F18 'more than 32767 nodes' \
    N1 'lump name differs' \
    N2 'bytes left over' \
    N3 'two-sided flag without side 1' \
    N4 'no side 0' \
    N5 'linedef of no length' \
    N6 'ssector without segs' \
    N7 'partition without direction' \
    N8 'REJECT size' \
    N9 'BLOCKMAP short' \
    N10 'block list faulty' \
    N11 'no player 1 start' \
    N12 'vertex out of range' \
    W1 'sector not closed' \
    W2 'wall without texture' \
    W3 'thing in the void' \
    W4 'tag of no sector' \
    W5 'segs face several sectors' \
    W6 'linedef on another' \
    W7 'no start of players 2 to 4' \
    W8 'fewer than 4 deathmatch starts' \
    W9 'texture not there' \
    W10 'flat not there' \
    W11 'thing of no known type' \
    W12 'reserved' \
    W13 'reserved' \
    W14 'unknown special' \
    W15 'special with tag 0' \
    W16 'special that acts on nothing' \
    W17 'use ends or spoils the game' \
    W18 'floor that ends the game' \
    W19 'no exit, or a key missing' \
    W20 'reserved' \
    W21 'thing unread, unplaced or deadly' \
    W22 'limit of the game passed' \
    W23 'reserved' \
    W24 'reserved' \
    W25 'flat not between its ends'
# tools/tables writes up to here

# Prints these behind those that stand there, with commas between.
function __wadlens_named
    set -l given (commandline -ct | string replace -r '^--(ignore|fail)=' '' | string replace -r '[^,]*$' '')
    for k in (seq 1 2 (count $__wadlens_codes))
        printf '%s%s\t%s\n' "$given" $__wadlens_codes[$k] $__wadlens_codes[(math $k + 1)]
    end
end

# Prints all codes, each with what it says.
function __wadlens_explainable
    set -l all $__wadlens_explained
    for k in (seq 1 2 (count $all))
        printf '%s\t%s\n' $all[$k] $all[(math $k + 1)]
    end
end

# Prints the folders, and the files with one of these endings in small or capital letters.
function __wadlens_files
    set -l endings (string join '|' $argv)
    set -l word (commandline -ct)
    complete -C "__fish_command_without_completions $word" | string match -ri "^.*(?:/|\.(?:$endings))\$"
end

complete -c wadlens -f
complete -c wadlens -n __fish_use_subcommand -l help -d 'print the help'
complete -c wadlens -n __fish_use_subcommand -l version -d 'print the version'
complete -c wadlens -n __fish_use_subcommand -a check -d 'the findings of each level, a line each'
complete -c wadlens -n __fish_use_subcommand -a survey -d 'a JSON object a line for each level and each refused file'
complete -c wadlens -n __fish_use_subcommand -a picture -d 'a level drawn as an SVG'
complete -c wadlens -n __fish_use_subcommand -a atlas -d 'a folder of pictures with a page over all levels, and their survey'
complete -c wadlens -n __fish_use_subcommand -a explain -d 'what a code means, or the list of all codes'
complete -c wadlens -n __fish_use_subcommand -a cut -d 'one level, even a hidden one, as a WAD file'
complete -c wadlens -n __fish_use_subcommand -a demos -d 'a line for each demo'
complete -c wadlens -n __fish_use_subcommand -a compare -d 'where two demo files first differ'
complete -c wadlens -n __fish_use_subcommand -a listing -d 'the header, the options and the commands of a demo file'
complete -c wadlens -n __fish_use_subcommand -a assemble -d 'a demo from a listing on standard input'

complete -c wadlens -n '__wadlens_is check survey picture atlas' -l wide -d 'read the indexes as numbers from 0 to 65535'
complete -c wadlens -n '__wadlens_is check survey atlas' -l map -d 'also report likely mapping mistakes'
complete -c wadlens -n '__wadlens_is picture' -l map -d 'also mark likely mapping mistakes'
complete -c wadlens -n '__wadlens_is check survey atlas' -l strict -d 'end with status 1 at a warning, too'
complete -c wadlens -n '__wadlens_is check survey atlas' -l base -x -a '(__wadlens_files wad)' -d 'a file on which every file stands, as a game\'s IWAD'
complete -c wadlens -n '__wadlens_is check survey picture atlas' -l ignore -x -a '(__wadlens_named)' -d 'ignore these notes and warnings, as N2,W7-W8'
complete -c wadlens -n '__wadlens_is check survey atlas' -l fail -x -a '(__wadlens_named)' -d 'end with status 1 at these, too, as N2,W9-W11 or game'
complete -c wadlens -n '__wadlens_is check atlas' -l max -x -d 'show at most so many findings or warnings of one code in one level, 0: all'
complete -c wadlens -n '__wadlens_is picture atlas' -l cells -x -d 'at most so many cells along the longer side of a picture'
complete -c wadlens -n '__wadlens_is picture' -l frame -x -d 'the cells of this part of the map alone, X0,Y0,X1,Y1'
complete -c wadlens -n '__wadlens_is atlas' -l out -x -a '(__fish_complete_directories)' -d 'the folder to write into'
complete -c wadlens -n '__wadlens_is atlas' -l title -x -d 'the title of the page'
complete -c wadlens -n '__wadlens_is atlas' -l day -x -d 'the day that the page shows'
complete -c wadlens -n '__wadlens_is cut' -l entry -x -d 'the number of the label among the entries, from 0 on'
complete -c wadlens -n '__wadlens_is cut' -l level -x -d 'the name of the level'
complete -c wadlens -n '__wadlens_is check' -l json -d 'a JSON object a line for each finding'
complete -c wadlens -n '__wadlens_is check' -l quiet -d 'nothing on standard output'
complete -c wadlens -n '__wadlens_is demos' -l json -d 'a JSON object a line for each demo'
complete -c wadlens -n '__wadlens_is compare' -l commands -d 'the number of players and what the commands do, and no header'
complete -c wadlens -n '__wadlens_is check survey atlas demos' -l files-from -r -F -d 'then the files whose paths stand in a list, - for standard input'
complete -c wadlens -n '__wadlens_is check survey atlas demos' -l null -d 'the paths of the list are ended by NULs'
complete -c wadlens -n '__wadlens_is check survey atlas demos' -l progress -d 'show on standard error how many files and levels are done'
complete -c wadlens -n '__wadlens_is check survey picture atlas explain cut demos compare listing assemble' -l help -d 'print the help'

complete -c wadlens -n '__wadlens_is check survey picture atlas cut' -a '(__wadlens_files wad)'
complete -c wadlens -n '__wadlens_is explain' -a '(__wadlens_explainable)'
complete -c wadlens -n '__wadlens_is demos' -a '(__wadlens_files wad lmp)'
complete -c wadlens -n '__wadlens_is compare listing' -a '(__wadlens_files lmp)'
