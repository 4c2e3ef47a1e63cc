# Completes the words of wadlook in fish. Install it as /usr/share/fish/vendor_completions.d/wadlook.fish or ~/.config/fish/completions/wadlook.fish.

# What follows each command, in order: `wide` where `--wide` may stand first; a name; one file, or files to the end.
set -g __wadlook_form_lumps wads
set -g __wadlook_form_levels wads
set -g __wadlook_form_show wide level wads
set -g __wadlook_form_audit wide level wads
set -g __wadlook_form_points wide level wads
set -g __wadlook_form_census wide level wads
set -g __wadlook_form_sight level wads
set -g __wadlook_form_blocks wide level wads
set -g __wadlook_form_demo demo wads
set -g __wadlook_form_lmp lmp
set -g __wadlook_form_extract level wads

# Prints what may stand in the place of the word that is written: one or two words of a form, `command` for the first.
function __wadlook_next
    set -l words (commandline -opc)
    set -l place (math (count $words) - 1)
    if test $place -eq 0
        echo command
        return
    end
    set -l name __wadlook_form_$words[2]
    set -l form $$name
    set -q form[1]; or return
    if test $form[1] = wide; and test "$words[3]" != --wide
        test $place -gt 1; or echo wide
        set -e form[1]
    end
    if set -q form[$place]
        echo $form[$place]
    else if test $form[-1] = wads
        echo wads
    end
end

# Whether this may stand there.
function __wadlook_takes
    contains -- $argv[1] (__wadlook_next)
end

# Prints the folders, and the files with this ending in small or capital letters.
function __wadlook_files
    set -l word (commandline -ct)
    complete -C "__fish_command_without_completions $word" | string match -ri "^.*(?:/|\.$argv[1])\$"
end

complete -c wadlook -f
complete -c wadlook -n '__wadlook_takes command' -a lumps -d 'the kind of each file, and its entries'
complete -c wadlook -n '__wadlook_takes command' -a levels -d 'the levels of all files, and which of them are hidden'
complete -c wadlook -n '__wadlook_takes command' -a show -d 'the records of a level'
complete -c wadlook -n '__wadlook_takes command' -a audit -d 'the faults and notes of a level'
complete -c wadlook -n '__wadlook_takes command' -a points -d 'the sector and the ssector of each point of the input'
complete -c wadlook -n '__wadlook_takes command' -a census -d 'how many points of each rectangle of the input each sector has'
complete -c wadlook -n '__wadlook_takes command' -a sight -d 'whether REJECT refuses the sight, for each pair of sectors of the input'
complete -c wadlook -n '__wadlook_takes command' -a blocks -d 'the list of the block of each point of the input'
complete -c wadlook -n '__wadlook_takes command' -a demo -d 'the tics of a demo in a WAD file'
complete -c wadlook -n '__wadlook_takes command' -a lmp -d 'the tics of a demo file'
complete -c wadlook -n '__wadlook_takes command' -a extract -d 'a PWAD of the level alone'
complete -c wadlook -n '__wadlook_takes wide' -a --wide -d 'read the indexes as numbers from 0 to 65535'
complete -c wadlook -n '__wadlook_takes level' -a 'E(seq 4)M(seq 9) MAP(seq -w 32)'
complete -c wadlook -n '__wadlook_takes demo' -a 'DEMO1 DEMO2 DEMO3 DEMO4'
complete -c wadlook -n '__wadlook_takes wads' -a '(__wadlook_files wad)'
complete -c wadlook -n '__wadlook_takes lmp' -a '(__wadlook_files lmp)'
