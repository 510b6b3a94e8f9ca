# What fish offers after `desk`: first words, the words of each form, then files and folders.
#
# A line for each form of words, as `desk help` prints them, which `tests/completion -w` writes: `|` stands between words of
# which one is typed there, and FILE, FOLDER, NUMBER and TEXT for what is no fixed word; `FILE..` may be typed again.
set -g __desk_forms '
implies FILE TEXT
explain implies FILE TEXT
check proof FILE FILE TEXT
check derivation FILE FILE TEXT
check rows FILE FILE
check references FILE NAMES FILE NAMES2
check key FILE TEXT
check join FILE FILE
check form 2nf|3nf|bcnf|4nf FILE FILE
check keeps FILE FILE
check same FILE FILE
check cover FILE FILE
check cover canonical FILE FILE
cover FILE
cover canonical FILE
basis FILE TEXT
closure FILE TEXT
project FILE TEXT
keys FILE
keys FILE FILE
form FILE
form FILE FILE
synthesize FILE
synthesize fewest FILE
split bcnf|4nf|wide-bcnf FILE
exhibit FILE
explain cover|keys|synthesize FILE
explain synthesize fewest FILE
explain split bcnf|4nf FILE
measure FILE FILE
offences FILE FILE
offences rows FILE FILE
kept FILE FILE
ddl 3nf|bcnf|4nf FILE
ddl plan FILE FILE
migrate 3nf|bcnf|4nf FILE FILE
migrate plan FILE FILE FILE
migrate 3nf|bcnf|4nf FILE FILE into FOLDER
migrate plan FILE FILE FILE into FOLDER
sample NUMBER
discover FILE
discover NUMBER FILE
discover keys|all FILE
discover near NUMBER NUMBER FILE
discover references FILE..
import csv FILE
import sqlite|postgres FILE TEXT
rejoin FILE FILE..
sql check|measure FILE TEXT
sql migrate 3nf|bcnf|4nf FILE TEXT
sql migrate plan FILE FILE TEXT
draw 3nf|bcnf|4nf FILE
draw plan FILE FILE
report FILE
report FILE FILE
help
--help
--version
'

# Whether a word may stand for this part of a form.
function __desk_fits
    switch $argv[1]
        case 'FILE*' FOLDER TEXT
            test -n "$argv[2]"
        case NUMBER
            string match -qr '^[0-9]+$' -- $argv[2]
        case '*'
            contains -- $argv[2] (string split '|' -- $argv[1])
    end
end

function __desk_offers
    set -l typed (commandline -opc)
    set -e typed[1]
    set -l current (commandline -ct)
    set -l place (math (count $typed) + 1)
    set -l offered
    set -l has_files
    set -l has_folders
    for line in (string split \n -- $__desk_forms)
        set -l form (string split -n ' ' -- $line)
        test (count $form) -gt 0; or continue
        while test (count $form) -lt $place; and test $form[-1] = FILE..
            set -a form FILE..
        end
        test (count $form) -ge $place; or continue
        set -l fits 1
        for at in (seq (count $typed))
            __desk_fits $form[$at] $typed[$at]; or set fits
        end
        test -n "$fits"; or continue
        switch $form[$place]
            case 'FILE*'
                set has_files 1
            case FOLDER
                set has_folders 1
            case NUMBER TEXT
            case '*'
                set -a offered (string split '|' -- $form[$place])
        end
    end
    for word in $offered
        echo $word
    end
    test -n "$has_files"; and __fish_complete_path $current
    test -n "$has_folders"; and __fish_complete_directories $current
end

complete -c desk -f -a '(__desk_offers)'
