# Completes the words of jop in fish: its commands and their options, behind check, sync and upgrade the targets, `mem:`, `dir:` with a folder
# and `dav:`, and files behind attach and --profile. Behind a redirection fish offers files by itself.

# Whether so many words stand before the one at the cursor, from the command on, and the command is one of these.
function __jop_at
    set -l words (commandline -opc)
    set -e words[1]
    if test "$words[1]" = --profile
        test (count $words) -gt 1; or return 1
        set -e words[1..2]
    end
    test (count $words) -eq $argv[1]; or return 1
    test (count $argv) -eq 1; or contains -- "$words[1]" $argv[2..-1]
end

# The targets that begin as the word at the cursor.
function __jop_targets
    set -l word (commandline -ct)
    if string match -q 'dir:*' -- $word
        for folder in (__fish_complete_directories (string sub -s 5 -- $word) folder)
            echo dir:$folder
        end
    else if not string match -q -r '^(web)?dav:' -- $word
        printf '%s\n' mem: dir: dav: webdav:
    end
end

complete -c jop -f
complete -c jop -n 'test (count (commandline -opc)) -eq 1' -l profile -r -F -d 'the file of the tables'
complete -c jop -n '__jop_at 0' -a add -d 'make a note in a notebook, of standard input'
complete -c jop -n '__jop_at 0' -a attach -d 'make a resource of standard input'
complete -c jop -n '__jop_at 0' -a blob -d 'print the bytes of a resource'
complete -c jop -n '__jop_at 0' -a cat -d 'print the text of an item'
complete -c jop -n '__jop_at 0' -a check -d 'take a sync lock on a target, and release it'
complete -c jop -n '__jop_at 0' -a conflicts -d 'list the texts that a sync has put aside'
complete -c jop -n '__jop_at 0' -a edit -d 'give a note standard input as its text'
complete -c jop -n '__jop_at 0' -a find -d 'list the notes that have a text'
complete -c jop -n '__jop_at 0' -a help -d 'print the usage line'
complete -c jop -n '__jop_at 0' -a keys -d 'list the master keys'
complete -c jop -n '__jop_at 0' -a ls -d 'list the notebooks, or the notes of one'
complete -c jop -n '__jop_at 0' -a mkbook -d 'make a notebook'
complete -c jop -n '__jop_at 0' -a move -d 'put a note or a notebook into a notebook'
complete -c jop -n '__jop_at 0' -a rename -d 'give a note or a notebook another title'
complete -c jop -n '__jop_at 0' -a resources -d 'list the resources'
complete -c jop -n '__jop_at 0' -a rm -d 'remove an item'
complete -c jop -n '__jop_at 0' -a sync -d 'bring notes and a target together'
complete -c jop -n '__jop_at 0' -a tag -d 'give a note a tag'
complete -c jop -n '__jop_at 0' -a tags -d 'list the tags'
complete -c jop -n '__jop_at 0' -a tidy -d 'read an item text, and print its canonical text'
complete -c jop -n '__jop_at 0' -a trash -d 'list what lies in the wastebasket'
complete -c jop -n '__jop_at 0' -a untag -d 'take a tag off a note'
complete -c jop -n '__jop_at 0' -a upgrade -d 'bring a target to version 3'
complete -c jop -n '__jop_at 0' -a version -d 'print the version of the program'
complete -c jop -n '__jop_at 1 attach' -F
complete -c jop -n '__jop_at 1 conflicts' -l clear -d 'take out one of them'
complete -c jop -n '__jop_at 1 conflicts' -l show -d 'print one of them'
complete -c jop -n '__jop_at 1 keys' -l new -d 'make one under a password'
complete -c jop -n '__jop_at 1 keys' -l use -d 'make one active'
complete -c jop -n '__jop_at 1 ls' -l tag -d 'the notes of a tag'
complete -c jop -n '__jop_at 2 blob' -l password -d 'the password of its key'
complete -c jop -n '__jop_at 2 edit' -l title -d 'another title, beside the text'
complete -c jop -n '__jop_at 2 mkbook' -l in -d 'in this notebook'
complete -c jop -n '__jop_at 1 check sync upgrade' -a '(__jop_targets)'
