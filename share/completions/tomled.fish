# What fish offers behind `tomled`. tests/words.py compares the words with those of --help.

function __tomled_first -d 'The next word is the command'
    test (count (commandline -opc)) -eq 1
end

function __tomled_in -d 'The command is one of these'
    set -l words (commandline -opc)
    set -q words[2]; and contains -- $words[2] $argv
end

function __tomled_below -d 'Fewer than so many words that are no options stand behind the command'
    set -l words (commandline -opc)
    set -e words[1..2]
    set -l given 0
    set -l is_value 0
    for word in $words
        if test $is_value -eq 1
            set is_value 0
        else if contains -- $word --certificate --default --layout --profile
            set is_value 1
        else if not string match -q -- '-?*' $word
            set given (math $given + 1)
        end
    end
    test $given -lt $argv[1]
end

complete -c tomled -f
complete -c tomled -n __tomled_first -a get -d 'Print what stands at a place of a TOML document'
complete -c tomled -n __tomled_first -a validate -d 'Say which files are no TOML documents, where, and why'
complete -c tomled -n __tomled_first -a check -d 'Say whether a file is a TOML document'
complete -c tomled -n __tomled_first -a show -d 'Print the data of a TOML document as tagged JSON'
complete -c tomled -n __tomled_first -a set -d 'Set the value at a place'
complete -c tomled -n __tomled_first -a insert -d 'Put in a new member or element'
complete -c tomled -n __tomled_first -a rename -d 'Give a member of a table another name'
complete -c tomled -n __tomled_first -a remove -d 'Take out what stands at a place'
complete -c tomled -n __tomled_first -a apply -d 'Make a list of edits'
complete -c tomled -n __tomled_first -a edit -d 'Make a list of edits, and write a certificate of what was kept'
complete -c tomled -n __tomled_first -a verify -d 'Say whether a certificate shows that a document is what the edits make'
complete -c tomled -n __tomled_first -a certify -d 'Judge whether a document is what the edits make'
complete -c tomled -n __tomled_first -a help -d 'Print the help of a command'
complete -c tomled -n '__tomled_in help' -a 'get validate check show set insert rename remove apply edit verify certify help'

complete -c tomled -n __tomled_first -s h -l help -d 'Print help'
complete -c tomled -n __tomled_first -s V -l version -d 'Print version'
complete -c tomled -n '__tomled_in get validate check show set insert rename remove apply edit verify certify' -s h -l help -d 'Print help'
complete -c tomled -n '__tomled_in get validate check show set insert rename remove apply edit verify certify' -l profile -x -a '1 2' -d 'Which texts are TOML'
complete -c tomled -n '__tomled_in check show edit verify' -l explain -d 'Say of a refusal where and why'
complete -c tomled -n '__tomled_in show' -l list -d 'List the addresses in place of the data'

complete -c tomled -n '__tomled_in get' -l json -d 'Print it as JSON'
complete -c tomled -n '__tomled_in get' -l tagged -d 'Print it as tagged JSON, each scalar with its type'
complete -c tomled -n '__tomled_in get' -l toml -d 'Print it as it is spelled in FILE'
complete -c tomled -n '__tomled_in get' -l type -d 'Print its type alone'
complete -c tomled -n '__tomled_in get' -l default -x -d 'Print this where nothing stands at PLACE'

complete -c tomled -n '__tomled_in set insert' -l string -d 'VALUE is the text of a string'
complete -c tomled -n '__tomled_in set insert' -l parents -d 'Make the tables that are missing above PLACE'
complete -c tomled -n '__tomled_in set insert rename remove apply' -s i -l in-place -d 'Write the edited text to FILE, and print nothing'
complete -c tomled -n '__tomled_in set insert rename remove apply' -l certificate -r -F -d 'Write there which parts of FILE were kept'
complete -c tomled -n '__tomled_in set insert rename remove apply' -l layout -x -a 'plain follow' -d 'How new text is written'

complete -c tomled -n '__tomled_in get set insert rename remove check show; and __tomled_below 1' -F
complete -c tomled -n '__tomled_in apply; and __tomled_below 2' -F
complete -c tomled -n '__tomled_in edit verify certify; and __tomled_below 4' -F
complete -c tomled -n '__tomled_in validate' -F
