# Completion of zf for fish: options, files, then the schemas of the file and the sizes of its given sets.

# The words before the cursor that are no options: the program, the command, the file, the schema, the sizes. (Those behind
# the cursor fish keeps to itself.)
function __zf_places
    set -l skip no
    for word in (commandline --tokenize --current-process --cut-at-cursor)
        if test $skip = yes
            set skip no
        else if contains -- $word --after --with --only --limit --numbers --size --find
            set skip yes
        else if not string match --quiet -- '-?*' $word
            echo $word
        end
    end
end

function __zf_stands_at -a command count
    set -l places (__zf_places)
    test (count $places) -eq $count; and test "$places[2]" = $command
end

function __zf_stands_after -a command count
    set -l places (__zf_places)
    test (count $places) -ge $count; and test "$places[2]" = $command
end

# The names that a kind (Schema or Given) has in the text of the file, where the text has faults.
function __zf_written -a kind file
    set -l text (string replace --regex -- '(^|[^\\\\])%.*' '$1' <$file | string join ' ')
    set -l name '[A-Za-z](?:[A-Za-z0-9]|\\\\_)*'
    switch $kind
        case Schema
            string match --all --regex --groups-only -- "\\\\begin\{schema\}\{($name)\}" $text
            string match --all --regex --groups-only -- "($name) *\\\\defs" $text
        case Given
            string match --all --regex --groups-only -- "(?:\\\\begin\{zed\}|\\\\\\\\|\\\\also|;) *\[ *($name(?: *, *$name)*) *\]" $text |
                string split , | string trim
    end
end

# What `zf check -t` lists in a file. It is given two seconds, and nothing is compiled for it.
function __zf_listing -a program file
    test -r "$file"; and not test -d "$file"; or return 1
    ZF_COMPILE=no timeout 2 $program check -t $file 2>/dev/null
end

# What is listed as a kind in the file, or what is written there, where it has faults.
function __zf_listed -a kind
    set -l places (__zf_places)
    set -l file (string replace --regex '^~' $HOME -- $places[3])
    set -l listing (__zf_listing $places[1] "$file")
    if test $status -eq 0
        string match --regex --groups-only -- "^$kind (\S+)" $listing
    else if test -r "$file"; and not test -d "$file"
        __zf_written $kind $file
    end
end

# The components that are listed of the schema, as the last name of a list in which they are parted by commas.
function __zf_components
    set -l places (__zf_places)
    test (count $places) -gt 3; or return
    set -l list (commandline --current-token | string replace --regex '^--(only|with)=' '' | string replace --regex '^["\']' '' | string unescape)
    # a value is the author's, also where it is a set or a tuple
    string match --quiet --regex '=[^,]*$|[({][^)}]*$' -- "$list"; and return
    set -l before (string match --regex '^.*, *' -- "$list")
    set -l is_in no
    for line in (__zf_listing $places[1] (string replace --regex '^~' $HOME -- $places[3]))
        if test "$line" = End
            set is_in no
        else if test $is_in = yes
            echo "$before"(string replace --regex '^ *(.*?): .*' '$1' -- $line)
        else if test "$line" = "Schema $places[4]"
            set is_in yes
        end
    end
end

complete -c zf -f
complete -c zf -n 'test (count (__zf_places)) -eq 1' -s h -l help -d 'Print help'
complete -c zf -n 'test (count (__zf_places)) -eq 1' -s V -l version -d 'Print the version'
complete -c zf -n 'test (count (__zf_places)) -eq 1' -a check -d 'Write the faults of a specification'
complete -c zf -n 'test (count (__zf_places)) -eq 1' -a show -d 'Write the bindings of a schema'
complete -c zf -n 'test (count (__zf_places)) -eq 1' -a why -d 'Write a binding of a schema, or why it has none'
complete -c zf -n 'test (count (__zf_places)) -eq 1' -a reach -d 'Write what can be reached'
complete -c zf -n 'test (count (__zf_places)) -eq 1' -a help -d 'Print help'
complete -c zf -n '__zf_stands_at help 2' -a check -d 'Write the faults of a specification'
complete -c zf -n '__zf_stands_at help 2' -a show -d 'Write the bindings of a schema'
complete -c zf -n '__zf_stands_at help 2' -a why -d 'Write a binding of a schema, or why it has none'
complete -c zf -n '__zf_stands_at help 2' -a reach -d 'Write what can be reached'
complete -c zf -n '__zf_stands_after check 2' -s h -l help -d 'Print help'
complete -c zf -n '__zf_stands_after check 2' -s t -d 'Write also what is defined, with its types'
complete -c zf -n '__zf_stands_after check 2' -l json -d 'Write an object of JSON in place of each line'
complete -c zf -n '__zf_stands_after check 2' -s d -l details -d 'Write after each fault what it is about'
complete -c zf -n '__zf_stands_after show 2' -s h -l help -d 'Print help'
complete -c zf -n '__zf_stands_after show 2' -x -l after -d 'Write only what follows this binding'
complete -c zf -n '__zf_stands_after show 2' -x -l with -a '(__zf_components)' -d 'Write only the bindings with these values'
complete -c zf -n '__zf_stands_after show 2' -x -l only -a '(__zf_components)' -d 'Write only what values these components have'
complete -c zf -n '__zf_stands_after show 2' -x -l limit -d 'Write at most so many bindings'
complete -c zf -n '__zf_stands_after show 2' -x -l numbers -d 'The greatest number'
complete -c zf -n '__zf_stands_after show 2' -x -l size -d 'The size of each other given set'
complete -c zf -n '__zf_stands_after show 2' -l tests -d 'Write also how many tests were finished'
complete -c zf -n '__zf_stands_after show 2' -l json -d 'Write an object of JSON in place of each line'
complete -c zf -n '__zf_stands_after show 2' -s d -l details -d 'Write after each fault what it is about'
complete -c zf -n '__zf_stands_after why 2' -s h -l help -d 'Print help'
complete -c zf -n '__zf_stands_after why 2' -x -l with -a '(__zf_components)' -d 'Ask only of the bindings with these values'
complete -c zf -n '__zf_stands_after why 2' -x -l numbers -d 'The greatest number'
complete -c zf -n '__zf_stands_after why 2' -x -l size -d 'The size of each other given set'
complete -c zf -n '__zf_stands_after why 2' -l json -d 'Write an object of JSON in place of each line'
complete -c zf -n '__zf_stands_after why 2' -s d -l details -d 'Write after each fault what it is about, after a relation what its sides come to'
complete -c zf -n '__zf_stands_after reach 2' -s h -l help -d 'Print help'
complete -c zf -n '__zf_stands_after reach 2' -x -l find -a '(__zf_listed Schema)' -d 'Write only a shortest way to a state that satisfies this schema'
complete -c zf -n '__zf_stands_after reach 2' -l dot -d 'Write a graph for Graphviz'
complete -c zf -n '__zf_stands_after reach 2' -x -l limit -d 'Meet at most so many states'
complete -c zf -n '__zf_stands_after reach 2' -x -l numbers -d 'The greatest number'
complete -c zf -n '__zf_stands_after reach 2' -x -l size -d 'The size of each other given set'
complete -c zf -n '__zf_stands_after reach 2' -l json -d 'Write an object of JSON in place of each line'
complete -c zf -n '__zf_stands_after reach 2' -s d -l details -d 'Write after each fault what it is about'
complete -c zf -n '__zf_stands_at check 2; or __zf_stands_at show 2; or __zf_stands_at why 2; or __zf_stands_at reach 2' -F
complete -c zf -n '__zf_stands_at show 3; or __zf_stands_at why 3; or __zf_stands_after reach 3' -a '(__zf_listed Schema)' -d schema
complete -c zf -n '__zf_stands_after show 4; or __zf_stands_after why 4; or __zf_stands_after reach 5' -a '(__zf_listed Given | string replace --regex \$ =)' -d 'given set'
