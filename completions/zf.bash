# Completion of zf for bash: options, files, then the schemas of the file and the sizes of its given sets.

# FILE without its comments, on one line.
__zf_text() {
    sed 's/\(^\|[^\\]\)%.*/\1/' "$1" | tr '\n' ' '
}

# The names that KIND (Schema or Given) has in the text of FILE, where the text has faults.
__zf_written() {
    local name="[A-Za-z]([A-Za-z0-9]|\\\\_)*"
    case $1 in
        Schema) __zf_text "$2" | grep -oE "\\\\begin\{schema\}\{$name\}|$name *\\\\defs" |
            sed -E 's/^\\begin\{schema\}\{(.*)\}$/\1/; s/ *\\defs$//' ;;
        Given) __zf_text "$2" | grep -oE "(\\\\begin\{zed\}|\\\\\\\\|\\\\also|;) *\[ *$name *(, *$name *)*\]" |
            sed 's/^[^[]*\[//; s/\]//' | tr -s ', ' '\n' | sed '/^$/d' ;;
    esac
}

# A word of the shell without its quotes.
__zf_plain() {
    xargs -n 1 printf '%s' <<< "$1" 2> /dev/null
}

# What `zf check -t` lists in FILE. It is given two seconds, and nothing is compiled for it.
__zf_listing() {
    local program=$1 file=$2
    file=${file/#\~/$HOME}
    file=${file//[\\\'\"]/}
    [[ -r $file && ! -d $file ]] && ZF_COMPILE=no timeout 2 "$program" check -t "$file" 2> /dev/null
}

# What is listed as KIND in FILE, or what is written there, where it has faults; each as a word of the shell.
__zf_listed() {
    local program=$1 kind=$2 file=$3 listing name
    if listing=$(__zf_listing "$program" "$file"); then
        sed -n "s/^$kind \([^ ]*\).*/\1/p" <<< "$listing"
    else
        file=${file/#\~/$HOME}
        file=${file//[\\\'\"]/}
        [[ ! -r $file || -d $file ]] || __zf_written "$kind" "$file"
    fi | sort -u | while read -r name; do
        printf '%q\n' "$name"
    done
}

# The components that are listed of SCHEMA in FILE.
__zf_components() {
    __zf_listing "$1" "$2" | ZF_SCHEMA=$(__zf_plain "$3") awk '
        $1 == "End" { is_in = 0 }
        is_in { sub(/^ +/, ""); sub(/: .*/, ""); print }
        $1 == "Schema" { is_in = $2 == ENVIRON["ZF_SCHEMA"] }'
}

# Completes the last name of LIST, in which components of SCHEMA in FILE are parted by commas, perhaps with values.
__zf_list() {
    local program=$1 file=$2 schema=$3 list=$4 quote='' last name opened closed
    case $list in
        [\"\']*) quote=${list:0:1} list=${list:1} ;;
    esac
    last=${list##*,}
    while [[ $last == [\\\ ]* ]]; do last=${last:1}; done
    list=${list%"$last"}
    # a value is the author's, also where it is a set or a tuple
    [[ $last != *=* ]] || return 0
    opened=${list//[!(\{]/} closed=${list//[!)\}]/}
    [[ ${#opened} -le ${#closed} ]] || return 0
    compopt -o nospace
    while read -r name; do
        [[ ,${list//[ \\]/} != *,"${name//\\/}"[,=]* ]] || continue
        [[ -n $quote ]] || printf -v name '%q' "$name"
        [[ $name != "$last"* ]] || COMPREPLY+=("$list$name")
    done < <(__zf_components "$program" "$file" "$schema")
}

_zf() {
    local current command='' options=yes skip=no word place at=-1 value_of may_be_option
    local words=() places=() all=()
    COMPREPLY=()

    # bash splits words at `=`: NAME=2 is three of them
    for ((place = 1; place < ${#COMP_WORDS[@]}; place++)); do
        word=${COMP_WORDS[place]}
        if ((${#words[@]} > 0 && at != ${#words[@]} - 1)) && [[ $word == = || ${words[-1]} == *[!=]= ]]; then
            words[-1]+=$word
        else
            words+=("$word")
        fi
        ((place != COMP_CWORD)) || at=$((${#words[@]} - 1))
    done
    current=${words[at]}

    # `places` are the words before the current one that are no options, `all` those behind it too
    for ((place = 0; place < ${#words[@]}; place++)); do
        word=${words[place]}
        ((place != at)) || value_of=$skip may_be_option=$options
        if [[ $skip != no ]]; then
            skip=no
        elif ((place == at)); then
            continue
        elif [[ $options == yes && $word == -- ]]; then
            options=no
        elif [[ $options == yes && $word =~ ^--(after|with|only|limit|numbers|size|find)$ ]]; then
            skip=$word
        elif [[ $options == yes && $word == -?* ]]; then
            continue
        elif [[ -z $command ]]; then
            command=$word
        else
            all+=("$word")
            ((place > at)) || places+=("$word")
        fi
    done
    if [[ $value_of == no && $may_be_option == yes && $current =~ ^--(with|only|find)= ]]; then
        value_of=--${BASH_REMATCH[1]}
        current=${current#*=}
    fi
    # what is sought, or named in a list, is of a file and a schema that may stand behind it
    case $command$value_of in
        reach--find)
            while read -r word; do
                [[ $word != "$current"* ]] || COMPREPLY+=("$word")
            done < <(__zf_listed "$1" Schema "${all[0]}")
            return 0
            ;;
        show--only | show--with | why--with)
            [[ ${#all[@]} -lt 2 ]] || __zf_list "$1" "${all[0]}" "${all[1]}" "$current"
            return 0
            ;;
    esac
    # the value of any other option is the author's
    [[ $value_of == no ]] || return 0
    if [[ $may_be_option == yes && $current == -* ]]; then
        case $command in
            check) mapfile -t COMPREPLY < <(compgen -W '-t --json -d --details -h --help' -- "$current") ;;
            show) mapfile -t COMPREPLY < <(compgen -W '--after --with --only --limit --numbers --size --tests --json -d --details -h --help' -- "$current") ;;
            reach) mapfile -t COMPREPLY < <(compgen -W '--find --dot --limit --numbers --size --json -d --details -h --help' -- "$current") ;;
            why) mapfile -t COMPREPLY < <(compgen -W '--with --numbers --size --json -d --details -h --help' -- "$current") ;;
            '') mapfile -t COMPREPLY < <(compgen -W '-h --help -V --version' -- "$current") ;;
        esac
    elif [[ -z $command ]]; then
        mapfile -t COMPREPLY < <(compgen -W 'check show why reach help' -- "$current")
    elif [[ $command == help && ${#places[@]} -eq 0 ]]; then
        mapfile -t COMPREPLY < <(compgen -W 'check show why reach' -- "$current")
    elif [[ $command =~ ^(check|show|why|reach)$ && ${#places[@]} -eq 0 ]]; then
        compopt -o filenames
        mapfile -t COMPREPLY < <(compgen -d -- "$current"; compgen -f -X '!*.tex' -- "$current")
    elif [[ $command =~ ^(show|why)$ && ${#places[@]} -eq 1 ]]; then
        while read -r word; do
            [[ $word != "$current"* ]] || COMPREPLY+=("$word")
        done < <(__zf_listed "$1" Schema "${places[0]}")
    elif [[ $command == reach && $current != *=* ]]; then
        # the schemas of the state and of the initial states, then operations, and sizes among them
        while read -r word; do
            [[ $word != "$current"* || " ${places[*]} " == *" $word "* ]] || COMPREPLY+=("$word")
        done < <(__zf_listed "$1" Schema "${places[0]}")
        if [[ ${#places[@]} -gt 2 ]]; then
            compopt -o nospace
            COMPREPLY=("${COMPREPLY[@]/%/ }")
            while read -r word; do
                [[ $word != "$current"* || " ${places[*]} " == *" $word="* ]] || COMPREPLY+=("$word=")
            done < <(__zf_listed "$1" Given "${places[0]}")
        fi
    elif [[ $command =~ ^(show|why)$ && $current != *=* ]]; then
        compopt -o nospace
        while read -r word; do
            [[ $word != "$current"* || " ${places[*]} " == *" $word="* ]] || COMPREPLY+=("$word=")
        done < <(__zf_listed "$1" Given "${places[0]}")
    fi
}

complete -F _zf zf
