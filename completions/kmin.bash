# Completions of kmin for bash: source this file, or put it into the folder of completions as `kmin`.

# made by make docs: words
_kmin_commands() {
    echo "min full missed check explain compare tidy wants help"
}

# the words that may follow a command; '' stands for none
_kmin_words() {
    case $1 in
        '') echo "min full missed check explain compare tidy wants help -h --help -V --version" ;;
        help) echo "min full missed check explain compare tidy wants help NotUtf8 LineTooLong BadToken UnclosedQuote UnknownStatement Malformed Unclosed StrayEnd Misplaced NoType TypeConflict SecondPrompt DefaultShape RangeType SelectType ChoiceMember ChoiceDefault ModulesType MissingFile SourceLoop TooDeep TooMany Cycle LeftOut rsource osource orsource transitional optional def_string def_int def_hex env defconfig_list allnoconfig_y Unterminated Undefined Recursion Arguments Error Unanswered JoinedAssignment Info Warning TwoAnswers TooManyLines TooLarge Read UnknownSymbol NotOfType Escape OtherChoice NotRegular Write Left NamedTwice" ;;
    esac
    case $1 in
        min|full|missed|check|explain|compare|tidy|wants) echo "--root --tree --expand --answers --define --env --messages -h --help" ;;
    esac
    case $1 in
        min|full|missed|check|explain|compare|tidy) echo "--language --prefix --no-prefix --strings --imply --strict" ;;
    esac
    case $1 in
        min|full) echo "-o --output" ;;
    esac
    case $1 in
        min) echo "--drop" ;;
    esac
    case $1 in
        missed|check) echo "--exit-code" ;;
    esac
    case $1 in
        missed) echo "--long --by-cause" ;;
    esac
    case $1 in
        missed|check|explain|compare|tidy) echo "--format" ;;
    esac
    case $1 in
        check) echo "--long" ;;
    esac
    case $1 in
        explain) echo "--every --deep --all --exit-code" ;;
    esac
    case $1 in
        tidy) echo "--write --drop --from -z" ;;
    esac
    case $1 in
        wants) echo "--unused" ;;
    esac
}

# what is after an option: a kind of word, or `one of` some; nothing where it has no value
_kmin_value() {
    case $1 in
        --root) echo "folder" ;;
        --tree) echo "tree" ;;
        --language) echo "one of strict linux linux-6.1 linux-6.12" ;;
        --prefix|--define) echo "text" ;;
        --strings) echo "one of escaped raw" ;;
        --imply) echo "one of present classic" ;;
        --answers|-o|--output|--from) echo "file" ;;
        --env) echo "name" ;;
        --messages) echo "one of plain long json" ;;
        --format) echo "one of plain json" ;;
    esac
}

# whether files may follow a command
_kmin_has_files() {
    [[ " wants " != *" $1 "* ]]
}
# made by make docs up to here

_kmin() {
    local word=${COMP_WORDS[COMP_CWORD]} before=${COMP_WORDS[COMP_CWORD-1]} command= root=. value i
    # bash makes `--root=DIR` three words
    if [[ $word == "=" ]]; then
        word=
    elif [[ $before == "=" ]]; then
        before=${COMP_WORDS[COMP_CWORD-2]}
    fi
    for ((i = 1; i < COMP_CWORD; i++)); do
        if [[ ${COMP_WORDS[i]} == --root ]]; then
            root=${COMP_WORDS[i+1]}; [[ $root == "=" ]] && root=${COMP_WORDS[i+2]}
        elif [[ -z $command && " $(_kmin_commands) " == *" ${COMP_WORDS[i]} "* ]]; then
            command=${COMP_WORDS[i]}
        fi
    done
    COMPREPLY=()
    if [[ -z $command || $command == help ]]; then
        # options are completed after the command, and one word after `help`
        [[ ${COMP_WORDS[COMP_CWORD-1]} == "${command:-${COMP_WORDS[0]}}" ]] || return
        mapfile -t COMPREPLY < <(compgen -W "$(_kmin_words "$command")" -- "$word")
        return
    fi
    value=$(_kmin_value "$before")
    case $value in
        folder) mapfile -t COMPREPLY < <(compgen -d -- "$word") ;;
        file) mapfile -t COMPREPLY < <(compgen -f -- "$word") ;;
        tree) mapfile -t COMPREPLY < <(cd -- "$root" 2> /dev/null && compgen -f -- "$word") ;;
        name) mapfile -t COMPREPLY < <(compgen -e -- "$word") ;;
        "one of "*) mapfile -t COMPREPLY < <(compgen -W "${value#one of }" -- "$word") ;;
    esac
    [[ -z $value ]] || return
    if [[ $word == -* ]] || ! _kmin_has_files "$command"; then
        mapfile -t COMPREPLY < <(compgen -W "$(_kmin_words "$command")" -- "$word")
    else
        mapfile -t COMPREPLY < <(compgen -f -- "$word")
    fi
}
complete -o filenames -F _kmin kmin
