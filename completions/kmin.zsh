#compdef kmin
# Completions of kmin for zsh: put this file as `_kmin` into a folder of $fpath.

# the files below the folder of the tree
_kmin_tree_files() {
    local -a roots=(${${(Q)opt_args[--root]:-.}:a})
    _files -W roots
}

# made by make docs: words
_kmin_commands() {
    local -a commands=(
        'min:Writes the minimal file\: the lines that a tree'\''s defaults don'\''t give'
        'full:Writes the full file\: the symbols that are visible, selected, implied or have a default'
        'missed:Lists the symbols that don'\''t have the value that a FILE assigns'
        'check:Lists the symbols that are selected against their dependencies'
        'explain:Says why symbols have their values, and which lines aren'\''t taken'
        'compare:Lists the symbols whose values differ between two files'
        'tidy:Lists, or rewrites, the files that aren'\''t their own minimal file'
        'wants:Lists the questions of a tree'\''s macros that have no answer'
        'help:Print this message or the help of the given subcommand(s)'
    )
    _describe command commands
}

_kmin_explained() {
    local -a kinds=(NotUtf8 LineTooLong BadToken UnclosedQuote UnknownStatement Malformed Unclosed StrayEnd Misplaced NoType TypeConflict SecondPrompt DefaultShape RangeType SelectType ChoiceMember ChoiceDefault ModulesType MissingFile SourceLoop TooDeep TooMany Cycle LeftOut rsource osource orsource transitional optional def_string def_int def_hex env defconfig_list allnoconfig_y Unterminated Undefined Recursion Arguments Error Unanswered JoinedAssignment Info Warning TwoAnswers TooManyLines TooLarge Read UnknownSymbol NotOfType Escape OtherChoice NotRegular Write Left NamedTwice)
    _kmin_commands
    _describe kind kinds
}

# adds to `specs` the options and the files of a command; '' stands for none
_kmin_specs() {
    case $1 in
        '') specs+=(
            '(- *)'{-h,--help}'[Print help]'
            '(- *)'{-V,--version}'[Print version]'
        ) ;;
    esac
    case $1 in
        min|full|missed|check|explain|compare|tidy|wants) specs+=(
            '--root=[Folder of the tree]:DIR:_files -/'
            '--tree=[First file of the tree, below DIR]:PATH:_kmin_tree_files'
            '--expand[Expands the tree'\''s macros, as each of the next three does]'
            '*--answers=[File of answers to the questions of macros; repeatable]:FILE:_files'
            '*--define=[Value of a name, in place of any in a file; repeatable]:NAME=VALUE:'
            '*--env=[Name that the environment answers where no file does; repeatable]:NAME:_parameters -g "*export*"'
            '--messages=[Form of messages]:FORM:(plain long json)'
            '(- *)'{-h,--help}'[Print help]'
        ) ;;
    esac
    case $1 in
        min|full|missed|check|explain|compare|tidy) specs+=(
            '--language=[Tree language]:LANGUAGE:(strict linux linux-6.1 linux-6.12)'
            '(--no-prefix)--prefix=[Text before each name in a file]:TEXT:'
            '(--prefix)--no-prefix[Names in files are as in the tree, as Buildroot'\''s; not with --prefix]'
            '--strings=[Form of strings]:FORM:(escaped raw)'
            '--imply=[Rule of imply]:PROFILE:(present classic)'
            '(--drop)--strict[Refuses a file with a line that the tree can'\''t read]'
        ) ;;
    esac
    case $1 in
        min|full) specs+=(
            '(-o --output)'{-o+,--output=}'[File to write in place of standard output]:FILE:_files'
        ) ;;
    esac
    case $1 in
        min) specs+=(
            '(--strict)--drop[Replaces a FILE without the lines that the tree can'\''t read; with -o]'
        ) ;;
    esac
    case $1 in
        missed|check) specs+=(
            '--exit-code[Ends with status 1 where a symbol is listed]'
        ) ;;
    esac
    case $1 in
        missed) specs+=(
            '--long[Lists each line that isn'\''t taken, and why]'
            '--by-cause[Lists the symbols below what keeps them; not with --long]'
        ) ;;
    esac
    case $1 in
        missed|check|explain|compare|tidy) specs+=(
            '--format=[Form of what is listed]:FORM:(plain json)'
        ) ;;
    esac
    case $1 in
        check) specs+=(
            '--long[Says what selects each symbol, and what is unmet]'
        ) ;;
    esac
    case $1 in
        explain) specs+=(
            '--every[Explains each symbol of the tree; no NAME is given]'
            '--deep[Goes on with the symbols that keep those explained too low]'
            '--all[Lists each select and imply, also those that don'\''t decide]'
            '--exit-code[Ends with status 1 where a line for an explained symbol isn'\''t taken]'
        ) ;;
    esac
    case $1 in
        tidy) specs+=(
            '--write[Replaces each file that isn'\''t minimal by its minimal file]'
            '(--strict)--drop[Writes files without the lines that the tree can'\''t read; with --write]'
            '--from=[File of further paths, a line each; - is standard input]:LIST:_files'
            '-z[Each path in LIST ends with NUL, not with a newline]'
        ) ;;
    esac
    case $1 in
        wants) specs+=(
            '--unused[Lists questions in files that nothing asks, once none is open]'
        ) ;;
    esac
    case $1 in
        min|full|missed|check|tidy) specs+=('*:FILE:_files') ;;
        explain) specs+=('1:NAME:_files' '*:FILE:_files') ;;
        compare) specs+=('1:LEFT:_files' '2:RIGHT:_files') ;;
    esac
}
# made by make docs up to here

_kmin() {
    local context state line
    local -a specs
    _kmin_specs ''
    _arguments -C $specs '1:command:_kmin_commands' '*::word:->words'
    [[ $state == words ]] || return
    specs=()
    _kmin_specs $line[1]
    case $line[1] in
        help) _arguments '1:command or kind:_kmin_explained' ;;
        *) _arguments -S $specs ;;
    esac
}

_kmin "$@"
