# Completions of kmin for fish: put this file into ~/.config/fish/completions.

# the last value of an option among the words so far, or a default
function __kmin_value
    set -l found $argv[2]
    set -l words (commandline -opc)
    for i in (seq (count $words))
        if string match -q -- "$argv[1]=*" $words[$i]
            set found (string replace -- "$argv[1]=" "" $words[$i])
        else if test $words[$i] = $argv[1]; and set -q words[(math $i + 1)]
            set found $words[(math $i + 1)]
        end
    end
    echo $found
end

# the folders that begin with the current word, without the option before a `=`
function __kmin_folders
    __fish_complete_directories (commandline -ct | string replace -r -- '^--root=' '')
end

# the files below the folder of the tree that begin with the current word
function __kmin_tree_files
    set -l root (__kmin_value --root .)
    set -l begun (commandline -ct | string replace -r -- '^--tree=' '')
    for file in $root/$begun*
        set -l name (string replace -- "$root/" "" $file)
        test -d $file; and echo $name/; or echo $name
    end
end

# made by make docs: words
complete -c kmin -f -n "__fish_is_first_arg" -a min -d "Writes the minimal file: the lines that a tree's defaults don't give"
complete -c kmin -f -n "__fish_is_first_arg" -a full -d "Writes the full file: the symbols that are visible, selected, implied or have a default"
complete -c kmin -f -n "__fish_is_first_arg" -a missed -d "Lists the symbols that don't have the value that a FILE assigns"
complete -c kmin -f -n "__fish_is_first_arg" -a check -d "Lists the symbols that are selected against their dependencies"
complete -c kmin -f -n "__fish_is_first_arg" -a explain -d "Says why symbols have their values, and which lines aren't taken"
complete -c kmin -f -n "__fish_is_first_arg" -a compare -d "Lists the symbols whose values differ between two files"
complete -c kmin -f -n "__fish_is_first_arg" -a tidy -d "Lists, or rewrites, the files that aren't their own minimal file"
complete -c kmin -f -n "__fish_is_first_arg" -a wants -d "Lists the questions of a tree's macros that have no answer"
complete -c kmin -f -n "__fish_is_first_arg" -a help -d "Print this message or the help of the given subcommand(s)"
complete -c kmin -f -n "not __fish_seen_subcommand_from min full missed check explain compare tidy wants help"
complete -c kmin -f -n "__fish_seen_subcommand_from help" -a "min full missed check explain compare tidy wants help NotUtf8 LineTooLong BadToken UnclosedQuote UnknownStatement Malformed Unclosed StrayEnd Misplaced NoType TypeConflict SecondPrompt DefaultShape RangeType SelectType ChoiceMember ChoiceDefault ModulesType MissingFile SourceLoop TooDeep TooMany Cycle LeftOut rsource osource orsource transitional optional def_string def_int def_hex env defconfig_list allnoconfig_y Unterminated Undefined Recursion Arguments Error Unanswered JoinedAssignment Info Warning TwoAnswers TooManyLines TooLarge Read UnknownSymbol NotOfType Escape OtherChoice NotRegular Write Left NamedTwice"
complete -c kmin -f -n "__fish_seen_subcommand_from wants"
complete -c kmin -n "__fish_seen_subcommand_from min full missed check explain compare tidy wants" -l root -d "Folder of the tree" -x -a "(__kmin_folders)"
complete -c kmin -n "__fish_seen_subcommand_from min full missed check explain compare tidy wants" -l tree -d "First file of the tree, below DIR" -x -a "(__kmin_tree_files)"
complete -c kmin -n "__fish_seen_subcommand_from min full missed check explain compare tidy wants" -l expand -d "Expands the tree's macros, as each of the next three does"
complete -c kmin -n "__fish_seen_subcommand_from min full missed check explain compare tidy wants" -l answers -d "File of answers to the questions of macros; repeatable" -r
complete -c kmin -n "__fish_seen_subcommand_from min full missed check explain compare tidy wants" -l define -d "Value of a name, in place of any in a file; repeatable" -x
complete -c kmin -n "__fish_seen_subcommand_from min full missed check explain compare tidy wants" -l env -d "Name that the environment answers where no file does; repeatable" -x -a "(set --names --export)"
complete -c kmin -n "__fish_seen_subcommand_from min full missed check explain compare tidy wants" -l messages -d "Form of messages" -x -a "plain long json"
complete -c kmin -n "__fish_seen_subcommand_from min full missed check explain compare tidy wants" -s h -l help -d "Print help"
complete -c kmin -n "__fish_seen_subcommand_from min full missed check explain compare tidy" -l language -d "Tree language" -x -a "strict linux linux-6.1 linux-6.12"
complete -c kmin -n "__fish_seen_subcommand_from min full missed check explain compare tidy" -l prefix -d "Text before each name in a file" -x
complete -c kmin -n "__fish_seen_subcommand_from min full missed check explain compare tidy" -l no-prefix -d "Names in files are as in the tree, as Buildroot's; not with --prefix"
complete -c kmin -n "__fish_seen_subcommand_from min full missed check explain compare tidy" -l strings -d "Form of strings" -x -a "escaped raw"
complete -c kmin -n "__fish_seen_subcommand_from min full missed check explain compare tidy" -l imply -d "Rule of imply" -x -a "present classic"
complete -c kmin -n "__fish_seen_subcommand_from min full missed check explain compare tidy" -l strict -d "Refuses a file with a line that the tree can't read"
complete -c kmin -n "__fish_seen_subcommand_from min full" -s o -l output -d "File to write in place of standard output" -r
complete -c kmin -n "__fish_seen_subcommand_from min" -l drop -d "Replaces a FILE without the lines that the tree can't read; with -o"
complete -c kmin -n "__fish_seen_subcommand_from missed check" -l exit-code -d "Ends with status 1 where a symbol is listed"
complete -c kmin -n "__fish_seen_subcommand_from missed" -l long -d "Lists each line that isn't taken, and why"
complete -c kmin -n "__fish_seen_subcommand_from missed" -l by-cause -d "Lists the symbols below what keeps them; not with --long"
complete -c kmin -n "__fish_seen_subcommand_from missed check explain compare tidy" -l format -d "Form of what is listed" -x -a "plain json"
complete -c kmin -n "__fish_seen_subcommand_from check" -l long -d "Says what selects each symbol, and what is unmet"
complete -c kmin -n "__fish_seen_subcommand_from explain" -l every -d "Explains each symbol of the tree; no NAME is given"
complete -c kmin -n "__fish_seen_subcommand_from explain" -l deep -d "Goes on with the symbols that keep those explained too low"
complete -c kmin -n "__fish_seen_subcommand_from explain" -l all -d "Lists each select and imply, also those that don't decide"
complete -c kmin -n "__fish_seen_subcommand_from explain" -l exit-code -d "Ends with status 1 where a line for an explained symbol isn't taken"
complete -c kmin -n "__fish_seen_subcommand_from tidy" -l write -d "Replaces each file that isn't minimal by its minimal file"
complete -c kmin -n "__fish_seen_subcommand_from tidy" -l drop -d "Writes files without the lines that the tree can't read; with --write"
complete -c kmin -n "__fish_seen_subcommand_from tidy" -l from -d "File of further paths, a line each; - is standard input" -r
complete -c kmin -n "__fish_seen_subcommand_from tidy" -s z -d "Each path in LIST ends with NUL, not with a newline"
complete -c kmin -n "__fish_seen_subcommand_from wants" -l unused -d "Lists questions in files that nothing asks, once none is open"
complete -c kmin -n "__fish_is_first_arg" -s h -l help -d "Print help"
complete -c kmin -n "__fish_is_first_arg" -s V -l version -d "Print version"
# made by make docs up to here
