# Completions of adf_serve for fish.

# Prints the words behind the first one that are neither options nor values of options.
function __adf_serve_words
    set -l value
    for word in $argv[2..-1]
        if set -q value[1]
            set -e value
        else if contains -- $word @VALUED@
            set value follows
        else if not string match -qr '^-.' -- $word
            echo $word
        end
    end
end

# Whether the word at the cursor is that of a command at a place, or behind it if there is a third argument.
function __adf_serve_at
    set -l words (__adf_serve_words (commandline -opc))
    test "$words[1]" = $argv[1] -a (count $words) -ge $argv[2]
    and test -n "$argv[3]" -o (count $words) = $argv[2]
end

# Whether the line has this command.
function __adf_serve_is
    set -l words (commandline -opc)
    test "$words[2]" = $argv[1]
end

# Whether the line has none of these options.
function __adf_serve_without
    for word in (commandline -opc)
        if contains -- $word $argv
            return 1
        end
    end
end

# Offers what is inside the image at the level of the word: its paths, or with `deleted` those of what was deleted there. The image
# stands before the cursor: fish tells nothing of what is behind it.
function __adf_serve_level
    set -l line (commandline -opc)
    set -l words (__adf_serve_words $line)
    set -l program (string replace -r '^~/' "$HOME/" -- $line[1])
    set -l image (string replace -r '^~/' "$HOME/" -- "$words[2]")
    set -l depth (string replace -ra '[^/]' '' -- (commandline -ct) | string length)
    set -l asked list --letters
    if test "$argv[1]" = deleted
        set asked undelete --list
    end
    $program $asked "$image" 2>/dev/null </dev/null | awk -v deleted="$argv[1]" -v depth="$depth" '@LEVEL@'
end
complete -c adf_serve -f
complete -c adf_serve -n __fish_use_subcommand -l help -l version
