#compdef adf_serve
# Completions of adf_serve for zsh.

# Offers what is inside the image at the level of the word: its paths, or with `deleted` those of what was deleted there. The image is
# the first word that is neither an option nor its value, or else one behind the cursor.
_adf_serve_level() {
    local -a asked behind found
    behind=("${(@)words[CURRENT+1,-1]:#-?*}")
    local image=${~${line[1]:-$behind[1]}} slashes=${PREFIX//[^\/]/} above=
    asked=(list --letters)
    if [[ $1 == deleted ]]; then asked=(undelete --list); fi
    found=(${(f)"$("$program" $asked "${(Q)image}" 2>/dev/null </dev/null | awk -v deleted=$1 -v depth=$#slashes '@LEVEL@')"})
    if compset -P '*/'; then above=${(Q)IPREFIX}; fi
    found=(${${(M)found:#$above*}#$above})
    # (a directory is completed further)
    local -a directories=(${(M)found:#*/}) others=(${found:#*/})
    compadd -S '' -a directories
    compadd -a others
}
_adf_serve_paths() { _adf_serve_level ''; }
_adf_serve_deleted() { _adf_serve_level deleted; }

_adf_serve() {
    local program=${(Q)${~words[1]}}
    local -a commands
    commands=(
@DESCRIBED@
    )
    if (( CURRENT == 2 )); then
        _describe command commands
        compadd -- --help --version
        return
    fi
    local command=$words[2]
    shift words
    (( CURRENT-- ))
    case $command in
@CASES@
    esac
}
_adf_serve "$@"
