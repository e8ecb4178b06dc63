# Completions of adf_serve for bash.

# Sets `bare` to a word without its quotes, and with the home directory in place of a tilde; and `quote` to the quote that is open at
# its end.
_adf_serve_bare() {
    local rest=$1
    bare='' quote=''
    if [[ $rest == '~/'* ]]; then bare=$HOME rest=${rest:1}; fi
    while [ -n "$rest" ]; do
        case $quote$rest in
            \'\'* | \"\"*) quote='' ;;
            \'*) if [ -n "$quote" ]; then bare+=${rest:0:1}; else quote=\'; fi ;;
            \"\\[\\\"\$\`]*) rest=${rest:1} bare+=${rest:0:1} ;;
            \"*) if [ -n "$quote" ]; then bare+=${rest:0:1}; else quote=\"; fi ;;
            \\*) rest=${rest:1} bare+=${rest:0:1} ;;
            *) bare+=${rest:0:1} ;;
        esac
        rest=${rest:1}
    done
}

# Prints the paths inside an image down to the level of a word, or those of what was deleted there (u).
_adf_serve_level() {
    local slashes=${4//[!\/]/}
    case $2 in
        u) "$1" undelete --list "$3" ;;
        *) "$1" list --letters "$3" ;;
    esac 2>/dev/null </dev/null | awk -v deleted="${2#p}" -v depth="${#slashes}" '@LEVEL@'
}

# Offers the paths inside an image that begin with a word. They are quoted as the word is.
_adf_serve_paths() {
    local bare quote line program image
    _adf_serve_bare "${COMP_WORDS[0]}"
    program=$bare
    _adf_serve_bare "$3"
    image=$bare
    _adf_serve_bare "$2"
    while IFS= read -r line; do
        if [[ $line == "$bare"* ]]; then
            case $quote in
                \') line=${line//\'/"'\''"} ;;
                \") line=$(sed 's/[\"$`]/\\&/g' <<<"$line") ;;
                *) printf -v line %q "$line" ;;
            esac
            COMPREPLY+=("$line")
        fi
    done < <(_adf_serve_level "$program" "$1" "$image" "$bare")
    # (a directory is completed further)
    if [[ ${#COMPREPLY[@]} = 1 && ${COMPREPLY[0]} == */ ]]; then compopt -o nospace; fi
}

# Offers what a place takes: f files, d directories, p paths inside an image, u deleted paths, k keys.
_adf_serve_offer() {
    case $1 in
        f) compopt -o filenames; mapfile -t COMPREPLY < <(compgen -f -- "$2") ;;
        d) compopt -o filenames; mapfile -t COMPREPLY < <(compgen -d -- "$2") ;;
        p | u) if [ -n "$3" ]; then _adf_serve_paths "$1" "$2" "$3"; fi ;;
        k) mapfile -t COMPREPLY < <(compgen -W '@KEYS@' -- "$2") ;;
    esac
}

_adf_serve() {
    local word=${COMP_WORDS[COMP_CWORD]} options='' takes='' excludes='' places='' more=- image='' gone=, count=0 i kind
    COMPREPLY=()
    if [ "$COMP_CWORD" = 1 ]; then
        mapfile -t COMPREPLY < <(compgen -W '@NAMES@ --help --version' -- "$word")
        return
    fi
    case ${COMP_WORDS[1]} in
@CASES@
        *) return ;;
    esac
    # What the options on the line exclude, themselves too: other options, and places by their numbers.
    for ((i = 2; i < ${#COMP_WORDS[@]}; i++)); do
        if [ "$i" != "$COMP_CWORD" ] && [[ ${COMP_WORDS[i]} == --* ]]; then
            gone+=${COMP_WORDS[i]},
            if [[ " $excludes" == *" ${COMP_WORDS[i]}="* ]]; then
                kind=${excludes##*"${COMP_WORDS[i]}="}
                gone+=${kind%% *},
            fi
        fi
    done
    # Which word of the command this is: neither an option nor its value. The first one is the image.
    for ((i = 2; i < ${#COMP_WORDS[@]}; i++)); do
        kind=
        [[ " $takes" == *" ${COMP_WORDS[i]}="* ]] && kind=${takes##*"${COMP_WORDS[i]}="} && kind=${kind%% *}
        if [ -n "$kind" ] && [ "$((i + 1))" = "$COMP_CWORD" ]; then
            # The image may stand behind the option.
            for ((count = i + 2; count < ${#COMP_WORDS[@]}; count++)); do
                if [ -z "$image" ] && [[ ${COMP_WORDS[count]} != -?* ]]; then image=${COMP_WORDS[count]}; fi
            done
            _adf_serve_offer "$kind" "$word" "$image"
            return
        fi
        if [ "$i" -ge "$COMP_CWORD" ]; then break; fi
        if [ -n "$kind" ]; then
            i=$((i + 1))
        elif [[ ${COMP_WORDS[i]} != -?* ]]; then
            if [ "$count" = 0 ]; then image=${COMP_WORDS[i]}; fi
            count=$((count + 1))
        fi
    done
    if [[ $word == -* ]]; then
        for kind in $options --help; do
            if [[ $kind == "$word"* && $gone != *",$kind,"* ]]; then COMPREPLY+=("$kind"); fi
        done
        return
    fi
    read -ra places <<<"$places"
    # (the last place stands for all behind it, where the command takes any number)
    i=$((count < ${#places[@]} || ${#places[@]} == 0 ? count + 1 : ${#places[@]}))
    if [[ $gone != *",$i,"* ]]; then _adf_serve_offer "${places[count]:-$more}" "$word" "$image"; fi
}
complete -F _adf_serve adf_serve
