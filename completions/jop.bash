# Completes the words of jop in bash: its commands and their options, behind check, sync and upgrade the targets, `mem:`, `dir:` with a
# folder, `dav:` and `webdav:`, and files behind attach, --profile and a redirection.
# shellcheck shell=bash

# Offers those of the words that begin with $1.
_jop_words() {
    local word begin=$1
    shift
    for word in "$@"; do
        case $word in "$begin"*) COMPREPLY+=("$word") ;; esac
    done
}

# Offers the folders whose path begins as that of the target $1, without $2 before them. A shell doesn't expand a tilde there.
_jop_folders() {
    local folder path=${1#dir:}
    case $path in '~'*) return ;; esac
    while IFS= read -r folder; do
        folder=dir:$folder
        COMPREPLY+=("${folder#"$2"}")
    done < <(compgen -d -- "$path")
    compopt -o filenames -o nospace 2>/dev/null
}

# Offers the files and folders whose path begins as $1.
_jop_files() {
    local file
    while IFS= read -r file; do
        COMPREPLY+=("$file")
    done < <(compgen -f -- "$1")
    compopt -o filenames 2>/dev/null
}

# Offers the targets that begin as the word $1, of which what stands from word $2 on is the beginning. Bash cuts words at colons,
# unless COMP_WORDBREAKS has none or the word is quoted. So the target may be several, of which the last is completed.
_jop_targets() {
    local word=$1 target=$1
    if [ "$COMP_CWORD" -gt "$2" ]; then
        printf -v target %s "${COMP_WORDS[@]:$2:COMP_CWORD-$2+1}"
        [[ ${COMP_LINE:0:COMP_POINT} == *[[:blank:]]"$target" ]] || return 0
    fi
    case $target in
        dir:*) _jop_folders "$target" "${target%"$word"}" ;;
        dav:* | webdav:*) ;;
        *)
            _jop_words "$word" mem: dir: dav: webdav:
            [ "${COMPREPLY[*]}" = mem: ] || compopt -o nospace 2>/dev/null
            ;;
    esac
}

_jop() {
    local word=$2 first=1
    COMPREPLY=()
    case ${COMP_WORDS[COMP_CWORD - 1]} in
        *'<' | *'>' | *'>|')
            _jop_files "$word"
            return 0
            ;;
    esac
    if [ "$COMP_CWORD" -gt 1 ] && [ "${COMP_WORDS[1]}" = --profile ]; then
        first=3
    fi
    case $((COMP_CWORD - first)) in
        -1) _jop_files "$word" ;;
        0)
            _jop_words "$word" add attach blob cat check conflicts edit find help keys ls mkbook move rename resources rm sync tag tags tidy trash untag upgrade version
            [[ $first -ne 1 || $word != -* ]] || _jop_words "$word" --profile
            ;;
        *) _jop_behind "$first" "$word" ;;
    esac
    return 0
}

# Offers what stands behind the command, which is word $1.
_jop_behind() {
    case ${COMP_WORDS[$1]}$((COMP_CWORD - $1)) in
        attach1) _jop_files "$2" ;;
        blob2) _jop_words "$2" --password ;;
        conflicts1) _jop_words "$2" --clear --show ;;
        edit2) _jop_words "$2" --title ;;
        keys1) _jop_words "$2" --new --use ;;
        ls1) _jop_words "$2" --tag ;;
        mkbook2) _jop_words "$2" --in ;;
        check* | sync* | upgrade*) _jop_targets "$2" $(($1 + 1)) ;;
    esac
}

complete -F _jop jop
