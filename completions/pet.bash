# Completion for bash of the words of pet and pet-keep: `source completions/pet.bash`, or ./install PREFIX, which puts it where
# bash-completion finds it, for either by its name.

# Offers these words for the current one. Bash replaces only what is behind the last colon of a word where colons part
# words, so what stands before it is left out.
_pet_offer() {
    local before=${1%"${1##*:}"} word
    [[ $COMP_WORDBREAKS == *:* ]] || before=
    COMPREPLY=()
    while IFS= read -r word; do
        COMPREPLY+=("${word#"$before"}")
    done
}

# Offers files for a word that is a file name behind a prefix.
_pet_files() {
    compopt -o filenames 2>/dev/null
    _pet_offer "$1" < <(compgen -P "$2" -f -- "${1#"$2"}")
}

# Offers the two forms of FROM and TO, and such other words as the place has, and then files.
_pet_places() {
    if [[ $1 == file:* ]]; then
        _pet_files "$1" file:
    elif [[ $1 != udp:* ]]; then
        compopt -o nospace 2>/dev/null
        _pet_offer "$1" < <(compgen -W "file: udp: ${2-}" -- "$1")
    fi
}

# Offers the session of the first packet of a datagram file, which FROM names.
_pet_session() {
    local head=
    [[ $2 == file:* && -f ${2#file:} ]] && head=$(od -An -v -tx1 -j 2 -N 12 -- "${2#file:}" 2>/dev/null | tr -d ' \n')
    # The mark is PET2 or PET8.
    [[ $head =~ ^5045543[28].{16}$ ]] && _pet_offer "$1" < <(compgen -W "${head:8}" -- "$1")
}

# The words up to the cursor. Unlike COMP_WORDS, these are not parted at colons, and without the backslashes before blanks.
_pet_words() {
    # shellcheck disable=SC2162
    read -a words <<<"${COMP_LINE:0:COMP_POINT}"
    [[ ${COMP_LINE:0:COMP_POINT} == *[[:space:]] ]] && words+=("")
    at=$((${#words[@]} - 1))
    current=${words[at]}
}

_pet() {
    local -a words
    local at current
    _pet_words
    local names="plan check send receive merge video unwrap wrap migrate repair relay replay sample bsend breceive help --version"
    # This is a word of the script in a checkout.
    [[ ${words[0]} == */* ]] && names+=" build"
    COMPREPLY=()
    case ${words[1]}:$at in
        *:1) _pet_offer "$current" < <(compgen -W "$names" -- "$current") ;;
        plan:[23] | check:[234] | send:[23] | receive:[45] | merge:[234] | video:[23] | unwrap:[24] | wrap:[23] | migrate:[23] | repair:2 | replay:[234] | bsend:[23] | breceive:4)
            _pet_files "$current" ""
            ;;
        unwrap:3) _pet_offer "$current" < <(compgen -W "$(printf 'e%x ' {0..15})" -- "$current") ;;
        send:4 | receive:2 | repair:3 | relay:[24] | bsend:4 | breceive:2) _pet_places "$current" ;;
        receive:3 | relay:3 | breceive:3) _pet_session "$current" "${words[2]}" ;;
    esac
}

_pet_keep() {
    local -a words
    local at current
    _pet_words
    COMPREPLY=()
    case $at in
        1)
            local names="help --version"
            [[ ${words[0]} == */* ]] && names+=" build"
            _pet_places "$current" "$names"
            ;;
        2) _pet_session "$current" "${words[1]}" ;;
        [34]) _pet_files "$current" "" ;;
    esac
}

complete -F _pet pet
complete -F _pet_keep pet-keep
